// Ordered sets and maps with access by position, for C++17 and later: the collections of indexset.h in the style of
// std::set, std::map and pb_ds.
//
//     indexset::set<int> numbers{30, 10, 20};
//     numbers.insert(25);
//     *numbers.find_by_order(1);                // 20: by position
//     numbers.order_of_key(25);                 // 2: the number of elements below
//     numbers.end() - numbers.lower_bound(20);  // 3: iterators have random access
//
//     indexset::map<double, std::uint32_t> prices;
//     prices[2.5] = 7;
//     for (auto [price, amount] : prices) std::printf("%g %u\n", price, amount);
//
// Collections: `set<K>`, `map<K, V>`, `byte_set` and `byte_map<V>`, whose keys are byte strings, `object_map<K, V>` and
// `byte_object_map<V>`, whose values have any type, `multimap<K, V>`, whose keys may have several distinct values,
// `logged_map<K, V>` and `logged_byte_map<V>`, which report their changes, and `replica<K, V>`, which follows a
// logged_map by its changes. All are ordered and give access by position.
//
// Keys: all integer types, `bool`, character types, enums, `float` and `double`, in the order of `<`. For
// floating-point keys, -0.0 equals 0.0, and NaN is one key, above all others. Any other type becomes a key by a
// specialization of `key_code`. With `std::greater<>` as the last argument of `set`, `map` and `object_map` the keys
// descend. A value has a trivially copyable type of at most 8 bytes: a number, a pointer, an index. A collection
// returns copies: its elements cannot be written through iterators. Only a map to objects returns references to its
// values.
//
// Iterators are positions. They meet std::random_access_iterator of C++20, and all requirements of such an iterator of
// C++17 but one: `*it` is a value and not a reference. A change of a collection invalidates its iterators, except those
// that the change returns. As long as the collection lives, using an invalid iterator touches no freed memory, but it
// may point to another element, or to none, which an assertion rejects. After a move or a swap, iterators point into
// the collection that has the elements. Elements are fetched in runs, so that iteration does not search for each of
// them; if a run cannot be allocated, it does.
//
// Exceptions: std::bad_alloc if an allocation fails, std::out_of_range of `at`, and what the caller's own iterators,
// functions and objects throw; no others. After an exception nothing has changed. `apply_all` of a replica throws only
// if it processed no change; otherwise it returns the number of changes that it processed. Moves, swaps and `clear`
// allocate nothing, and neither does `erase` of set, map and byte_map, nor the constructor of an empty collection.
//
// Threads: a collection is used by one thread at a time, for reads too, because iterations keep what they fetch in it.
// Two collections are independent.
#ifndef INDEXSET_HPP
#define INDEXSET_HPP

#include "indexset/logged.hpp"
#include "indexset/multimap.hpp"
#include "indexset/objects.hpp"
#include "indexset/sets.hpp"

#include <cstdint>
#include <iterator>
#include <type_traits>
#include <utility>
#include <vector>
#if __cplusplus >= 202002L
#include <compare>
#include <ranges>
#endif

namespace indexset {

// Returns the version of the library: major * 65536 + minor * 256 + patch.
inline std::uint32_t version() noexcept { return indexset_version(); }

// Returns whether the contracts of the library were proved before it was compiled.
inline bool is_proved() noexcept { return indexset_proved != 0; }

// Returns what the library was built from: the toolchain that proved it, if one did, and the commit.
inline const char *build() noexcept { return indexset_build; }

// Removes the elements for which `condition` holds, and returns their number. Calls it for all elements before it
// removes any.
template <class Collection, class Condition>
auto erase_if(Collection &from, Condition condition) -> typename Collection::size_type {
    static_assert(noexcept(from.erase(from.begin())), "a removal allocates nothing");
    const auto positions = detail::positions_where(from, condition);
    for (auto it = positions.rbegin(); it != positions.rend(); ++it) from.erase(from.find_by_order(*it));
    return positions.size();
}

// The guarantees of iterators and collections.
static_assert(std::is_same_v<set<int>::reference, int> && std::is_same_v<map<int, int>::reference, std::pair<int, int>>,
              "what an iterator hands out is a value, where C++17 asks a forward iterator for a reference");
static_assert(std::is_nothrow_move_constructible_v<set<int>>);
static_assert(std::is_nothrow_move_assignable_v<map<int, int>>);
static_assert(std::is_nothrow_swappable_v<byte_map<int>>);
static_assert(std::is_nothrow_default_constructible_v<set<int>>);
#if __cplusplus >= 202002L
static_assert(std::ranges::random_access_range<const set<int>>);
static_assert(std::ranges::random_access_range<const map<int, int>>);
static_assert(std::ranges::random_access_range<const byte_map<int>>);
static_assert(std::ranges::sized_range<const set<int>>);
static_assert(std::ranges::common_range<const set<int>>);
static_assert(!std::ranges::contiguous_range<const set<int>>);
static_assert(std::ranges::random_access_range<const multimap<int, int>>);
static_assert(std::ranges::random_access_range<const logged_map<>>);
static_assert(std::ranges::random_access_range<const logged_byte_map<>>);
static_assert(std::ranges::random_access_range<const replica<>>);
static_assert(!std::indirectly_writable<set<int>::iterator, int>);
static_assert(std::three_way_comparable<set<int>>);
static_assert(std::three_way_comparable<map<int, int>>);
#endif

} // namespace indexset

#endif
