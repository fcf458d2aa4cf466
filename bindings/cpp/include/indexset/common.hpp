// Definitions shared by all collections. Included by indexset.hpp.
#ifndef INDEXSET_COMMON_HPP
#define INDEXSET_COMMON_HPP

#include "indexset.h"
#include "keys.hpp"

#include <cstddef>
#include <cstdint>
#include <functional>
#include <iterator>
#include <memory>
#include <new>
#include <type_traits>
#include <utility>
#if __cplusplus >= 202002L
#include <compare>
#include <concepts>
#endif

namespace indexset {

namespace detail {

inline constexpr std::uint64_t greatest = ~std::uint64_t{0};
inline constexpr std::size_t unknown = ~std::size_t{0};

// The result of `it->`, where `*it` is a value.
template <class T>
class arrow {
  public:
    explicit arrow(T value) : value_(std::move(value)) {}
    T *operator->() noexcept { return std::addressof(value_); }

  private:
    T value_;
};

// A pair as the library stores it.
struct pair {
    std::uint64_t key, value;
};

// Throws if the call failed for lack of memory.
inline void pass(std::uint32_t answer) {
    if (answer == INDEXSET_MEMORY) throw std::bad_alloc();
}

// The types that are iterators: only these templates accept two of them.
template <class It>
using only_iterators = std::enable_if_t<
    std::is_convertible_v<typename std::iterator_traits<It>::iterator_category, std::input_iterator_tag>>;

#if __cplusplus >= 202002L
template <class V>
concept ordered = std::three_way_comparable<V> || requires(const V &a, const V &b) {
    { a < b } -> std::convertible_to<bool>;
};

// Compares two values that have `<=>` or `<`.
template <class V>
auto three_way(const V &a, const V &b) {
    if constexpr (std::three_way_comparable<V>) {
        return a <=> b;
    } else {
        return a < b ? std::weak_ordering::less : b < a ? std::weak_ordering::greater : std::weak_ordering::equivalent;
    }
}
#endif

// Whether two iterations have equal elements, and which is less in lexicographical order. An iteration returns one
// element after another, and then none.
template <class Order, class Walk>
bool are_equal(Walk a, Walk b) {
    for (;;) {
        const auto left = a.next(), right = b.next();
        if (!left || !right) return !left && !right;
        if (!Order::equal(*left, *right)) return false;
    }
}

#if __cplusplus >= 202002L
template <class Order, class Walk>
auto compare(Walk a, Walk b) {
    using result = decltype(Order::compare(*a.next(), *b.next()));
    for (;;) {
        const auto left = a.next(), right = b.next();
        if (!left || !right) return result(left.has_value() <=> right.has_value());
        if (const result found = Order::compare(*left, *right); found != 0) return found;
    }
}
#else
template <class Order, class Walk>
bool is_less(Walk a, Walk b) {
    for (;;) {
        const auto left = a.next(), right = b.next();
        if (!left || !right) return !left && right;
        if (Order::less(*left, *right)) return true;
        if (Order::less(*right, *left)) return false;
    }
}
#endif

// The comparisons of two collections, by their elements in order.
template <class Self, class Order>
class comparisons {
  public:
    friend bool operator==(const Self &a, const Self &b) {
        return a.size() == b.size() && are_equal<Order>(walk_of(a), walk_of(b));
    }
#if __cplusplus >= 202002L
    friend auto operator<=>(const Self &a, const Self &b) requires(Order::is_ordered) {
        return compare<Order>(walk_of(a), walk_of(b));
    }
#else
    friend bool operator!=(const Self &a, const Self &b) { return !(a == b); }
    friend bool operator<(const Self &a, const Self &b) { return is_less<Order>(walk_of(a), walk_of(b)); }
    friend bool operator>(const Self &a, const Self &b) { return b < a; }
    friend bool operator<=(const Self &a, const Self &b) { return !(b < a); }
    friend bool operator>=(const Self &a, const Self &b) { return !(a < b); }
#endif
    friend void swap(Self &a, Self &b) noexcept { a.swap(b); }

  private:
    static auto walk_of(const Self &collection) { return collection.walk(); }
};

// The keys of elements that are stored as pairs. Elements are compared by their keys in ascending order, also those of
// a collection in descending order, as in std.
template <class K, class Compare>
struct pair_keys {
    using key_type = K;
    using key_compare = key_order<K, Compare>;
    static std::uint64_t key(K of) noexcept { return key_compare::encode(of); }
    static K key_of(const pair &element) noexcept { return key_compare::decode(element.key); }
    static bool is_below(const pair &a, const pair &b) noexcept {
        return key_compare::turned(a.key) < key_compare::turned(b.key);
    }
#if __cplusplus >= 202002L
    static std::strong_ordering compare_keys(const pair &a, const pair &b) noexcept {
        return key_compare::turned(a.key) <=> key_compare::turned(b.key);
    }
#endif
};

template <class K, class Compare = std::less<K>>
struct set_code : pair_keys<K, Compare> {
    using value_type = K;
    static K decode(const pair &element) noexcept { return set_code::key_of(element); }
    static bool equal(const pair &a, const pair &b) noexcept { return a.key == b.key; }
    static bool less(const pair &a, const pair &b) noexcept { return set_code::is_below(a, b); }
#if __cplusplus >= 202002L
    static constexpr bool is_ordered = true;
    static std::strong_ordering compare(const pair &a, const pair &b) noexcept { return set_code::compare_keys(a, b); }
#endif
};

template <class K, class V, class Compare = std::less<K>>
struct map_code : pair_keys<K, Compare> {
    using value_type = std::pair<K, V>;
    static value_type decode(const pair &element) noexcept { return {map_code::key_of(element), value(element)}; }
    static V value(const pair &element) noexcept { return value_code<V>::decode(element.value); }
    static bool equal(const pair &a, const pair &b) { return a.key == b.key && value(a) == value(b); }
    static bool less(const pair &a, const pair &b) {
        return a.key != b.key ? map_code::is_below(a, b) : value(a) < value(b);
    }
#if __cplusplus >= 202002L
    static constexpr bool is_ordered = ordered<V>;
    static auto compare(const pair &a, const pair &b) {
        const auto values = three_way(value(a), value(b));
        return a.key != b.key ? decltype(values)(map_code::compare_keys(a, b)) : values;
    }
#endif
};

// A handle and its collection, on the heap: it never moves.
template <class Calls>
class held {
  public:
    held() noexcept = default;
    held(const held &) = delete;
    held &operator=(const held &) = delete;
    ~held() { Calls::release(&handle_); }

    // Gives an empty handle a copy of the collection.
    void copy_from(const held &from) { pass(Calls::clone(&from.handle_, &handle_)); }
    void clear() noexcept { Calls::clear(&handle_); }

    std::size_t size() const noexcept { return Calls::len(&handle_); }
    typename Calls::handle *handle() const noexcept { return &handle_; }

  private:
    mutable typename Calls::handle handle_{};
};

} // namespace detail

} // namespace indexset

#endif
