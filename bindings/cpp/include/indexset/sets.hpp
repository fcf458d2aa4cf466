// The set, the map and the map from byte strings. Included by indexset.hpp.
#ifndef INDEXSET_SETS_HPP
#define INDEXSET_SETS_HPP

#include "bytes.hpp"
#include "mapped.hpp"
#include "numbers.hpp"

#include <algorithm>
#include <cstddef>
#include <cstdint>
#include <functional>
#include <initializer_list>
#include <iterator>
#include <new>
#include <string>
#include <string_view>
#include <type_traits>
#include <utility>
#include <vector>

namespace indexset {

// An ordered set of numbers, with access by position; in descending order if `Compare` is `std::greater<>`.
template <class K, class Compare = std::less<K>>
class set
    : public detail::positions<set<K, Compare>, detail::number_store<detail::set_calls, detail::set_code<K, Compare>>> {
  public:
    using base = typename set::positions;
    using typename base::const_iterator;
    using typename base::iterator;
    using value_compare = typename base::key_compare;

    set() noexcept = default;
    set(std::initializer_list<K> keys) { insert(keys); }
    template <class It, class = detail::only_iterators<It>>
    set(It first, It last) {
        insert(first, last);
    }
    set &operator=(std::initializer_list<K> keys) { return *this = set(keys); }

    value_compare value_comp() const noexcept { return {}; }

    // Adds a key. Returns the element, and whether it was added. One search.
    std::pair<iterator, bool> insert(K key) {
        const std::uint64_t code = value_compare::encode(key);
        auto &store = this->made();
        const std::uint32_t answer = indexset_set_insert(store.handle(), code);
        detail::pass(answer);
        if (answer == INDEXSET_YES) store.changed();
        return {iterator(&store, detail::pair{code, 0}), answer == INDEXSET_YES};
    }
    iterator insert(const_iterator, K key) { return insert(key).first; }

    template <class... Args>
    std::pair<iterator, bool> emplace(Args &&...args) {
        return insert(K(std::forward<Args>(args)...));
    }
    template <class... Args>
    iterator emplace_hint(const_iterator, Args &&...args) {
        return insert(K(std::forward<Args>(args)...)).first;
    }

    // Adds keys.
    template <class It, class = detail::only_iterators<It>>
    void insert(It first, It last) {
        std::vector<std::uint64_t> codes;
        for (; first != last; ++first) codes.push_back(value_compare::encode(*first));
        if (!codes.empty()) add_all(codes);
    }
    void insert(std::initializer_list<K> keys) { insert(keys.begin(), keys.end()); }

  private:
    void add_all(std::vector<std::uint64_t> &codes) {
        auto &store = this->made();
        const bool was_empty = store.size() == 0;
        std::uint32_t answer = INDEXSET_YES;
        std::size_t added = 0;
        if (was_empty && std::adjacent_find(codes.begin(), codes.end(), std::greater_equal<>()) == codes.end()) {
            indexset_set made = INDEXSET_HANDLE;
            answer = indexset_set_from_sorted(&made, codes.data(), codes.size());
            if (answer == INDEXSET_YES) indexset_set_move(store.handle(), &made);
        } else if (was_empty) {
            answer = indexset_set_insert_all(store.handle(), codes.data(), codes.size(), &added);
        } else {
            for (std::size_t i = 0; i < codes.size() && answer != INDEXSET_MEMORY; i++) {
                answer = indexset_set_insert(store.handle(), codes[i]);
                if (answer == INDEXSET_YES) codes[added++] = codes[i];
            }
        }
        store.changed();
        if (answer != INDEXSET_MEMORY) return;
        if (was_empty) this->clear();
        while (!was_empty && added != 0) indexset_set_remove(store.handle(), codes[--added]);
        throw std::bad_alloc();
    }
};

template <class It, class = detail::only_iterators<It>>
set(It, It) -> set<typename std::iterator_traits<It>::value_type>;

// An ordered map from numbers to values, with access by position; in descending order if `Compare` is `std::greater<>`.
template <class K, class V, class Compare = std::less<K>>
class map : public detail::mapped<map<K, V, Compare>,
                                  detail::number_store<detail::map_calls, detail::map_code<K, V, Compare>>, V> {
  public:
    using base = typename map::mapped;
    using typename base::pair_argument;

    map() noexcept = default;
    map(std::initializer_list<pair_argument> pairs) { this->insert(pairs); }
    template <class It, class = detail::only_iterators<It>>
    map(It first, It last) {
        this->insert(first, last);
    }
    map &operator=(std::initializer_list<pair_argument> pairs) { return *this = map(pairs); }
};

template <class K, class V>
map(std::initializer_list<std::pair<K, V>>) -> map<K, V>;
template <class It, class = detail::only_iterators<It>>
map(It, It) -> map<std::remove_const_t<typename std::iterator_traits<It>::value_type::first_type>,
                   typename std::iterator_traits<It>::value_type::second_type>;

// An ordered map from byte strings to values, with access by position. Keys are in the order of std::string, which for
// text in UTF-8 is that of its code points.
template <class V>
class byte_map
    : public detail::mapped<byte_map<V>, detail::byte_store<detail::byte_calls, detail::byte_map_code<V>>, V> {
  public:
    using base = typename byte_map::mapped;
    using typename base::pair_argument;

    byte_map() noexcept = default;
    byte_map(std::initializer_list<pair_argument> pairs) { this->insert(pairs); }
    template <class It, class = detail::only_iterators<It>>
    byte_map(It first, It last) {
        this->insert(first, last);
    }
    byte_map &operator=(std::initializer_list<pair_argument> pairs) { return *this = byte_map(pairs); }
};

// An ordered set of byte strings, with access by position, in the same order.
class byte_set : public detail::positions<byte_set, detail::byte_store<detail::byte_calls, detail::byte_set_code>> {
  public:
    using base = byte_set::positions;
    using value_compare = base::key_compare;

    byte_set() noexcept = default;
    byte_set(std::initializer_list<std::string_view> keys) { insert(keys); }
    template <class It, class = detail::only_iterators<It>>
    byte_set(It first, It last) {
        insert(first, last);
    }
    byte_set &operator=(std::initializer_list<std::string_view> keys) { return *this = byte_set(keys); }

    value_compare value_comp() const noexcept { return {}; }

    // Adds a key. Returns the element, and whether it was added. Two searches.
    std::pair<iterator, bool> insert(std::string_view key) {
        const bool added = add(key);
        return {this->lower_bound(key), added};
    }
    iterator insert(const_iterator, std::string_view key) { return insert(key).first; }

    template <class... Args>
    std::pair<iterator, bool> emplace(Args &&...args) {
        return insert(std::string(std::forward<Args>(args)...));
    }
    template <class... Args>
    iterator emplace_hint(const_iterator, Args &&...args) {
        return emplace(std::forward<Args>(args)...).first;
    }

    // Adds keys.
    template <class It, class = detail::only_iterators<It>>
    void insert(It first, It last) {
        std::vector<std::string> keys;
        for (; first != last; ++first) keys.emplace_back(*first);
        add_all(keys);
    }
    void insert(std::initializer_list<std::string_view> keys) { insert(keys.begin(), keys.end()); }

  private:
    bool add(std::string_view key) {
        std::uint64_t before;
        auto &store = this->made();
        const std::uint32_t answer = store.put(key, 0, before);
        detail::pass(answer);
        if (answer == INDEXSET_YES) store.changed();
        return answer == INDEXSET_YES;
    }

    void add_all(std::vector<std::string> &keys) {
        std::size_t added = 0;
        try {
            for (std::string &key : keys) {
                if (add(key)) std::swap(keys[added++], key);
            }
        } catch (...) {
            while (added != 0) this->erase(keys[--added]);
            throw;
        }
    }
};

} // namespace indexset

#endif
