// Definitions shared by map and byte_map. Included by indexset.hpp.
#ifndef INDEXSET_MAPPED_HPP
#define INDEXSET_MAPPED_HPP

#include "positions.hpp"

#include <cstddef>
#include <cstdint>
#include <initializer_list>
#include <optional>
#include <stdexcept>
#include <type_traits>
#include <utility>
#include <vector>

namespace indexset {

namespace detail {

// The result of `map[key]`: the value of a key. Reading it inserts V{} if the key is absent.
template <class Map>
class value_reference {
  public:
    using value_type = typename Map::mapped_type;

    value_reference(Map &map, typename Map::key_argument key) noexcept : map_(map), key_(key) {}
    value_reference(const value_reference &) = default;

    operator value_type() const {
        if (const std::optional<value_type> value = map_.get(key_)) return *value;
        map_.try_emplace(key_);
        return value_type();
    }

    value_reference &operator=(value_type value) {
        map_.insert_or_assign(key_, value);
        return *this;
    }
    value_reference &operator=(const value_reference &other) {
        const bool added = other.map_.try_emplace(other.key_).second;
        try {
            return *this = *other.map_.get(other.key_);
        } catch (...) {
            if (added) other.map_.erase(other.key_);
            throw;
        }
    }

    template <class By>
    value_reference &operator+=(const By &by) {
        return *this = static_cast<value_type>(map_.get(key_).value_or(value_type{}) + by);
    }
    template <class By>
    value_reference &operator-=(const By &by) {
        return *this = static_cast<value_type>(map_.get(key_).value_or(value_type{}) - by);
    }
    value_reference &operator++() { return *this += 1; }
    value_reference &operator--() { return *this -= 1; }

    // Compares a value of a class, whose `operator==` may be a member.
    template <class Other, class V = value_type, class = std::enable_if_t<std::is_class_v<V>>>
    friend auto operator==(const value_reference &a, const Other &b)
        -> decltype(static_cast<bool>(std::declval<const V &>() == b)) {
        return static_cast<bool>(static_cast<const V &>(static_cast<V>(a)) == b);
    }
    template <class Other, class V = value_type, class = std::enable_if_t<std::is_class_v<V>>>
    friend auto operator!=(const value_reference &a, const Other &b)
        -> decltype(static_cast<bool>(std::declval<const V &>() == b)) {
        return !(a == b);
    }

  private:
    Map &map_;
    typename Map::key_argument key_;
};

// Members shared by map and byte_map.
template <class Self, class Store, class V>
class mapped : public positions<Self, Store> {
    using base = positions<Self, Store>;

  public:
    using mapped_type = V;
    using typename base::const_iterator;
    using typename base::iterator;
    using typename base::key_argument;
    using typename base::size_type;
    using typename base::value_type;
    using pair_argument = std::pair<key_argument, V>; // the parameter type of a pair

    // Returns the value of a key, if any. One search.
    std::optional<V> get(key_argument key) const noexcept {
        std::uint64_t code;
        if (!this->store_ || !this->store_->get(key, code)) return std::nullopt;
        return value_code<V>::decode(code);
    }

    // Returns the value of a key. Throws std::out_of_range if the key is absent.
    V at(key_argument key) const {
        if (const std::optional<V> value = get(key)) return *value;
        throw std::out_of_range("indexset: no such key");
    }

    // Returns the value of a key, to read or write: `map[key] = value`, `map[key] += 1`. Reading it inserts V{} if the
    // key is absent.
    value_reference<Self> operator[](key_argument key) noexcept { return {static_cast<Self &>(*this), key}; }

    // Inserts a pair if its key is absent. Returns the pair of the key, and whether it was inserted.
    std::pair<iterator, bool> insert(const pair_argument &pair) { return try_emplace(pair.first, pair.second); }
    iterator insert(const_iterator, const pair_argument &pair) { return insert(pair).first; }

    template <class... Args>
    std::pair<iterator, bool> emplace(Args &&...args) {
        return insert(value_type(std::forward<Args>(args)...));
    }
    template <class... Args>
    iterator emplace_hint(const_iterator, Args &&...args) {
        return emplace(std::forward<Args>(args)...).first;
    }

    template <class... Args>
    std::pair<iterator, bool> try_emplace(key_argument key, Args &&...args) {
        const std::uint64_t value = value_code<V>::encode(V(std::forward<Args>(args)...));
        std::uint64_t before = value;
        const bool added = add(key, value, before);
        return {placed(key, before), added};
    }

    // Sets the value of a key. Returns the pair, and whether the key was absent.
    std::pair<iterator, bool> insert_or_assign(key_argument key, const V &value) {
        const std::uint64_t code = value_code<V>::encode(value);
        std::uint64_t before;
        Store &store = this->made();
        const std::uint32_t answer = store.put(key, code, before);
        pass(answer);
        store.changed();
        return {placed(key, code), answer == INDEXSET_YES};
    }

    // Inserts the pairs whose keys are absent; of pairs with equal keys the first.
    template <class It, class = only_iterators<It>>
    void insert(It first, It last) {
        std::vector<value_type> pairs;
        for (; first != last; ++first) pairs.emplace_back(*first);
        add_all(pairs);
    }
    void insert(std::initializer_list<pair_argument> pairs) { insert(pairs.begin(), pairs.end()); }

    // Calls a function with the values of `count` pairs from a position on, in order. Allocates nothing.
    template <class Call>
    void each_value(size_type from, size_type count, Call call) const {
        std::uint64_t codes[64];
        while (count != 0) {
            const size_type read = this->store_->read_values(from, codes, count < 64 ? count : 64);
            for (size_type i = 0; i < read; i++) call(value_code<V>::decode(codes[i]));
            from += read, count -= read;
        }
    }

  private:
    // Adds a pair, or writes the value of a present key to `before`. Setting the value of a present key allocates
    // nothing.
    bool add(key_argument key, std::uint64_t value, std::uint64_t &before) {
        Store &store = this->made();
        const std::uint32_t answer = store.put(key, value, before);
        pass(answer);
        if (answer == INDEXSET_NO) {
            std::uint64_t passed;
            store.put(key, before, passed);
        } else {
            store.changed();
        }
        return answer == INDEXSET_YES;
    }

    void add_all(std::vector<value_type> &pairs) {
        std::size_t added = 0;
        try {
            for (std::size_t i = 0; i < pairs.size(); i++) {
                std::uint64_t before;
                if (add(pairs[i].first, value_code<V>::encode(pairs[i].second), before))
                    std::swap(pairs[added++], pairs[i]);
            }
        } catch (...) {
            while (added != 0) this->erase(key_argument(pairs[--added].first));
            throw;
        }
    }

    iterator placed(key_argument key, std::uint64_t value) const noexcept {
        if constexpr (Store::notes) {
            return iterator(this->store_.get(), Store::note(key, value));
        } else {
            static_cast<void>(value);
            return this->lower_bound(key);
        }
    }
};

} // namespace detail

} // namespace indexset

#endif
