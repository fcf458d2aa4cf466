// The multimap. Included by indexset.hpp.
#ifndef INDEXSET_MULTIMAP_HPP
#define INDEXSET_MULTIMAP_HPP

#include "pairs.hpp"
#include "positions.hpp"

#include <algorithm>
#include <cstddef>
#include <cstdint>
#include <initializer_list>
#include <iterator>
#include <optional>
#include <type_traits>
#include <utility>
#include <vector>

namespace indexset {

// An ordered map whose keys may have several values. The values of a key are distinct, by their bytes, and are in
// insertion order.
template <class K, class V>
class multimap : public detail::copied<multimap<K, V>, detail::multi_store<detail::map_code<K, V>>> {
    static_assert(std::has_unique_object_representations_v<V> || std::is_floating_point_v<V>,
                  "equal values of a multimap have equal bytes");

  public:
    using base = typename multimap::copied;
    using mapped_type = V;
    using typename base::const_iterator;
    using typename base::iterator;
    using typename base::size_type;
    using typename base::value_type;

    multimap() noexcept = default;
    multimap(std::initializer_list<value_type> pairs) { insert(pairs); }
    template <class It, class = detail::only_iterators<It>>
    multimap(It first, It last) {
        insert(first, last);
    }
    multimap &operator=(std::initializer_list<value_type> pairs) { return *this = multimap(pairs); }

    // Returns whether a key has a value, or the number of its values. One search.
    using base::contains;
    bool contains(K key, const V &value) const noexcept {
        return this->store_ && this->store_->contains(code(key, value));
    }
    size_type count(K key) const noexcept { return this->store_ ? this->store_->count(key) : 0; }

    // Returns the pair of a key and a value, or the end if there is none. One search; asking for its position takes
    // another one, and an iteration over the values of its key before it.
    using base::find;
    iterator find(K key, const V &value) const noexcept {
        return contains(key, value) ? placed(code(key, value)) : this->end();
    }

    // Returns the values of a key, in insertion order.
    std::vector<V> values(K key) const {
        std::vector<std::uint64_t> codes(count(key));
        if (!codes.empty()) this->store_->read_values(key_code<K>::encode(key), codes);
        std::vector<V> values;
        values.reserve(codes.size());
        for (std::uint64_t it : codes) values.push_back(value_code<V>::decode(it));
        return values;
    }

    // Adds a value to those of a key, as the last. Returns the pair, and whether it was added. One search.
    std::pair<iterator, bool> insert(const value_type &pair) {
        const detail::pair element = code_of(pair);
        const bool added = this->made().add(element);
        return {placed(element), added};
    }
    iterator insert(const_iterator, const value_type &pair) { return insert(pair).first; }

    template <class... Args>
    std::pair<iterator, bool> emplace(Args &&...args) {
        return insert(value_type(std::forward<Args>(args)...));
    }
    template <class... Args>
    iterator emplace_hint(const_iterator, Args &&...args) {
        return insert(value_type(std::forward<Args>(args)...)).first;
    }

    // Adds pairs. If an allocation fails for one, those before it are removed.
    template <class It, class = detail::only_iterators<It>>
    void insert(It first, It last) {
        std::vector<detail::pair> pairs;
        for (; first != last; ++first) pairs.push_back(code_of(*first));
        if (!pairs.empty()) add_all(pairs);
    }
    void insert(std::initializer_list<value_type> pairs) { insert(pairs.begin(), pairs.end()); }

    // Removes a value of a key. Returns the number of removed pairs: 0 or 1.
    size_type erase(K key, const V &value) { return this->store_ && this->store_->remove(code(key, value)) ? 1 : 0; }

    // Removes the first value of a key and returns it.
    std::optional<V> erase_first(K key) {
        std::uint64_t value;
        if (!this->store_ || !this->store_->remove_first(key_code<K>::encode(key), value)) return std::nullopt;
        return value_code<V>::decode(value);
    }

    // Removes all values of a key. Returns the number of removed pairs. One search by position for each.
    size_type erase(K key) {
        const size_type removed = count(key);
        if (removed != 0) this->store_->remove_from(this->order_of_key(key), removed);
        return removed;
    }

    // Removes a pair, or those from `first` to before `last`. Returns the pair after them. One search for each.
    iterator erase(iterator it) {
        const size_type position = it.position();
        this->store_->remove_at(position);
        return this->at_position(position);
    }
    iterator erase(iterator first, iterator last) {
        const size_type from = first.position(), past = last.position();
        if (from == past) return first;
        if (from == 0 && past == this->size()) {
            this->clear();
        } else {
            this->store_->remove_from(from, past - from);
        }
        return this->at_position(from);
    }

  private:
    template <class A, class B, class Condition>
    friend std::size_t erase_if(multimap<A, B> &from, Condition condition);

    static detail::pair code(K key, const V &value) noexcept {
        return {key_code<K>::encode(key), value_code<V>::encode(value)};
    }
    static detail::pair code_of(const value_type &pair) noexcept { return code(pair.first, pair.second); }

    iterator placed(const detail::pair &element) const noexcept { return iterator(this->store_.get(), element); }

    void add_all(std::vector<detail::pair> &pairs) {
        auto &store = this->made();
        std::vector<size_type> positions;
        positions.reserve(pairs.size());
        size_type added = 0;
        try {
            for (size_type i = 0; i < pairs.size(); i++) {
                if (store.add(pairs[i])) pairs[added++] = pairs[i];
            }
        } catch (...) {
            for (size_type i = 0; i < added; i++) positions.push_back(store.position_of(pairs[i]));
            std::sort(positions.begin(), positions.end());
            if (added != 0) store.remove_all(std::move(positions));
            throw;
        }
    }
};

// Removes the pairs for which `condition` holds, and returns their number. Calls it for all pairs before it removes
// any.
template <class A, class B, class Condition>
std::size_t erase_if(multimap<A, B> &from, Condition condition) {
    std::vector<std::size_t> positions = detail::positions_where(from, condition);
    const std::size_t removed = positions.size();
    if (removed != 0) from.store_->remove_all(std::move(positions));
    return removed;
}

template <class K, class V>
multimap(std::initializer_list<std::pair<K, V>>) -> multimap<K, V>;
template <class It, class = detail::only_iterators<It>>
multimap(It, It) -> multimap<std::remove_const_t<typename std::iterator_traits<It>::value_type::first_type>,
                             typename std::iterator_traits<It>::value_type::second_type>;

} // namespace indexset

#endif
