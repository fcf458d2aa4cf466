// Maps to objects of any type. Included by indexset.hpp.
#ifndef INDEXSET_OBJECTS_HPP
#define INDEXSET_OBJECTS_HPP

#include "sets.hpp"

#include <cstddef>
#include <functional>
#include <initializer_list>
#include <iterator>
#include <memory>
#include <optional>
#include <stdexcept>
#include <type_traits>
#include <utility>
#include <vector>

namespace indexset {

namespace detail {

// A position in a map to objects: `*it` is a pair of a key and a reference.
template <class Base, class Key, class V>
class object_iterator {
  public:
    using iterator_category = std::random_access_iterator_tag;
    using value_type = std::pair<Key, V &>;
    using difference_type = std::ptrdiff_t;
    using reference = value_type;
    using pointer = arrow<value_type>;

    object_iterator() noexcept = default;
    explicit object_iterator(Base base) noexcept : base_(base) {}
    // An iterator that reads, of one that may write.
    template <class Other, class = std::enable_if_t<std::is_same_v<const Other, V>>>
    object_iterator(const object_iterator<Base, Key, Other> &other) noexcept : base_(other.base()) {}

    reference operator*() const {
        auto element = *base_;
        return {std::move(element.first), *element.second};
    }
    pointer operator->() const { return pointer(**this); }
    reference operator[](difference_type by) const { return *(*this + by); }

    object_iterator &operator++() noexcept { return *this += 1; }
    object_iterator &operator--() noexcept { return *this -= 1; }
    object_iterator operator++(int) noexcept { return object_iterator(base_++); }
    object_iterator operator--(int) noexcept { return object_iterator(base_--); }
    object_iterator &operator+=(difference_type by) noexcept {
        base_ += by;
        return *this;
    }
    object_iterator &operator-=(difference_type by) noexcept {
        base_ -= by;
        return *this;
    }
    friend object_iterator operator+(object_iterator it, difference_type by) noexcept { return it += by; }
    friend object_iterator operator+(difference_type by, object_iterator it) noexcept { return it += by; }
    friend object_iterator operator-(object_iterator it, difference_type by) noexcept { return it -= by; }
    friend difference_type operator-(const object_iterator &a, const object_iterator &b) noexcept {
        return a.base_ - b.base_;
    }
    friend bool operator==(const object_iterator &a, const object_iterator &b) noexcept { return a.base_ == b.base_; }
    friend bool operator!=(const object_iterator &a, const object_iterator &b) noexcept { return a.base_ != b.base_; }
    friend bool operator<(const object_iterator &a, const object_iterator &b) noexcept { return a.base_ < b.base_; }
    friend bool operator>(const object_iterator &a, const object_iterator &b) noexcept { return a.base_ > b.base_; }
    friend bool operator<=(const object_iterator &a, const object_iterator &b) noexcept { return a.base_ <= b.base_; }
    friend bool operator>=(const object_iterator &a, const object_iterator &b) noexcept { return a.base_ >= b.base_; }

    const Base &base() const noexcept { return base_; }

  private:
    Base base_;
};

// A map to objects, over a map from the same keys to their addresses. A reference to an object is valid as long as its
// key is present. After an exception nothing has changed.
template <class Index, class V>
class objects {
    using base = typename Index::iterator;

  public:
    using key_type = typename Index::key_type;
    using mapped_type = V;
    using key_argument = typename Index::key_argument;
    using key_compare = typename Index::key_compare;
    using value_type = std::pair<key_type, V>;
    using size_type = std::size_t;
    using difference_type = std::ptrdiff_t;
    using iterator = object_iterator<base, key_type, V>;
    using const_iterator = object_iterator<base, key_type, const V>;
    using reverse_iterator = std::reverse_iterator<iterator>;
    using const_reverse_iterator = std::reverse_iterator<const_iterator>;

    objects() noexcept = default;
    objects(objects &&) noexcept = default;
    objects(const objects &other) : objects() {
        for (auto it = other.begin(); it != other.end(); ++it) try_emplace(it->first, it->second);
    }
    objects(std::initializer_list<value_type> pairs) : objects() {
        for (const value_type &pair : pairs) insert(pair);
    }
    objects &operator=(objects &&other) noexcept {
        if (this != &other) {
            clear();
            index_ = std::move(other.index_);
        }
        return *this;
    }
    objects &operator=(const objects &other) {
        if (this != &other) *this = objects(other);
        return *this;
    }
    ~objects() { clear(); }

    key_compare key_comp() const noexcept { return {}; }
    size_type size() const noexcept { return index_.size(); }
    [[nodiscard]] bool empty() const noexcept { return index_.empty(); }

    iterator begin() noexcept { return iterator(index_.begin()); }
    iterator end() noexcept { return iterator(index_.end()); }
    const_iterator begin() const noexcept { return const_iterator(index_.begin()); }
    const_iterator end() const noexcept { return const_iterator(index_.end()); }
    const_iterator cbegin() const noexcept { return begin(); }
    const_iterator cend() const noexcept { return end(); }
    reverse_iterator rbegin() noexcept { return reverse_iterator(end()); }
    reverse_iterator rend() noexcept { return reverse_iterator(begin()); }
    const_reverse_iterator rbegin() const noexcept { return const_reverse_iterator(end()); }
    const_reverse_iterator rend() const noexcept { return const_reverse_iterator(begin()); }

    // Reads by position and by key, as those of a map.
    iterator find_by_order(size_type position) noexcept { return iterator(index_.find_by_order(position)); }
    const_iterator find_by_order(size_type position) const noexcept {
        return const_iterator(index_.find_by_order(position));
    }
    size_type order_of_key(key_argument key) const noexcept { return index_.order_of_key(key); }
    bool contains(key_argument key) const noexcept { return index_.contains(key); }
    size_type count(key_argument key) const noexcept { return index_.count(key); }
    iterator find(key_argument key) noexcept { return iterator(index_.find(key)); }
    const_iterator find(key_argument key) const noexcept { return const_iterator(index_.find(key)); }
    iterator lower_bound(key_argument key) noexcept { return iterator(index_.lower_bound(key)); }
    const_iterator lower_bound(key_argument key) const noexcept { return const_iterator(index_.lower_bound(key)); }
    iterator upper_bound(key_argument key) noexcept { return iterator(index_.upper_bound(key)); }
    const_iterator upper_bound(key_argument key) const noexcept { return const_iterator(index_.upper_bound(key)); }

    // Returns the object of a key, or null. One search.
    V *get(key_argument key) noexcept { return index_.get(key).value_or(nullptr); }
    const V *get(key_argument key) const noexcept { return index_.get(key).value_or(nullptr); }

    // Returns the object of a key. Throws std::out_of_range if the key is absent.
    V &at(key_argument key) { return *index_.at(key); }
    const V &at(key_argument key) const { return *index_.at(key); }

    // Returns the object of a key; if the key is absent, inserts V().
    V &operator[](key_argument key) {
        V *const found = get(key);
        return found != nullptr ? *found : add(key);
    }

    // Makes an object for a key that is absent. Returns the pair of the key, and whether the object was made.
    template <class... Args>
    std::pair<iterator, bool> try_emplace(key_argument key, Args &&...args) {
        const bool adds = !contains(key);
        if (adds) add(key, std::forward<Args>(args)...);
        return {find(key), adds};
    }
    std::pair<iterator, bool> insert(const value_type &pair) { return try_emplace(pair.first, pair.second); }
    std::pair<iterator, bool> insert(value_type &&pair) { return try_emplace(pair.first, std::move(pair.second)); }

    // Sets the object of a key. Returns the pair, and whether the key was absent.
    template <class Value>
    std::pair<iterator, bool> insert_or_assign(key_argument key, Value &&value) {
        V *const found = get(key);
        if (found != nullptr) {
            *found = std::forward<Value>(value);
        } else {
            add(key, std::forward<Value>(value));
        }
        return {find(key), found == nullptr};
    }

    // Removes a key. Returns its object, or null if the key is absent.
    std::unique_ptr<V> extract(key_argument key) noexcept {
        std::unique_ptr<V> object(get(key));
        if (object) index_.erase(key);
        return object;
    }

    // Removes a key. Returns the number of removed objects: 0 or 1.
    size_type erase(key_argument key) noexcept { return extract(key) ? 1 : 0; }

    // Removes an object, or those from `first` to before `last`. Returns the one after them.
    iterator erase(const_iterator it) { return erase(it, it + 1); }
    iterator erase(const_iterator first, const_iterator last) {
        std::vector<std::unique_ptr<V>> removed(static_cast<size_type>(last - first));
        index_.each_value(first.base().position(), removed.size(),
                          [&, i = size_type{0}](V *object) mutable { removed[i++].reset(object); });
        return iterator(index_.erase(first.base(), last.base()));
    }

    // Removes all. Allocates nothing.
    void clear() noexcept {
        index_.each_value(0, index_.size(), [](V *object) { delete object; });
        index_.clear();
    }

    // Moves the objects of another map whose keys are absent here. If an allocation fails, both are unchanged.
    void merge(objects &other) { index_.merge(other.index_); }
    void merge(objects &&other) { merge(other); }

    void swap(objects &other) noexcept { index_.swap(other.index_); }
    friend void swap(objects &a, objects &b) noexcept { a.swap(b); }

    friend bool operator==(const objects &a, const objects &b) {
        if (a.size() != b.size()) return false;
        auto other = b.begin();
        for (auto it = a.begin(); it != a.end(); ++it, ++other) {
            if (!(*it == *other)) return false;
        }
        return true;
    }
    friend bool operator!=(const objects &a, const objects &b) { return !(a == b); }

  private:
    // Makes an object for a key that is absent.
    template <class... Args>
    V &add(key_argument key, Args &&...args) {
        auto made = std::make_unique<V>(std::forward<Args>(args)...);
        index_.insert({key, made.get()});
        return *made.release();
    }

    Index index_;
};

} // namespace detail

// Ordered maps to objects of any type, with access by position: from numbers, and from byte strings.
template <class K, class V, class Compare = std::less<K>>
using object_map = detail::objects<map<K, V *, Compare>, V>;
template <class V>
using byte_object_map = detail::objects<byte_map<V *>, V>;

} // namespace indexset

#endif
