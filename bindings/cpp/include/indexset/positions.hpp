// Definitions shared by all collections: iterators that are positions. Included by indexset.hpp.
#ifndef INDEXSET_POSITIONS_HPP
#define INDEXSET_POSITIONS_HPP

#include "common.hpp"

#include <cassert>
#include <cstddef>
#include <cstdint>
#include <functional>
#include <iterator>
#include <limits>
#include <memory>
#include <optional>
#include <type_traits>
#include <utility>
#include <vector>

namespace indexset {

namespace detail {

// A position in a collection. An iterator that a search by key returned has the element, and finds its position when it
// is asked for.
template <class Store>
class position_iterator {
  public:
    using iterator_category = std::random_access_iterator_tag;
    using value_type = typename Store::value_type;
    using difference_type = std::ptrdiff_t;
    using reference = value_type;
    using pointer = arrow<value_type>;

    position_iterator() noexcept = default;
    position_iterator(Store *store, std::size_t position) noexcept : store_(store), position_(position) {}
    position_iterator(Store *store, const pair &element) noexcept
        : store_(store), position_(unknown), element_(element), changes_(store->changes()) {}

    reference operator*() const noexcept(Store::notes) {
        assert(store_ != nullptr && "an iterator of an empty collection leads to no element");
        if constexpr (Store::notes) {
            return Store::decode(is_noted() ? element_ : store_->at(position()));
        } else {
            return store_->at(position_);
        }
    }
    pointer operator->() const { return pointer(**this); }
    reference operator[](difference_type by) const { return *(*this + by); }

    position_iterator &operator++() noexcept { return *this += 1; }
    position_iterator &operator--() noexcept { return *this -= 1; }
    position_iterator operator++(int) noexcept {
        position_iterator before = *this;
        ++*this;
        return before;
    }
    position_iterator operator--(int) noexcept {
        position_iterator before = *this;
        --*this;
        return before;
    }
    position_iterator &operator+=(difference_type by) noexcept {
        position_ = position() + static_cast<std::size_t>(by);
        changes_ = 0;
        return *this;
    }
    position_iterator &operator-=(difference_type by) noexcept {
        position_ = position() - static_cast<std::size_t>(by);
        changes_ = 0;
        return *this;
    }
    friend position_iterator operator+(position_iterator it, difference_type by) noexcept { return it += by; }
    friend position_iterator operator+(difference_type by, position_iterator it) noexcept { return it += by; }
    friend position_iterator operator-(position_iterator it, difference_type by) noexcept { return it -= by; }
    friend difference_type operator-(const position_iterator &a, const position_iterator &b) noexcept {
        return static_cast<difference_type>(a.position() - b.position());
    }

    friend bool operator==(const position_iterator &a, const position_iterator &b) noexcept {
        if (a.position_ == unknown && b.is_past(a)) return false;
        if (b.position_ == unknown && a.is_past(b)) return false;
        return a.position() == b.position();
    }
    friend bool operator!=(const position_iterator &a, const position_iterator &b) noexcept { return !(a == b); }
    friend bool operator<(const position_iterator &a, const position_iterator &b) noexcept {
        return a.position() < b.position();
    }
    friend bool operator>(const position_iterator &a, const position_iterator &b) noexcept { return b < a; }
    friend bool operator<=(const position_iterator &a, const position_iterator &b) noexcept { return !(b < a); }
    friend bool operator>=(const position_iterator &a, const position_iterator &b) noexcept { return !(a < b); }

    // Returns the number of elements before it.
    std::size_t position() const noexcept {
        if constexpr (Store::notes) {
            if (position_ == unknown) position_ = store_->position_of(element_);
        }
        return position_;
    }

  private:
    bool is_noted() const noexcept { return changes_ == store_->changes(); }

    // Returns whether it is at the end and the other one is not: the other's position is not needed for that.
    bool is_past(const position_iterator &other) const noexcept {
        return position_ != unknown && other.is_noted() && position_ == other.store_->size();
    }

    Store *store_ = nullptr;
    mutable std::size_t position_ = 0;
    pair element_{0, 0};
    std::uint64_t changes_ = 0; // of the collection, when the element was noted; 0: none is
};

// Members shared by all collections: their elements in order, by key and by position.
template <class Self, class Store>
class reading : public comparisons<Self, typename Store::order> {
  public:
    using key_type = typename Store::key_type;
    using value_type = typename Store::value_type;
    using key_compare = typename Store::order::key_compare;
    using size_type = std::size_t;
    using difference_type = std::ptrdiff_t;
    using reference = value_type;
    using const_reference = value_type;
    using iterator = position_iterator<Store>;
    using const_iterator = iterator;
    using reverse_iterator = std::reverse_iterator<iterator>;
    using const_reverse_iterator = reverse_iterator;
    using key_argument = typename Store::key_argument; // how a key is passed: as a value, or a string_view of bytes

    key_compare key_comp() const noexcept { return {}; }

    // Returns the number of elements.
    size_type size() const noexcept { return store_ ? store_->size() : 0; }
    size_type max_size() const noexcept { return std::numeric_limits<difference_type>::max() / sizeof(pair); }
    [[nodiscard]] bool empty() const noexcept { return size() == 0; }

    // Iterators over the elements in order.
    iterator begin() const noexcept { return at_position(0); }
    iterator end() const noexcept { return at_position(size()); }
    iterator cbegin() const noexcept { return begin(); }
    iterator cend() const noexcept { return end(); }
    reverse_iterator rbegin() const noexcept { return reverse_iterator(end()); }
    reverse_iterator rend() const noexcept { return reverse_iterator(begin()); }
    reverse_iterator crbegin() const noexcept { return rbegin(); }
    reverse_iterator crend() const noexcept { return rend(); }

    // Returns the element at a position, counted from 0, or the end if there is none. No search.
    iterator find_by_order(size_type position) const noexcept {
        return at_position(position < size() ? position : size());
    }

    // Returns the number of elements with keys below a key. One search, as for each call below, unless noted otherwise.
    size_type order_of_key(key_argument key) const noexcept { return store_ ? store_->rank(key) : 0; }

    // Returns the first element with a key not below the given one, or above it, or the end if there is none.
    iterator lower_bound(key_argument key) const noexcept { return at_position(order_of_key(key)); }
    iterator upper_bound(key_argument key) const noexcept { return at_position(store_ ? store_->count_up_to(key) : 0); }

    // Returns both bounds: the range of the elements of a key. Two searches.
    std::pair<iterator, iterator> equal_range(key_argument key) const noexcept {
        return {lower_bound(key), upper_bound(key)};
    }

    // Returns the first element of a key, or the end if there is none. For byte strings two searches.
    iterator find(key_argument key) const noexcept {
        if constexpr (Store::notes) {
            pair element;
            return store_ && store_->find(key, element) ? iterator(store_.get(), element) : end();
        } else {
            return contains(key) ? lower_bound(key) : end();
        }
    }

    // Returns whether a key is present.
    bool contains(key_argument key) const noexcept {
        if constexpr (Store::notes) {
            pair element;
            return store_ && store_->find(key, element);
        } else {
            return store_ && store_->contains(key);
        }
    }
    size_type count(key_argument key) const noexcept { return contains(key) ? 1 : 0; }

    void swap(Self &other) noexcept {
        Self &self = static_cast<Self &>(*this);
        Self passed = std::move(self);
        self = std::move(other);
        other = std::move(passed);
    }

  protected:
    using store_type = Store;

    reading() noexcept = default;
    reading(reading &&) noexcept = default;
    reading &operator=(reading &&) noexcept = default;
    ~reading() = default;

    iterator at_position(size_type position) const noexcept { return iterator(store_.get(), position); }

    // Returns the store; if there is none, makes it by a call of the library with the given arguments.
    template <class... Of>
    Store &made_of(std::uint32_t (*make)(typename Store::calls::handle *, Of...), std::common_type_t<Of>... of) {
        if (!store_) {
            auto made = std::make_unique<Store>();
            pass(make(made->handle(), of...));
            store_ = std::move(made);
        }
        return *store_;
    }

    std::unique_ptr<Store> store_;

  private:
    friend class comparisons<Self, typename Store::order>;

    struct element_walk {
        Store *store;
        std::size_t position, size;

        std::optional<typename Store::element_type> next() {
            if (position == size) return std::nullopt;
            return store->at(position++);
        }
    };
    element_walk walk() const noexcept { return {store_.get(), 0, size()}; }
};

// Returns the positions of the elements for which a condition holds, in order.
template <class Collection, class Condition>
std::vector<std::size_t> positions_where(const Collection &in, Condition &condition) {
    std::vector<std::size_t> positions;
    std::size_t at = 0;
    for (auto it = in.begin(); it != in.end(); ++it, at++) {
        if (condition(*it)) positions.push_back(at);
    }
    return positions;
}

// Members shared by the collections that can be copied and cleared: set, map, byte_map and multimap.
template <class Self, class Store>
class copied : public reading<Self, Store> {
  public:
    // Removes all elements.
    void clear() noexcept {
        if (!this->store_) return;
        this->store_->clear();
        this->store_->changed();
    }

  protected:
    copied() noexcept = default;
    copied(copied &&) noexcept = default;
    copied &operator=(copied &&) noexcept = default;
    ~copied() = default;

    copied(const copied &other) : reading<Self, Store>() {
        if (!other.store_) return;
        auto made = std::make_unique<Store>();
        made->copy_from(*other.store_);
        this->store_ = std::move(made);
    }
    copied &operator=(const copied &other) {
        if (this != &other) *this = copied(other);
        return *this;
    }

    Store &made() { return this->made_of(Store::calls::make); }
};

// Members shared by set, map and byte_map.
template <class Self, class Store>
class positions : public copied<Self, Store> {
    using base = copied<Self, Store>;

  public:
    using typename base::iterator;
    using typename base::key_argument;
    using typename base::size_type;
    using typename base::value_type;

    // Removes a key. Returns the number of removed elements: 0 or 1.
    size_type erase(key_argument key) noexcept { return this->store_ && this->store_->remove(key) ? 1 : 0; }

    // Removes an element, or those from `first` to before `last`. Returns the element after them. One search for each
    // element.
    iterator erase(iterator it) noexcept {
        const size_type position = it.position();
        this->store_->remove_from(position, 1);
        return this->at_position(position);
    }
    iterator erase(iterator first, iterator last) noexcept {
        const size_type from = first.position(), past = last.position();
        if (from == past) return first;
        if (from == 0 && past == this->size()) {
            this->clear();
        } else {
            this->store_->remove_from(from, past - from);
        }
        return this->at_position(from);
    }

    // Removes an element and returns it; of a key that is absent nothing.
    value_type extract(iterator it) {
        value_type element = *it;
        erase(it);
        return element;
    }
    std::optional<value_type> extract(key_argument key) {
        const iterator it = this->find(key);
        if (it == this->end()) return std::nullopt;
        std::optional<value_type> element(*it);
        erase(key);
        return element;
    }

    // Moves the elements of another collection whose keys are absent here. If an allocation fails, both are unchanged.
    void merge(Self &other) {
        Self &self = static_cast<Self &>(*this);
        if (this == &other) return;
        std::vector<value_type> moved;
        for (auto it = other.begin(); it != other.end(); ++it) {
            if (value_type element = *it; !this->contains(Store::key_of(element))) moved.push_back(std::move(element));
        }
        self.insert(moved.begin(), moved.end());
        for (const value_type &element : moved) other.erase(Store::key_of(element));
    }
    void merge(Self &&other) { merge(other); }
};

} // namespace detail

} // namespace indexset

#endif
