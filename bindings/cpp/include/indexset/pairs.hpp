// The pairs of a multimap, owned by a pointer of their collection. Included by indexset.hpp.
#ifndef INDEXSET_PAIRS_HPP
#define INDEXSET_PAIRS_HPP

#include "numbers.hpp"

#include <algorithm>
#include <cassert>
#include <cstddef>
#include <cstdint>
#include <new>
#include <numeric>
#include <type_traits>
#include <utility>
#include <vector>

namespace indexset {

namespace detail {

// Throws if a call of a multimap failed for lack of memory. Each change consumes a number of 64 bits; in practice these
// are never exhausted.
inline void pass_multi(std::uint32_t answer) {
    if (answer == INDEXSET_MEMORY || answer == INDEXSET_NUMBERS) throw std::bad_alloc();
}

// The pairs of a multimap. A removal allocates, so it can fail. If that happens while several pairs are removed, the
// remaining ones are hidden: no read finds them, and the next change removes them first, or else throws and changes
// nothing. So a removal of several pairs is atomic.
template <class Code>
class multi_store : public number_store<multi_calls, Code> {
    using base = number_store<multi_calls, Code>;

  public:
    using typename base::key_type;

    std::size_t size() const noexcept { return base::size() - hidden_.size(); }
    std::size_t rank(key_type key) const noexcept { return rank_of(Code::key(key)); }
    std::size_t count_up_to(key_type key) const noexcept { return end_of(Code::key(key)); }
    std::size_t count(key_type key) const noexcept { return count_of(Code::key(key)); }

    bool find(key_type key, pair &out) noexcept {
        if (hidden_.empty()) return base::find(key, out);
        const bool found = count(key) != 0;
        if (found) out = at(rank(key));
        return found;
    }
    bool contains(const pair &element) noexcept {
        if (hidden_.empty()) return indexset_multi_contains(this->handle(), element.key, element.value);
        return count_of(element.key) != 0 && at(position_of(element)).value == element.value;
    }

    // Returns the position of a pair that is present, after an iteration over the values of its key before it.
    std::size_t position_of(const pair &element) noexcept {
        std::size_t position = rank_of(element.key);
        for (std::size_t left = count_of(element.key); left > 1 && at(position).value != element.value; left--)
            position++;
        return position;
    }

    pair at(std::size_t position) noexcept {
        if (hidden_.empty()) return base::at(position);
        pair out{0, 0};
        const bool found = multi_calls::at(this->handle(), real(position), out);
        assert(found && "an iterator at the end leads to no element");
        static_cast<void>(found);
        return out;
    }

    // Writes the first values of a key, as many as fit; the key has that many.
    void read_values(std::uint64_t key, std::vector<std::uint64_t> &out) noexcept {
        if (hidden_.empty()) {
            indexset_multi_get(this->handle(), key, out.data(), out.size());
        } else {
            std::size_t position = rank_of(key);
            for (std::uint64_t &value : out) value = at(position++).value;
        }
    }

    // Gives an empty handle a copy of the multimap, made pair by pair.
    void copy_from(multi_store &from) {
        pass_multi(indexset_multi_new(this->handle()));
        const std::size_t size = from.size();
        for (std::size_t i = 0; i < size; i++) {
            const pair element = from.at(i);
            pass_multi(indexset_multi_push(this->handle(), element.key, element.value));
        }
    }
    void clear() noexcept {
        hidden_.clear();
        base::clear();
    }

    // Each of these changes at most one pair.
    bool add(const pair &element) { return change(indexset_multi_insert, element.key, element.value); }
    bool remove(const pair &element) { return change(indexset_multi_remove, element.key, element.value); }
    bool remove_first(std::uint64_t key, std::uint64_t &value) {
        return change(indexset_multi_remove_first, key, &value);
    }
    bool remove_at(std::size_t position) {
        pair removed;
        return change(indexset_multi_remove_at, position, &removed.key, &removed.value);
    }

    // Removes the pairs at the given positions, which are in order.
    void remove_all(std::vector<std::size_t> positions) {
        settle();
        hidden_ = std::move(positions);
        remove_hidden();
        this->changed();
    }
    void remove_from(std::size_t position, std::size_t count) {
        std::vector<std::size_t> positions(count);
        std::iota(positions.begin(), positions.end(), position);
        remove_all(std::move(positions));
    }

  private:
    std::size_t rank_of(std::uint64_t key) const noexcept { return shown(multi_calls::rank(this->handle(), key)); }
    std::size_t end_of(std::uint64_t key) const noexcept {
        return shown(multi_calls::count_up_to(this->handle(), key));
    }
    std::size_t count_of(std::uint64_t key) const noexcept {
        return hidden_.empty() ? indexset_multi_count(this->handle(), key) : end_of(key) - rank_of(key);
    }

    // The position among the pairs that are not hidden of a position in the library, and the other way round.
    std::size_t shown(std::size_t position) const noexcept {
        const auto it = std::lower_bound(hidden_.begin(), hidden_.end(), position);
        return position - static_cast<std::size_t>(it - hidden_.begin());
    }
    std::size_t real(std::size_t position) const noexcept {
        const std::size_t *const first = hidden_.data();
        const auto is_before = [&](const std::size_t &it) {
            return it - static_cast<std::size_t>(&it - first) <= position;
        };
        return position
               + static_cast<std::size_t>(std::partition_point(first, first + hidden_.size(), is_before) - first);
    }

    template <class... Of>
    bool change(std::uint32_t (*call)(indexset_multi *, Of...), std::common_type_t<Of>... of) {
        settle();
        const std::uint32_t answer = call(this->handle(), of...);
        pass_multi(answer);
        if (answer == INDEXSET_YES) this->changed();
        return answer == INDEXSET_YES;
    }

    // Removes the hidden pairs, or throws. Reads return the same pairs before and after.
    void settle() {
        if (!hidden_.empty()) pass_multi(remove_hidden());
    }
    std::uint32_t remove_hidden() noexcept {
        pair removed;
        for (; !hidden_.empty(); hidden_.pop_back()) {
            const std::uint32_t answer =
                indexset_multi_remove_at(this->handle(), hidden_.back(), &removed.key, &removed.value);
            if (answer != INDEXSET_YES) return answer;
        }
        std::vector<std::size_t>().swap(hidden_);
        return INDEXSET_YES;
    }

    std::vector<std::size_t> hidden_; // positions in the library, in order
};

} // namespace detail

} // namespace indexset

#endif
