// Collections of numbers, owned by pointers of their collections. Included by indexset.hpp.
#ifndef INDEXSET_NUMBERS_HPP
#define INDEXSET_NUMBERS_HPP

#include "common.hpp"
#include "runs.hpp"

#include <cassert>
#include <cstddef>
#include <cstdint>

namespace indexset {

namespace detail {

// The calls of the library for a set of numbers.
struct set_calls {
    using handle = indexset_set;
    static constexpr bool has_values = false;
    static constexpr auto make = indexset_set_new;
    static constexpr auto clone = indexset_set_clone;
    static constexpr auto release = indexset_set_free;
    static constexpr auto clear = indexset_set_clear;
    static constexpr auto len = indexset_set_len;
    static constexpr auto rank = indexset_set_rank;
    static constexpr auto count_up_to = indexset_set_count_up_to;

    static std::size_t read(handle *of, std::size_t from, std::uint64_t *keys, std::uint64_t *, std::size_t places) {
        return indexset_set_range_by_position(of, from, keys, places);
    }
    static constexpr auto cursor_at = indexset_set_cursor_at;
    static std::size_t read_on(handle *of, indexset_cursor *cursor, std::uint64_t *keys, std::uint64_t *,
                               std::size_t places) {
        return indexset_set_cursor_next(of, cursor, keys, places);
    }
    static bool at(handle *of, std::size_t position, pair &out) { return indexset_set_at(of, position, &out.key); }
    static bool find(handle *of, std::uint64_t key, pair &out) {
        out = {key, 0};
        return indexset_set_contains(of, key);
    }
    static bool remove(handle *of, std::uint64_t key) { return indexset_set_remove(of, key); }
    static bool remove_at(handle *of, std::size_t position) {
        std::uint64_t key;
        return indexset_set_remove_at(of, position, &key);
    }
};

// Definitions shared by the library's calls for pairs of numbers.
template <class Handle, auto At, auto Read, auto CursorAt, auto CursorNext, auto Get>
struct pair_calls {
    using handle = Handle;
    static constexpr bool has_values = true;
    static constexpr auto get = Get;
    static constexpr auto cursor_at = CursorAt;

    static std::size_t read(handle *of, std::size_t from, std::uint64_t *keys, std::uint64_t *values,
                            std::size_t places) {
        return Read(of, from, keys, places, values, places);
    }
    static std::size_t read_on(handle *of, indexset_cursor *cursor, std::uint64_t *keys, std::uint64_t *values,
                               std::size_t places) {
        return CursorNext(of, cursor, keys, places, values, places);
    }
    static bool at(handle *of, std::size_t position, pair &out) { return At(of, position, &out.key, &out.value); }
    static bool find(handle *of, std::uint64_t key, pair &out) {
        out.key = key;
        return Get(of, key, &out.value);
    }
};

// The calls of the library for a map of numbers.
struct map_calls : pair_calls<indexset_map, indexset_map_at, indexset_map_range_by_position, indexset_map_cursor_at,
                              indexset_map_cursor_next, indexset_map_get> {
    static constexpr auto make = indexset_map_new;
    static constexpr auto clone = indexset_map_clone;
    static constexpr auto release = indexset_map_free;
    static constexpr auto clear = indexset_map_clear;
    static constexpr auto len = indexset_map_len;
    static constexpr auto rank = indexset_map_rank;
    static constexpr auto count_up_to = indexset_map_count_up_to;

    static bool remove(handle *of, std::uint64_t key) {
        std::uint64_t value;
        return indexset_map_remove(of, key, &value);
    }
    static bool remove_at(handle *of, std::size_t position) {
        std::uint64_t key, value;
        return indexset_map_remove_at(of, position, &key, &value);
    }
};

// The number of keys not above one, for which the library has no call: those below the next key.
template <class Calls>
std::size_t count_below_next(typename Calls::handle *of, std::uint64_t key) {
    return key == greatest ? Calls::len(of) : Calls::rank(of, key + 1);
}

// The first value of a key of a multimap.
inline bool first_value(indexset_multi *of, std::uint64_t key, std::uint64_t *out) {
    return indexset_multi_get(of, key, out, 1) != 0;
}

// The calls of the library for a multimap.
struct multi_calls : pair_calls<indexset_multi, indexset_multi_at, indexset_multi_range_by_position,
                                indexset_multi_cursor_at, indexset_multi_cursor_next, first_value> {
    static constexpr auto make = indexset_multi_new;
    static constexpr auto release = indexset_multi_free;
    static constexpr auto clear = indexset_multi_clear;
    static constexpr auto len = indexset_multi_len;
    static constexpr auto rank = indexset_multi_rank;
    static constexpr auto count_up_to = count_below_next<multi_calls>;
};

// The calls of the library for a logged map.
struct log_calls : pair_calls<indexset_log, indexset_log_at, indexset_log_range_by_position, indexset_log_cursor_at,
                              indexset_log_cursor_next, indexset_log_get> {
    static constexpr auto release = indexset_log_free;
    static constexpr auto len = indexset_log_len;
    static constexpr auto rank = indexset_log_rank;
    static constexpr auto count_up_to = count_below_next<log_calls>;
    static constexpr auto next = indexset_log_next;
    static constexpr auto node_count = indexset_log_node_count;
    static constexpr auto node_lengths = indexset_log_node_lengths;
};

// The calls of the library for a replica.
struct replica_calls : pair_calls<indexset_replica, indexset_replica_at, indexset_replica_range_by_position,
                                  indexset_replica_cursor_at, indexset_replica_cursor_next, indexset_replica_get> {
    static constexpr auto release = indexset_replica_free;
    static constexpr auto len = indexset_replica_len;
    static constexpr auto rank = indexset_replica_rank;
    static constexpr auto count_up_to = count_below_next<replica_calls>;
    static constexpr auto next = indexset_replica_next;
    static constexpr auto node_count = indexset_replica_node_count;
    static constexpr auto node_lengths = indexset_replica_node_lengths;
};

// A run of numbers, or of pairs of them.
template <class Calls>
struct number_run {
    static constexpr std::size_t room = 64;
    std::size_t first = 0, count = 0;
    std::uint64_t keys[room], values[Calls::has_values ? room : 1];

    bool has(std::size_t position) const noexcept { return position - first < count; }

    // Reads elements from a position on. Those that follow the run are read by a cursor, so that an iteration does not
    // search again.
    void read(typename Calls::handle *handle, std::size_t from, std::size_t places) noexcept {
        const bool goes_on = count != 0 && from == first + count;
        if (goes_on && !walks_) Calls::cursor_at(handle, from, &end_);
        walks_ = goes_on;
        first = from;
        count = goes_on ? Calls::read_on(handle, &end_, keys, values, places)
                        : Calls::read(handle, from, keys, values, places);
    }

  private:
    indexset_cursor end_{}; // the end of the run, if an iteration read it
    bool walks_ = false;
};

// A collection of numbers, owned by a pointer of its collection.
template <class Calls, class Code>
class number_store : public held<Calls> {
  public:
    using calls = Calls;
    using value_type = typename Code::value_type;
    using key_type = typename Code::key_type;
    using key_argument = key_type;
    using element_type = pair;          // the result of `at`
    using order = Code;                 // of elements
    static constexpr bool notes = true; // an iterator may have an element and find its position later

    // Returns the number of changes so far, plus 1.
    std::uint64_t changes() const noexcept { return changes_; }

    void changed() noexcept {
        changes_++;
        runs_.forget();
    }

    std::size_t rank(key_type key) const noexcept { return Calls::rank(this->handle(), Code::key(key)); }
    // Returns the position of an element that is present.
    std::size_t position_of(const pair &element) noexcept { return Calls::rank(this->handle(), element.key); }
    std::size_t count_up_to(key_type key) const noexcept { return Calls::count_up_to(this->handle(), Code::key(key)); }
    bool find(key_type key, pair &out) const noexcept { return Calls::find(this->handle(), Code::key(key), out); }
    bool get(key_type key, std::uint64_t &value) const noexcept {
        return Calls::get(this->handle(), Code::key(key), &value);
    }
    std::uint32_t put(key_type key, std::uint64_t value, std::uint64_t &before) noexcept {
        return indexset_map_insert(this->handle(), Code::key(key), value, &before);
    }
    static pair note(key_type key, std::uint64_t value) noexcept { return {Code::key(key), value}; }

    pair at(std::size_t position) noexcept {
        const auto *run = runs_.at(this->handle(), position);
        pair out{0, 0};
        if (run != nullptr) {
            const std::size_t index = position - run->first;
            out.key = run->keys[index];
            if constexpr (Calls::has_values) out.value = run->values[index];
        } else {
            const bool found = Calls::at(this->handle(), position, out);
            assert(found && "an iterator at the end leads to no element");
            static_cast<void>(found);
        }
        return out;
    }

    // Writes the values from a position on, as many as fit into 64 places. Returns their number.
    std::size_t read_values(std::size_t from, std::uint64_t *values, std::size_t places) const noexcept {
        std::uint64_t keys[64];
        return Calls::read(this->handle(), from, keys, values, places);
    }

    static value_type decode(const pair &element) noexcept { return Code::decode(element); }

    static key_type key_of(const value_type &element) noexcept {
        if constexpr (Calls::has_values) {
            return element.first;
        } else {
            return element;
        }
    }

    bool remove(key_type key) noexcept { return remove_of(Code::key(key)); }
    bool remove_of(std::uint64_t key) noexcept {
        const bool removed = Calls::remove(this->handle(), key);
        if (removed) changed();
        return removed;
    }
    // Removes `count` elements from a position on.
    void remove_from(std::size_t position, std::size_t count) noexcept {
        while (count != 0 && Calls::remove_at(this->handle(), position)) count--;
        changed();
    }

  private:
    std::uint64_t changes_ = 1;
    runs<number_run<Calls>> runs_;
};

} // namespace detail

} // namespace indexset

#endif
