// Collections of byte strings, owned by pointers of their collections. Included by indexset.hpp.
#ifndef INDEXSET_BYTES_HPP
#define INDEXSET_BYTES_HPP

#include "common.hpp"
#include "runs.hpp"

#include <cassert>
#include <cstddef>
#include <cstdint>
#include <functional>
#include <string>
#include <string_view>
#include <utility>

namespace indexset {

namespace detail {

// A pointer that is not null, as the library requires.
inline const char *bytes_of(std::string_view key) noexcept { return key.data() == nullptr ? "" : key.data(); }

// The calls of the library for a map from byte strings.
struct byte_calls {
    using handle = indexset_text_map;
    static constexpr auto make = indexset_text_map_new;
    static constexpr auto clone = indexset_text_map_clone;
    static constexpr auto release = indexset_text_map_free;
    static constexpr auto clear = indexset_text_map_clear;
    static constexpr auto len = indexset_text_map_len;
    static constexpr auto rank = indexset_text_map_rank;
    static constexpr auto count_up_to = indexset_text_map_count_up_to;
    static constexpr auto contains = indexset_text_map_contains;
    static constexpr auto get = indexset_text_map_get;
    static constexpr auto at = indexset_text_map_at;
    static constexpr auto keys = indexset_text_map_keys_by_position;
    static constexpr auto values = indexset_text_map_range_by_position;
};

// The calls of the library for a logged map from byte strings.
struct logged_byte_calls {
    using handle = indexset_text_log;
    static constexpr auto release = indexset_text_log_free;
    static constexpr auto len = indexset_text_log_len;
    static constexpr auto rank = indexset_text_log_rank;
    static constexpr auto count_up_to = indexset_text_log_count_up_to;
    static constexpr auto contains = indexset_text_log_contains;
    static constexpr auto get = indexset_text_log_get;
    static constexpr auto at = indexset_text_log_at;
    static constexpr auto keys = indexset_text_log_keys_by_position;
    static constexpr auto values = indexset_text_log_range_by_position;
    static constexpr auto next = indexset_text_log_next;
    static constexpr auto node_count = indexset_text_log_node_count;
};

// A run of byte strings and their values: as many as fit.
template <class Calls>
struct byte_run {
    static constexpr std::size_t room = 64;
    std::size_t first = 0, count = 0;
    std::size_t ends[room]; // the end of each key, which is the start of the next
    std::uint64_t values[room];
    char bytes[4096];

    bool has(std::size_t position) const noexcept { return position - first < count; }

    std::string_view key(std::size_t index) const noexcept {
        const std::size_t start = index == 0 ? 0 : ends[index - 1];
        return {bytes + start, ends[index] - start};
    }

    void read(typename Calls::handle *handle, std::size_t from, std::size_t places) noexcept {
        first = from;
        const std::size_t wrote = Calls::keys(handle, from, bytes, sizeof bytes, ends, places);
        std::size_t end = 0;
        for (count = 0; count < wrote && ends[count] <= sizeof bytes - end; count++) ends[count] = end += ends[count];
        Calls::values(handle, from, values, count);
    }
};

// The elements of a set of byte strings.
struct byte_set_code {
    using key_compare = std::less<>;
    using value_type = std::string;
    static value_type decode(std::string key, std::uint64_t) noexcept { return key; }
    static std::string_view key_of(const value_type &element) noexcept { return element; }
    static bool equal(const value_type &a, const value_type &b) noexcept { return a == b; }
    static bool less(const value_type &a, const value_type &b) noexcept { return a < b; }
#if __cplusplus >= 202002L
    static constexpr bool is_ordered = true;
    static std::strong_ordering compare(const value_type &a, const value_type &b) noexcept { return a <=> b; }
#endif
};

// The pairs of a map from byte strings.
template <class V>
struct byte_map_code {
    using key_compare = std::less<>;
    using value_type = std::pair<std::string, V>;
    static value_type decode(std::string key, std::uint64_t value) noexcept {
        return {std::move(key), value_code<V>::decode(value)};
    }
    static std::string_view key_of(const value_type &element) noexcept { return element.first; }
    static bool equal(const value_type &a, const value_type &b) { return a == b; }
    static bool less(const value_type &a, const value_type &b) { return a < b; }
#if __cplusplus >= 202002L
    static constexpr bool is_ordered = ordered<V>;
    static auto compare(const value_type &a, const value_type &b) {
        const auto values = three_way(a.second, b.second);
        const auto keys = a.first <=> b.first;
        return keys != 0 ? decltype(values)(keys) : values;
    }
#endif
};

// Byte strings and their values, owned by a pointer of their collection.
template <class Calls, class Code>
class byte_store : public held<Calls> {
  public:
    using calls = Calls;
    using value_type = typename Code::value_type;
    using key_type = std::string;
    using key_argument = std::string_view;
    using element_type = value_type;
    using order = Code; // of elements
    static constexpr bool notes = false;

    std::uint64_t changes() const noexcept { return changes_; }

    void changed() noexcept {
        changes_++;
        runs_.forget();
    }

    std::size_t rank(std::string_view key) const noexcept {
        return Calls::rank(this->handle(), bytes_of(key), key.size());
    }
    std::size_t count_up_to(std::string_view key) const noexcept {
        return Calls::count_up_to(this->handle(), bytes_of(key), key.size());
    }
    bool contains(std::string_view key) const noexcept {
        return Calls::contains(this->handle(), bytes_of(key), key.size());
    }
    bool get(std::string_view key, std::uint64_t &value) const noexcept {
        return Calls::get(this->handle(), bytes_of(key), key.size(), &value);
    }
    std::uint32_t put(std::string_view key, std::uint64_t value, std::uint64_t &before) noexcept {
        return indexset_text_map_insert(this->handle(), bytes_of(key), key.size(), value, &before);
    }

    value_type at(std::size_t position) {
        if (const auto *run = runs_.at(this->handle(), position)) {
            const std::size_t index = position - run->first;
            return Code::decode(std::string(run->key(index)), run->values[index]);
        }
        std::size_t length = 0;
        std::uint64_t value = 0;
        char none;
        const bool found = Calls::at(this->handle(), position, &none, 0, &length, &value);
        assert(found && "an iterator at the end leads to no element");
        static_cast<void>(found);
        std::string key(length, '\0');
        if (length != 0) Calls::at(this->handle(), position, &key[0], length, &length, &value);
        return Code::decode(std::move(key), value);
    }

    // Writes the values from a position on, as many as fit. Returns their number.
    std::size_t read_values(std::size_t from, std::uint64_t *values, std::size_t places) const noexcept {
        return Calls::values(this->handle(), from, values, places);
    }

    static std::string_view key_of(const value_type &element) noexcept { return Code::key_of(element); }

    bool remove(std::string_view key) noexcept {
        std::uint64_t value;
        const bool removed = indexset_text_map_remove(this->handle(), bytes_of(key), key.size(), &value);
        if (removed) changed();
        return removed;
    }
    // Removes `count` elements from a position on.
    void remove_from(std::size_t position, std::size_t count) noexcept {
        char key;
        std::size_t length;
        std::uint64_t value;
        while (count != 0 && indexset_text_map_remove_at(this->handle(), position, &key, 0, &length, &value)) count--;
        changed();
    }

  private:
    std::uint64_t changes_ = 1;
    runs<byte_run<Calls>> runs_;
};

} // namespace detail

} // namespace indexset

#endif
