// The logged map and its replica. Included by indexset.hpp.
#ifndef INDEXSET_LOGGED_HPP
#define INDEXSET_LOGGED_HPP

#include "bytes.hpp"
#include "numbers.hpp"
#include "positions.hpp"

#include <array>
#include <cstddef>
#include <cstdint>
#include <memory>
#include <optional>
#include <string>
#include <string_view>
#include <utility>
#include <vector>

namespace indexset {

namespace detail {

// Members shared by logged_map, logged_byte_map and replica.
template <class Self, class Store, class V>
class nodes : public reading<Self, Store> {
    using base = reading<Self, Store>;
    using calls = typename Store::calls;

  public:
    using mapped_type = V;
    using typename base::key_argument;

    // Returns the value of a key, if any. One search.
    std::optional<V> get(key_argument key) const noexcept {
        std::uint64_t code;
        if (!this->store_ || !this->store_->get(key, code)) return std::nullopt;
        return value_code<V>::decode(code);
    }

    // Returns the number of the next change to make or to apply.
    std::uint64_t next() const noexcept { return this->store_ ? calls::next(this->store_->handle()) : next_; }

    // Returns the number of nodes.
    std::size_t node_count() const noexcept { return this->store_ ? calls::node_count(this->store_->handle()) : 0; }

  protected:
    explicit nodes(std::uint64_t next) noexcept : next_(next) {}

    std::uint64_t next_; // as long as there is no store
};

// Members shared by logged_map and replica.
template <class Self, class Store, class V>
class number_nodes : public nodes<Self, Store, V> {
    using calls = typename Store::calls;

  public:
    // Returns the number of pairs of each node, in order.
    std::vector<std::size_t> node_lengths() const {
        std::vector<std::size_t> lengths(this->node_count());
        if (!lengths.empty()) calls::node_lengths(this->store_->handle(), lengths.data(), lengths.size());
        return lengths;
    }

  protected:
    using nodes<Self, Store, V>::nodes;
};

} // namespace detail

// The result of a call of a logged map or of a replica.
enum class status : std::uint32_t {
    unchanged = INDEXSET_NO,           // there was nothing to do, or the change was applied before
    changed = INDEXSET_YES,            // it was done
    no_memory = INDEXSET_MEMORY,       // an allocation failed; only apply_all returns this, other calls throw
    out_of_numbers = INDEXSET_NUMBERS, // too few numbers are left
    unfit = INDEXSET_UNFIT,            // an argument is out of range
    gap = INDEXSET_GAP,                // changes before it are missing
    no_such_node = INDEXSET_NO_SUCH_NODE,
    index_outside = INDEXSET_INDEX_OUTSIDE,
    value_differs = INDEXSET_VALUE_DIFFERS,
    would_be_empty = INDEXSET_WOULD_BE_EMPTY,
    out_of_order = INDEXSET_OUT_OF_ORDER,
    bad_split = INDEXSET_BAD_SPLIT,
    not_neighbours = INDEXSET_NOT_NEIGHBOURS
};

// A change of a logged map, with the codes of keys and values.
using event = indexset_event;

// The changes that a call of a logged map made, in order, and what it found.
template <class V>
class told {
  public:
    std::optional<V> before;     // the old value of the key
    bool out_of_numbers = false; // whether too few numbers were left, and nothing changed

    const event *begin() const noexcept { return events_.data(); }
    const event *end() const noexcept { return events_.data() + count_; }
    const event *data() const noexcept { return events_.data(); }
    std::size_t size() const noexcept { return count_; }
    [[nodiscard]] bool empty() const noexcept { return count_ == 0; }
    const event &operator[](std::size_t index) const noexcept { return events_[index]; }

  private:
    template <class, class>
    friend class logged_map;

    std::array<event, INDEXSET_CHANGES> events_{};
    std::size_t count_ = 0;
};

// An ordered map that reports its changes, with consecutive numbers. It is move-only; a moved-from map is as it was
// when constructed.
template <class K = std::uint64_t, class V = std::uint64_t>
class logged_map : public detail::number_nodes<logged_map<K, V>,
                                               detail::number_store<detail::log_calls, detail::map_code<K, V>>, V> {
  public:
    using base = typename logged_map::number_nodes;

    // Makes an empty map, whose nodes hold at most `node_size` pairs, at least 2, and whose first change has the number
    // `next`.
    explicit logged_map(std::size_t node_size = 1024, std::uint64_t next = 0) noexcept
        : base(next), node_size_(node_size < 2 ? 2 : node_size) {}

    // Sets the value of a key. Returns the changes and the old value, if any.
    told<V> insert_or_assign(K key, const V &value) {
        this->made_of(indexset_log_new, node_size_, this->next_);
        told<V> told;
        std::uint64_t before;
        const std::uint32_t answer =
            indexset_log_insert(handle(), key_code<K>::encode(key), value_code<V>::encode(value), &before,
                                told.events_.data(), told.events_.size(), &told.count_);
        detail::pass(answer);
        this->store_->changed();
        told.out_of_numbers = answer == INDEXSET_NUMBERS;
        if (answer == INDEXSET_NO) told.before = value_code<V>::decode(before);
        return told;
    }

    // Inserts a pair if its key is absent. Returns the changes; if the key is present, none, and its value.
    told<V> insert(const std::pair<K, V> &pair) {
        told<V> told;
        told.before = this->get(pair.first);
        return told.before ? told : insert_or_assign(pair.first, pair.second);
    }

    // Removes a key. Returns the changes and the value of the key, if any.
    told<V> erase(K key) {
        told<V> told;
        if (!this->store_) return told;
        std::uint64_t before;
        const std::uint32_t answer = indexset_log_remove(handle(), key_code<K>::encode(key), &before,
                                                         told.events_.data(), told.events_.size(), &told.count_);
        detail::pass(answer);
        this->store_->changed();
        told.out_of_numbers = answer == INDEXSET_NUMBERS;
        if (answer == INDEXSET_YES) told.before = value_code<V>::decode(before);
        return told;
    }

  private:
    template <class, class>
    friend class replica;

    indexset_log *handle() const noexcept { return this->store_->handle(); }

    std::size_t node_size_;
};

// A change of a logged_byte_map: its record, and the bytes of the key that names the node and of the pair's key.
struct byte_event {
    indexset_text_event code;
    std::string node, key;
};

// What a call of a logged_byte_map found, and the number of changes, which `last_told` returns.
template <class V>
struct told_bytes {
    std::optional<V> before{};   // the old value of the key
    bool out_of_numbers = false; // whether too few numbers were left, and nothing changed
    std::size_t changes = 0;
};

// An ordered map from byte strings that reports its changes, with consecutive numbers. It is move-only; a moved-from
// map is as it was when constructed.
template <class V = std::uint64_t>
class logged_byte_map
    : public detail::nodes<logged_byte_map<V>, detail::byte_store<detail::logged_byte_calls, detail::byte_map_code<V>>,
                           V> {
  public:
    using base = typename logged_byte_map::nodes;

    // Makes an empty map, whose nodes hold at most `node_size` pairs, at least 2, and whose first change has the number
    // `next`.
    explicit logged_byte_map(std::size_t node_size = 1024, std::uint64_t next = 0) noexcept
        : base(next), node_size_(node_size < 2 ? 2 : node_size) {}

    // Sets the value of a key. Returns the number of changes and the old value, if any.
    told_bytes<V> insert_or_assign(std::string_view key, const V &value) {
        this->made_of(indexset_text_log_new, node_size_, this->next_);
        std::uint64_t before;
        std::size_t changes;
        const std::uint32_t answer = indexset_text_log_insert(handle(), detail::bytes_of(key), key.size(),
                                                              value_code<V>::encode(value), &before, &changes);
        return told_of(answer, answer == INDEXSET_NO, before, changes);
    }

    // Inserts a pair if its key is absent. Returns the number of changes; if the key is present, 0 and its value.
    told_bytes<V> insert(const std::pair<std::string_view, V> &pair) {
        if (const std::optional<V> before = this->get(pair.first)) return {before, false, 0};
        return insert_or_assign(pair.first, pair.second);
    }

    // Removes a key. Returns the number of changes and the value of the key, if any.
    told_bytes<V> erase(std::string_view key) {
        if (!this->store_) return {};
        std::uint64_t before;
        std::size_t changes;
        const std::uint32_t answer =
            indexset_text_log_remove(handle(), detail::bytes_of(key), key.size(), &before, &changes);
        return told_of(answer, answer == INDEXSET_YES, before, changes);
    }

    // Returns the changes of the last call that made any, in order. If an allocation fails, the call can be repeated.
    std::vector<byte_event> last_told() const {
        std::vector<byte_event> told;
        byte_event change;
        char none;
        while (this->store_ && indexset_text_log_change(handle(), told.size(), &change.code, &none, 0, &none, 0)) {
            change.node.resize(change.code.node_len);
            change.key.resize(change.code.key_len);
            indexset_text_log_change(handle(), told.size(), &change.code, change.node.data(), change.node.size(),
                                     change.key.data(), change.key.size());
            told.push_back(change);
        }
        return told;
    }

  private:
    indexset_text_log *handle() const noexcept { return this->store_->handle(); }

    told_bytes<V> told_of(std::uint32_t answer, bool has_before, std::uint64_t before, std::size_t changes) {
        detail::pass(answer);
        this->store_->changed();
        told_bytes<V> told{{}, answer == INDEXSET_NUMBERS, changes};
        if (has_before) told.before = value_code<V>::decode(before);
        return told;
    }

    std::size_t node_size_;
};

// A copy of the nodes of a logged map, which follows the map by its changes. It is move-only.
template <class K = std::uint64_t, class V = std::uint64_t>
class replica : public detail::number_nodes<replica<K, V>,
                                            detail::number_store<detail::replica_calls, detail::map_code<K, V>>, V> {
  public:
    using base = typename replica::number_nodes;

    // Makes a replica without nodes, whose next change has the number `next`.
    explicit replica(std::uint64_t next = 0) noexcept : base(next) {}

    // Makes a replica with the nodes of a logged map, whose next change is the map's.
    explicit replica(const logged_map<K, V> &log) : base(log.next()) {
        if (log.store_) this->made_of(indexset_replica_from_log, log.handle());
    }

    // Applies the next change of the logged map. Returns `changed`; `unchanged` if the change was applied before; or
    // the reason why it does not apply, and then nothing changes.
    status apply(const event &change) {
        const std::uint32_t answer = indexset_replica_apply(made().handle(), &change);
        detail::pass(answer);
        if (answer == INDEXSET_YES) this->store_->changed();
        return static_cast<status>(answer);
    }

    // Applies changes, first to last, and skips those that were applied before. Returns `changed` if it processed all
    // of them, or else the reason why the next one does not apply, and the number that it processed. If an allocation
    // fails for the first change it throws, and for a later one it returns `no_memory`: the remaining changes can be
    // given again.
    [[nodiscard]] std::pair<status, std::size_t> apply_all(const event *changes, std::size_t count) {
        std::size_t taken = 0;
        if (count == 0) return {status::changed, 0};
        const std::uint32_t answer = indexset_replica_apply_all(made().handle(), changes, count, &taken);
        this->store_->changed();
        if (taken == 0) detail::pass(answer);
        return {static_cast<status>(answer), taken};
    }

    // Applies the changes of an array, a vector or a result of a logged map, as above.
    template <class Events>
    [[nodiscard]] auto apply_all(const Events &changes) -> decltype(apply_all(changes.data(), changes.size())) {
        return apply_all(changes.data(), changes.size());
    }

  private:
    typename base::store_type &made() { return this->made_of(indexset_replica_new, this->next_); }
};

} // namespace indexset

#endif
