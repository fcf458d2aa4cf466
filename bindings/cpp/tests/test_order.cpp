// Compares multimap, logged_map, logged_byte_map and replica of indexset.hpp with std::multimap and std::map: random
// scripts, also with every Nth allocation failing.
#include "walks.hpp"
#include <limits>
#include <map>
#include <string>

// Keys near each other, and far apart; the least and the greatest of the type occur too.
template <class K>
K draw_key() {
    const std::size_t drawn = draw_below(200);
    if (drawn < 2) return drawn == 0 ? std::numeric_limits<K>::lowest() : std::numeric_limits<K>::max();
    if constexpr (std::is_floating_point_v<K>) return (static_cast<K>(drawn) - 100) / 4;
    return static_cast<K>(drawn) * static_cast<K>(drawn % 4 == 0 ? std::numeric_limits<K>::max() / 256 : 1);
}

// ---- a multimap
template <class K, class V>
struct multimap_script {
    using Ours = indexset::multimap<K, V>;
    using Peer = std::multimap<K, V>;
    unsigned long refuse;
    std::size_t bound; // of the values
    Ours ours{}, others{};
    Peer peer{}, other_peer{};

    typename Peer::iterator find(K key, V value) {
        const auto range = peer.equal_range(key);
        const auto found =
            std::find_if(range.first, range.second, [&](const auto &pair) { return pair.second == value; });
        return found == range.second ? peer.end() : found;
    }
    V draw_value() const { return static_cast<V>(draw_below(bound)); }

    void insert() {
        const K key = draw_key<K>();
        const V value = draw_value();
        std::pair<typename Ours::iterator, bool> found;
        if (is_refused(refuse, [&] { found = ours.insert({key, value}); })) return;
        auto wanted = find(key, value);
        CHECK(found.second == (wanted == peer.end()));
        if (found.second) wanted = peer.insert({key, value});
        CHECK(is_at(ours, peer, found.first, wanted));
    }
    void insert_some() {
        std::vector<std::pair<K, V>> pairs(draw_below(20));
        for (auto &pair : pairs) pair = {draw_key<K>(), draw_value()};
        if (is_refused(refuse, [&] { ours.insert(pairs.begin(), pairs.end()); })) return;
        for (const auto &pair : pairs) {
            if (find(pair.first, pair.second) == peer.end()) peer.insert(pair);
        }
    }
    void erase() {
        const K key = draw_key<K>();
        const V value = draw_value();
        const auto wanted = find(key, value);
        std::size_t removed = 0;
        CHECK(ours.contains(key, value) == (wanted != peer.end())
              && (ours.find(key, value) != ours.end()) == (wanted != peer.end()));
        if (wanted != peer.end()) CHECK(is_at(ours, peer, ours.find(key, value), wanted));
        if (is_refused(refuse, [&] { removed = ours.erase(key, value); })) return;
        CHECK(removed == (wanted != peer.end()));
        if (wanted != peer.end()) peer.erase(wanted);
    }
    void erase_first() {
        const K key = draw_key<K>();
        std::optional<V> removed;
        if (is_refused(refuse, [&] { removed = ours.erase_first(key); })) return;
        const auto wanted = peer.lower_bound(key);
        CHECK(removed.has_value() == (peer.count(key) != 0) && (!removed || *removed == wanted->second));
        if (removed) peer.erase(wanted);
    }
    void erase_at() {
        if (peer.empty()) return;
        const auto steps = static_cast<std::ptrdiff_t>(draw_below(peer.size()));
        auto after = ours.end();
        if (is_refused(refuse, [&] { after = ours.erase(ours.find_by_order(static_cast<std::size_t>(steps))); }))
            return;
        CHECK(is_at(ours, peer, after, peer.erase(std::next(peer.begin(), steps))));
    }
    void erase_range() {
        const auto first = static_cast<std::ptrdiff_t>(draw_below(peer.size() + 1));
        const auto many = static_cast<std::ptrdiff_t>(
            draw_below(std::min<std::size_t>(peer.size() - static_cast<std::size_t>(first), 9) + 1));
        const auto from = std::next(ours.begin(), first);
        auto after = ours.end();
        if (!is_refused(refuse, [&] { after = ours.erase(from, from + many); })) {
            CHECK(is_at(ours, peer, after,
                        peer.erase(std::next(peer.begin(), first), std::next(peer.begin(), first + many))));
        }
        const K key = draw_key<K>();
        std::size_t removed = 0;
        if (!is_refused(refuse, [&] { removed = ours.erase(key); })) CHECK(removed == peer.erase(key));
        CHECK(same(ours, peer));
    }

    void check_life() {
        Ours copy;
        const bool is = is_refused(refuse, [&] { copy = ours; });
        CHECK(is ? copy.empty() : copy == ours);
        CHECK((ours == others) == (peer == other_peer) && (ours < others) == (peer < other_peer));
#if __cplusplus >= 202002L
        CHECK((ours <=> others) == (peer <=> other_peer));
#endif
#ifdef HAS_VIEWS
        CHECK(std::ranges::equal(ours | std::views::reverse, peer | std::views::reverse, {}, {},
                                 [](const auto &pair) { return std::pair<K, V>(pair); }));
#endif
        Ours moved(std::move(ours));
        CHECK(ours.empty() && ours.begin() == ours.end() && same(moved, peer)); // NOLINT: what was moved from is empty
        ours = std::move(moved);
        swap(ours, others);
        peer.swap(other_peer);
    }

    void run(unsigned steps) {
        for (unsigned i = 0; i < steps; i++) {
            switch (draw_below(10)) {
            case 0: erase_first(); break;
            case 1: erase_at(); break;
            case 2:
            case 3: erase(); break;
            case 4: insert_some(); break;
            default: insert();
            }
            const K key = draw_key<K>();
            check_reads(ours, peer, key);
            std::vector<V> wanted;
            for (auto it = peer.lower_bound(key); it != peer.upper_bound(key); ++it) wanted.push_back(it->second);
            CHECK(ours.values(key) == wanted);
            if (i % 32 == 0) {
                CHECK(same(ours, peer));
                check_walks(ours);
                check_life();
                erase_range();
            }
            if (i % 700 == 699) ours.clear(), peer.clear();
        }
        CHECK(same(ours, peer));
    }
};

// Many values of one key, from both ends, and iterators that were made before the iteration moved elsewhere.
static void test_many_values() {
    indexset::multimap<int, int> ours;
    std::multimap<int, int> peer;
    for (int value = 0; value < 1000; value++) {
        for (int key : {7, value / 100}) {
            if (ours.insert({key, value * 3}).second) peer.insert({key, value * 3});
        }
    }
    CHECK(same(ours, peer));
    auto one = ours.begin(), other = ours.end();
    auto peers = peer.begin();
    for (std::size_t i = 0; i < peer.size(); i++, ++peers) {
        CHECK(*one++ == std::pair<int, int>(*peers));
        CHECK(*--other == std::pair<int, int>(*std::prev(peer.end(), static_cast<std::ptrdiff_t>(i) + 1)));
    }
    CHECK(one == ours.end() && other == ours.begin());
    CHECK(ours.erase(7) == peer.erase(7) && same(ours, peer));
    CHECK(indexset::erase_if(ours, [](const auto &pair) { return pair.second % 2 == 0; }) == 450 && ours.size() == 450);
}

// ---- changes of several pairs, with all allocations failing from one on
using Multi = indexset::multimap<int, int>;
using MultiPeer = std::multimap<int, int>;

static bool has_all(const Multi &ours, const MultiPeer &peer) {
    bool has = same(ours, peer);
    for (int key : {-1, 0, 4, 12, 20, 25}) {
        check_reads(ours, peer, key);
        std::vector<int> wanted;
        for (auto it = peer.lower_bound(key); it != peer.upper_bound(key); ++it) wanted.push_back(it->second);
        has = has && ours.values(key) == wanted && std::all_of(wanted.begin(), wanted.end(), [&](int value) {
                  return ours.contains(key, value) && ours.find(key, value) != ours.end();
              });
    }
    return has;
}

// Whether a collection hides pairs because an allocation failed: a change of no pair removes them first.
static bool is_hiding(Multi &ours) {
    return is_refused(
        1, [&] { ours.erase(-1, 0); }, onward);
}

// Each read of the pairs that a change left, also while pairs are hidden, and the result of the next change.
template <class Call, class PeerCall>
static void check_several(const Multi &before, const MultiPeer &peer_before, Call call, PeerCall peer_call) {
    MultiPeer changed(peer_before);
    peer_call(changed);
    unsigned hiding = 0;
    unsigned long at = 0;
    do {
        Multi ours(before);
        requests = 0, at++;
        MultiPeer peer = is_refused(
                             at, [&] { call(ours); }, onward)
                             ? peer_before
                             : changed;
        CHECK(requests < at || is_hiding(ours) || ours.size() != 0);
        if (is_hiding(ours)) {
            hiding++;
            CHECK(has_all(ours, peer) && Multi(ours) == ours);
            const auto middle = ours.begin() + static_cast<std::ptrdiff_t>(ours.size() / 2);
            CHECK(is_refused(
                      1, [&] { ours.erase(middle, ours.end()); }, onward)
                  && has_all(ours, peer) && is_hiding(ours));
            const bool added = ours.insert({4, -7}).second;
            CHECK(added && !is_hiding(ours) && ours.erase(4, -7) == 1);
        }
        CHECK(has_all(ours, peer));
    } while (requests >= at && at < 5000);
    CHECK(at < 5000 && hiding != 0);
}

static void test_several() {
    Multi ours;
    MultiPeer peer;
    for (int i = 0; i < 6000; i++) {
        const std::pair<int, int> pair(i % 3 == 0 ? 12 : i / 240, i);
        if (ours.insert(pair).second) peer.insert(pair);
    }
    const auto at = [](const MultiPeer &of, std::ptrdiff_t steps) { return std::next(of.begin(), steps); };
    check_several(
        ours, peer, [](Multi &of) { of.erase(12); }, [](MultiPeer &of) { of.erase(12); });
    check_several(
        ours, peer, [](Multi &of) { of.erase(of.begin() + 500, of.begin() + 5400); },
        [&](MultiPeer &of) { of.erase(at(of, 500), at(of, 5400)); });
    const auto is_odd = [](const auto &pair) { return pair.second % 8 != 0; };
    check_several(
        ours, peer, [&](Multi &of) { indexset::erase_if(of, is_odd); },
        [&](MultiPeer &of) {
            for (auto it = of.begin(); it != of.end();) it = is_odd(*it) ? of.erase(it) : std::next(it);
        });
    std::vector<std::pair<int, int>> pairs;
    pairs.reserve(3000);
    for (int i = 0; i < 3000; i++) pairs.emplace_back(draw_below(25), -i);
    check_several(
        ours, peer, [&](Multi &of) { of.insert(pairs.begin(), pairs.end()); },
        [&](MultiPeer &of) { of.insert(pairs.begin(), pairs.end()); });
}

// Each allocation of a call fails in turn.
static void test_sweep() {
    indexset::multimap<int, int> multi, more, less, other;
    for (int key = 0; key < 300; key++) multi.insert({key / 3, key});
    more = less = multi;
    more.insert({50, 1}), more.insert({7, 22}), less.erase(50, 151);
    other.insert({1, 2});
    indexset::multimap<int, int> one(multi);
    one.insert({50, 1});
    sweep(multi, one, [](auto &copy) { copy.insert({50, 1}); });
    sweep(multi, less, [](auto &copy) { copy.erase(50, 151); });
    sweep(multi, less, [](auto &copy) { copy.erase(copy.find(50, 151)); });
    sweep(other, multi, [&](auto &copy) { copy = multi; });
    const auto is_odd = [](const auto &pair) { return pair.second % 2 != 0; };
    indexset::multimap<int, int> even(multi);
    CHECK(indexset::erase_if(even, is_odd) == 150 && even.size() == 150);
    sweep(multi, even, [&](auto &copy) { indexset::erase_if(copy, is_odd); });
    sweep(multi, other, [](auto &copy) { copy = {{1, 2}, {1, 2}}; });
    indexset::multimap<int, int> without(multi), without_some(multi);
    CHECK(without.erase(50) == 3
          && without_some.erase(without_some.begin() + 10, without_some.begin() + 200) - without_some.begin() == 10);
    sweep(multi, without, [](auto &copy) { copy.erase(50); });
    sweep(multi, without_some, [](auto &copy) { copy.erase(copy.begin() + 10, copy.begin() + 200); });
    sweep(multi, indexset::multimap<int, int>(), [](auto &copy) { copy.erase(copy.begin(), copy.end()); });
    indexset::multimap<int, int> joined(other);
    joined.insert(more.begin(), more.end());
    CHECK(joined.size() == 302 && joined.values(1)[0] == 2);
    sweep(other, joined, [&](auto &copy) { copy.insert(more.begin(), more.end()); });
    CHECK(more.size() == 301 && less.size() == 299 && multi < less && multi != more);
}

// ---- a logged map and replicas that follow it
template <class K, class V>
struct log_script {
    using Log = indexset::logged_map<K, V>;
    using Replica = indexset::replica<K, V>;
    unsigned long refuse;
    Log log{4, 1000};
    std::map<K, V> peer{};
    Replica replica{1000};
    std::vector<indexset::event> all{};

    void change() {
        const K key = draw_key<K>();
        const V value = static_cast<V>(draw() >> 40);
        const std::size_t kind = draw_below(5);
        const auto found = peer.find(key);
        const std::uint64_t next = log.next();
        indexset::told<V> told;
        if (is_refused(refuse, [&] {
                told = kind == 0  ? log.insert({key, value})
                       : kind < 3 ? log.insert_or_assign(key, value)
                                  : log.erase(key);
            })) {
            CHECK(log.next() == next);
            return;
        }
        CHECK(!told.out_of_numbers && told.before.has_value() == (found != peer.end())
              && (!told.before || *told.before == found->second));
        CHECK(told.empty() == (kind == 0 ? found != peer.end() : kind >= 3 && found == peer.end())
              && log.next() == next + told.size());
        kind == 0 ? void(peer.insert({key, value})) : kind < 3 ? void(peer[key] = value) : void(peer.erase(key));
        all.insert(all.end(), told.begin(), told.end());
        follow(told);
    }

    void follow(const indexset::told<V> &told) {
        for (const indexset::event &event : told) {
            auto answer = indexset::status::gap;
            while (is_refused(refuse, [&] { answer = replica.apply(event); })) CHECK(replica.next() == event.number);
            CHECK(answer == indexset::status::changed && replica.apply(event) == indexset::status::unchanged);
            indexset::event later = event;
            later.number += 2;
            CHECK(replica.apply(later) == indexset::status::gap);
        }
    }

    void compare() {
        CHECK(same(log, peer) && same(replica, peer) && log.node_lengths() == replica.node_lengths());
        check_walks(log);
        check_walks(replica);
        CHECK(log.node_count() == replica.node_count() && log.next() == replica.next());
        Replica late(0);
        if (!is_refused(refuse, [&] { late = Replica(log); })) CHECK(late == replica && late.next() == log.next());
        Log moved(std::move(log));
        // NOLINTNEXTLINE: what was moved from is as it began
        CHECK(log.empty() && log.next() == 1000 && log.begin() == log.end());
        log = std::move(moved);
        swap(late, replica);
        swap(late, replica);
    }

    void run(unsigned steps) {
        for (unsigned i = 0; i < steps; i++) {
            change();
            const K key = draw_key<K>();
            check_reads(log, peer, key);
            check_reads(replica, peer, key);
            CHECK(log.get(key) == replica.get(key) && log.get(key).has_value() == (peer.count(key) != 0));
            if (i % 32 == 0) compare();
        }
        compare();
        Replica other(1000);
        const auto answer = other.apply_all(all);
        CHECK(answer.first == indexset::status::changed && answer.second == all.size() && other == replica);
        CHECK(other.apply_all(all) == std::make_pair(indexset::status::changed, all.size()) && other == replica);
    }
};

// Many changes in a call, with each allocation failing in turn, and with all from one on: it throws if it applied none,
// and otherwise the next call continues with the rest.
static void test_apply_all() {
    indexset::logged_map<int, int> log(4);
    std::vector<indexset::event> changes;
    for (int i = 0; i < 300; i++) {
        const auto told = i % 3 == 2 ? log.erase(i * 11 % 100) : log.insert_or_assign(i * 13 % 150, -i);
        changes.insert(changes.end(), told.begin(), told.end());
    }
    unsigned threw = 0, took_some = 0;
    for (unsigned long *which : {&nth, &onward}) {
        unsigned long at = 0;
        do {
            indexset::replica<int, int> replica, peer;
            std::pair<indexset::status, std::size_t> answer{};
            requests = 0, at++;
            if (is_refused(
                    at, [&] { answer = replica.apply_all(changes); }, *which)) {
                threw++;
                CHECK(answer.second == 0 && replica.empty() && replica.node_count() == 0);
            } else {
                const bool took_all = answer.second == changes.size();
                took_some += !took_all;
                CHECK(answer.second != 0
                      && answer.first == (took_all ? indexset::status::changed : indexset::status::no_memory));
            }
            for (std::size_t i = 0; i < answer.second; i++) CHECK(peer.apply(changes[i]) == indexset::status::changed);
            CHECK(replica == peer && replica.next() == peer.next() && replica.node_lengths() == peer.node_lengths());
            answer = replica.apply_all(changes.data() + answer.second, changes.size() - answer.second);
            CHECK(answer.first == indexset::status::changed && replica == indexset::replica(log)
                  && replica.next() == log.next());
        } while (requests >= at && at < 5000);
        CHECK(at < 5000);
    }
    CHECK(threw != 0 && took_some != 0);
}

// ---- a logged_byte_map, and nodes to which its changes are applied
struct byte_log_script {
    using pair = std::pair<std::string, int>;
    unsigned long refuse;
    indexset::logged_byte_map<int> log{4, 1000};
    std::map<std::string, int> peer{};
    std::vector<std::vector<pair>> nodes{};

    // Many keys have a common prefix; the empty key, zeros, bytes above 127 and more bytes than fit into a run occur.
    static std::string draw_bytes() {
        static const char letters[4] = {'\0', 'a', 'b', '\xff'};
        std::string key(draw_below(5), 'x');
        for (char &letter : key) letter = letters[draw_below(4)];
        if (draw_below(60) == 0) key.append(draw_below(5000), 'z');
        return key;
    }

    auto named(const pair &name) {
        return std::find_if(nodes.begin(), nodes.end(), [&](const auto &node) { return node.back() == name; });
    }
    void make_change(const indexset::byte_event &event) {
        const pair name(event.node, static_cast<int>(event.code.node_value)),
            of(event.key, static_cast<int>(event.code.value));
        const auto index = static_cast<std::ptrdiff_t>(event.code.index);
        auto at = named(name);
        CHECK((at == nodes.end()) == (event.code.kind == INDEXSET_CREATE));
        switch (event.code.kind) {
        case INDEXSET_CREATE:
            at = std::find_if(nodes.begin(), nodes.end(),
                              [&](const auto &node) { return node.back().first > name.first; });
            nodes.insert(at, {name});
            break;
        case INDEXSET_INSERT: at->insert(at->begin() + index, of); break;
        case INDEXSET_REMOVE:
            CHECK(at->at(event.code.index) == of);
            at->erase(at->begin() + index);
            break;
        case INDEXSET_DROP: nodes.erase(at); break;
        case INDEXSET_SPLIT: {
            std::vector<pair> rest(at->begin() + index, at->end());
            at->erase(at->begin() + index, at->end());
            nodes.insert(at + 1, rest);
            break;
        }
        default:
            CHECK(event.code.kind == INDEXSET_MERGE && (at + 1)->back() == of);
            at->insert(at->end(), (at + 1)->begin(), (at + 1)->end());
            nodes.erase(at + 1);
        }
    }

    void change() {
        const std::string key = draw_bytes();
        const int value = static_cast<int>(draw() >> 40);
        const std::size_t kind = draw_below(5);
        const auto found = peer.find(key);
        const std::uint64_t next = log.next();
        indexset::told_bytes<int> told;
        if (is_refused(refuse, [&] {
                told = kind == 0  ? log.insert({key, value})
                       : kind < 3 ? log.insert_or_assign(key, value)
                                  : log.erase(key);
            })) {
            CHECK(log.next() == next);
            return;
        }
        CHECK(!told.out_of_numbers && told.before.has_value() == (found != peer.end())
              && (!told.before || *told.before == found->second));
        CHECK((told.changes == 0) == (kind == 0 ? found != peer.end() : kind >= 3 && found == peer.end())
              && log.next() == next + told.changes);
        std::vector<indexset::byte_event> changes;
        while (told.changes != 0 && is_refused(refuse, [&] { changes = log.last_told(); })) CHECK(changes.empty());
        CHECK(changes.size() == told.changes);
        for (std::size_t i = 0; i < changes.size(); i++) {
            CHECK(changes[i].code.number == next + i);
            make_change(changes[i]);
        }
        kind == 0 ? void(peer.insert({key, value})) : kind < 3 ? void(peer[key] = value) : void(peer.erase(key));
    }

    void run(unsigned steps) {
        for (unsigned i = 0; i < steps; i++) {
            change();
            const std::string key = draw_bytes();
            check_reads(log, peer, key);
            CHECK(log.get(key).has_value() == (peer.count(key) != 0)
                  && (peer.count(key) == 0 || log.get(key) == peer.at(key)));
            if (i % 32 != 0) continue;
            std::vector<pair> all;
            for (const auto &node : nodes) all.insert(all.end(), node.begin(), node.end());
            CHECK(same(log, peer) && std::equal(log.begin(), log.end(), all.begin(), all.end())
                  && log.node_count() == nodes.size());
            check_walks(log);
            indexset::logged_byte_map<int> moved(std::move(log));
            // NOLINTNEXTLINE: what was moved from is as it began
            CHECK(log.empty() && log.next() == 1000 && log.last_told().empty());
            swap(log, moved);
        }
    }
};

static void test_statuses() {
    indexset::logged_map log(2, std::numeric_limits<std::uint64_t>::max());
    CHECK(log.insert_or_assign(1, 2).out_of_numbers && log.empty());
    indexset::logged_byte_map<> bytes(2, std::numeric_limits<std::uint64_t>::max());
    CHECK(bytes.insert_or_assign("a", 2).out_of_numbers && bytes.empty() && bytes.last_told().empty()
          && bytes.erase("a").changes == 0);
    indexset::replica<> replica;
    const indexset::event create{0, 10, 1, 0, 0, 0, INDEXSET_CREATE}, unfit{1, 10, 1, 0, 0, 0, 0},
        drop{1, 9, 1, 0, 0, 0, INDEXSET_DROP};
    CHECK(replica.apply(create) == indexset::status::changed && replica.get(10) == 1 && replica.next() == 1);
    CHECK(replica.apply(unfit) == indexset::status::unfit && replica.apply(drop) == indexset::status::no_such_node);
    CHECK(replica.apply_all(&drop, 1) == std::make_pair(indexset::status::no_such_node, std::size_t{0}));
    const indexset::logged_map<> none;
    CHECK(indexset::replica<>(none).empty() && none.node_lengths().empty() && none.find(1) == none.end()
          && none.rbegin() == none.rend());
}

int main() {
    multimap_script<std::uint64_t, int>{0, 8}.run(2000);
    multimap_script<double, double>{0, 300}.run(1500);
    for (unsigned long refuse = 1; refuse <= 12; refuse++) multimap_script<std::uint64_t, int>{refuse, 8}.run(200);
    test_many_values();
    test_several();
    test_sweep();
    log_script<std::uint64_t, std::uint64_t>{0}.run(2000);
    log_script<int, float>{0}.run(1500);
    for (unsigned long refuse = 2; refuse <= 12; refuse++) log_script<std::uint64_t, std::uint64_t>{refuse}.run(200);
    byte_log_script{0}.run(2000);
    for (unsigned long refuse = 2; refuse <= 12; refuse++) byte_log_script{refuse}.run(200);
    test_apply_all();
    test_statuses();
    return told();
}
