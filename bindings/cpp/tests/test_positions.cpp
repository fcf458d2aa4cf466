// Compares set, map and byte_map of indexset.hpp with std::set, std::map and the trees of pb_ds: the same random
// scripts, also with every Nth allocation failing.
#include "walks.hpp"
#include <cmath>
#include <ext/pb_ds/assoc_container.hpp>
#include <ext/pb_ds/tree_policy.hpp>
#include <limits>
#include <map>
#include <numeric>
#include <set>
#include <string>

template <class K, class V>
using tree =
    __gnu_pbds::tree<K, V, std::less<K>, __gnu_pbds::rb_tree_tag, __gnu_pbds::tree_order_statistics_node_update>;

enum class color : short { red = -3, green = 0, blue = 7 };

// ---- keys: the least and the greatest of the type occur too
template <class K>
K draw_key() {
    const std::size_t drawn = draw_below(400);
    if constexpr (std::is_floating_point_v<K>) {
        using limits = std::numeric_limits<K>;
        const K odd[] = {-limits::infinity(),
                         limits::infinity(),
                         limits::lowest(),
                         limits::max(),
                         limits::denorm_min(),
                         -limits::min(),
                         0};
        return drawn < 7 ? odd[drawn] : (static_cast<K>(drawn) - 200) / 8;
    } else if constexpr (std::is_enum_v<K>) {
        return static_cast<K>(static_cast<short>(drawn) - 200);
    } else {
        if (drawn < 2) return drawn == 0 ? std::numeric_limits<K>::min() : std::numeric_limits<K>::max();
        return static_cast<K>(draw() >> 7) % static_cast<K>(sizeof(K) == 1 ? 100 : 300);
    }
}

// Copies, moves, swaps and comparisons.
template <class Ours, class Peer>
void check_life(unsigned long refuse, Ours &ours, Peer &peer, Ours &others, Peer &other_peer) {
    Ours copy;
    const bool is = is_refused(refuse, [&] { copy = ours; });
    CHECK(is ? copy.empty() : copy == ours);
    CHECK((ours == others) == (peer == other_peer) && (ours != others) == (peer != other_peer));
    CHECK((ours < others) == (peer < other_peer) && (ours >= others) == (peer >= other_peer));
#if __cplusplus >= 202002L
    CHECK((ours <=> others) == (peer <=> other_peer));
#endif
    const auto first = ours.begin();
    Ours moved(std::move(ours));
    CHECK(ours.empty() && ours.begin() == ours.end() && same(moved, peer)); // NOLINT: what was moved from is empty
    CHECK(peer.empty() || *first == *moved.begin());
    ours = std::move(moved);
    swap(ours, others);
    peer.swap(other_peer);
    CHECK(same(ours, peer) && same(others, other_peer));
}

// ---- changes of a set, each also made to the peers unless an allocation failed
template <class K>
struct set_script {
    indexset::set<K> ours, others;
    std::set<K> peer, other_peer;
    unsigned long refuse;

    void insert() {
        const K key = draw_key<K>();
        std::pair<typename indexset::set<K>::iterator, bool> found;
        if (is_refused(refuse, [&] { found = ours.insert(key); })) return;
        const auto wanted = peer.insert(key);
        CHECK(found.second == wanted.second && is_at(ours, peer, found.first, wanted.first));
    }
    void insert_some() {
        std::vector<K> keys(draw_below(30));
        for (K &key : keys) key = draw_key<K>();
        if (!is_refused(refuse, [&] { ours.insert(keys.begin(), keys.end()); })) peer.insert(keys.begin(), keys.end());
    }
    void erase() {
        const K key = draw_key<K>();
        CHECK(ours.erase(key) == peer.erase(key));
    }
    void erase_at() {
        if (peer.empty()) return;
        const auto position = static_cast<std::ptrdiff_t>(draw_below(peer.size()));
        const auto after = ours.erase(ours.begin() + position);
        CHECK(is_at(ours, peer, after, peer.erase(std::next(peer.begin(), position))));
    }
    void erase_some() {
        const std::size_t from = draw_below(peer.size() + 1),
                          many = draw_below(std::min<std::size_t>(peer.size() - from, 90) + 1);
        const auto first = std::next(peer.begin(), static_cast<std::ptrdiff_t>(from));
        const auto after = ours.erase(ours.find_by_order(from), ours.find_by_order(from + many));
        CHECK(is_at(ours, peer, after, peer.erase(first, std::next(first, static_cast<std::ptrdiff_t>(many)))));
    }
    void erase_odd() {
        std::size_t at = 0, gone = 0;
        const std::size_t before = peer.size();
        for (auto it = peer.begin(); it != peer.end(); at++) {
            gone += at % 3 == 0;
            it = at % 3 == 0 ? peer.erase(it) : std::next(it);
        }
        at = 0;
        CHECK(indexset::erase_if(ours, [&](const auto &) { return at++ % 3 == 0; }) == gone
              && ours.size() == before - gone);
    }

    void run(unsigned steps) {
        for (unsigned i = 0; i < steps; i++) {
            switch (draw_below(16)) {
            case 0: erase_at(); break;
            case 1: erase_some(); break;
            case 2: insert_some(); break;
            case 3:
            case 4:
            case 5:
            case 6: erase(); break;
            default: insert();
            }
            check_reads(ours, peer, draw_key<K>());
            if (i % 32 == 0) {
                CHECK(same(ours, peer));
                check_walks(ours);
                check_life(refuse, ours, peer, others, other_peer);
            }
            if (i % 512 == 511) erase_odd();
            if (i % 700 == 699) ours.clear(), peer.clear();
        }
        CHECK(same(ours, peer));
    }
};

// The same script for pb_ds, which has the same call names.
template <class K>
void beside_tree(unsigned steps) {
    indexset::set<K> ours;
    tree<K, __gnu_pbds::null_type> peer;
    for (unsigned i = 0; i < steps; i++) {
        const K key = draw_key<K>();
        const std::size_t position = draw_below(peer.size() + 2);
        if (draw_below(5) < 2) {
            CHECK((ours.erase(key) != 0) == peer.erase(key));
        } else {
            CHECK(ours.insert(key).second == peer.insert(key).second);
        }
        CHECK(ours.order_of_key(key) == peer.order_of_key(key) && ours.size() == peer.size());
        const auto found = ours.find_by_order(position);
        const auto wanted = peer.find_by_order(position);
        CHECK((found == ours.end()) == (wanted == peer.end()) && (wanted == peer.end() || *found == *wanted));
    }
    CHECK(std::equal(ours.begin(), ours.end(), peer.begin(), peer.end()));
}

// ---- changes of a map and of a byte_map
template <class Ours, class Peer, class DrawKey>
struct map_script {
    using V = typename Ours::mapped_type;
    DrawKey draw_a_key;
    unsigned long refuse;
    Ours ours{}, others{};
    Peer peer{}, other_peer{};

    static V draw_value() { return static_cast<V>(draw() >> 40); }

    void insert(bool replaces) {
        const auto key = draw_a_key();
        const V value = draw_value();
        std::pair<typename Ours::iterator, bool> found;
        if (is_refused(refuse, [&] {
                found = replaces ? ours.insert_or_assign(key, value) : ours.insert({key, value});
            }))
            return;
        const auto wanted = replaces ? peer.insert_or_assign(key, value) : peer.insert({key, value});
        CHECK(found.second == wanted.second && is_at(ours, peer, found.first, wanted.first));
        CHECK(found.first->first == wanted.first->first && found.first->second == wanted.first->second);
    }
    void insert_some() {
        std::vector<typename Ours::value_type> pairs(draw_below(20));
        for (auto &pair : pairs) pair = {draw_a_key(), draw_value()};
        if (!is_refused(refuse, [&] { ours.insert(pairs.begin(), pairs.end()); }))
            peer.insert(pairs.begin(), pairs.end());
    }
    void index() {
        const auto key = draw_a_key();
        const V by = draw_value();
        const bool reads = draw_below(2) == 0;
        V read{};
        if (is_refused(refuse, [&] { reads ? void(read = ours[key]) : void(ours[key] += by); })) return;
        if (reads) {
            CHECK(read == peer[key]);
        } else {
            peer[key] += by;
        }
        if (!is_refused(refuse, [&] { ours[key] = by; })) peer[key] = by;
    }
    void erase_some() {
        const auto key = draw_a_key();
        CHECK(ours.erase(key) == peer.erase(key));
        if (peer.empty()) return;
        const std::size_t from = draw_below(peer.size()),
                          many = draw_below(std::min<std::size_t>(peer.size() - from, 9) + 1);
        const auto first = std::next(peer.begin(), static_cast<std::ptrdiff_t>(from));
        CHECK(is_at(ours, peer, ours.erase(ours.begin() + static_cast<std::ptrdiff_t>(from)), peer.erase(first)));
        if (draw_below(4) != 0 || many == 0) return;
        const auto next = std::next(peer.begin(), static_cast<std::ptrdiff_t>(from));
        const auto after = ours.erase(ours.find_by_order(from), ours.find_by_order(from + many - 1));
        CHECK(is_at(ours, peer, after, peer.erase(next, std::next(next, static_cast<std::ptrdiff_t>(many - 1)))));
    }

    void run(unsigned steps) {
        for (unsigned i = 0; i < steps; i++) {
            switch (draw_below(8)) {
            case 0: insert_some(); break;
            case 1: index(); break;
            case 2:
            case 3: erase_some(); break;
            default: insert(draw_below(2) == 0);
            }
            const auto key = draw_a_key();
            check_reads(ours, peer, key);
            CHECK(ours.get(key).has_value() == (peer.count(key) != 0)
                  && ours.get(key).value_or(V{}) == (peer.count(key) != 0 ? peer.at(key) : V{}));
            if (i % 32 == 0) {
                CHECK(same(ours, peer));
                check_walks(ours);
                check_life(refuse, ours, peer, others, other_peer);
            }
            if (i % 300 == 299) ours.clear(), peer.clear();
        }
        CHECK(same(ours, peer));
    }
};

// Many keys have a common prefix; zeros, bytes above 127, the empty key and more bytes than fit into a run occur.
static std::string draw_bytes() {
    static const char letters[4] = {'\0', 'a', 'b', '\xff'};
    std::string key(draw_below(5), 'x');
    for (char &letter : key) letter = letters[draw_below(4)];
    if (draw_below(60) == 0) key.append(draw_below(5000), 'z');
    return key;
}

// ---- examples
static void test_keys() {
    const double nan = std::numeric_limits<double>::quiet_NaN();
    indexset::set<double> numbers{1.5, -0.0, nan, -1e300, 0.0, -nan, 3};
    CHECK(numbers.size() == 5 && numbers.contains(nan) && numbers.contains(0) && std::isnan(*numbers.rbegin()));
    CHECK(!std::signbit(*numbers.find(-0.0)) && numbers == numbers && *numbers.begin() == -1e300);
    CHECK(numbers.key_comp()(1e308, nan) && !numbers.key_comp()(nan, nan) && !numbers.key_comp()(-0.0, 0.0));
    indexset::map<float, double> zeros{{1.5F, -0.0}};
    CHECK(std::signbit(*zeros.get(1.5F)) && zeros.begin()->second == 0);
    indexset::set<color> colors{color::blue, color::red, color::green};
    CHECK(*colors.begin() == color::red && colors.order_of_key(color::blue) == 2);
    indexset::set<bool> bits{true, false, true};
    CHECK(bits.size() == 2 && !*bits.begin());
    indexset::map<char, const char *> names{{'b', "bee"}, {'a', "ay"}};
    CHECK(std::string(names.begin()->second) == "ay" && names.begin()->first == 'a');
    const std::vector<int> several{3, 1, 2};
    indexset::set deduced(several.begin(), several.end());
    static_assert(std::is_same_v<decltype(deduced), indexset::set<int>>);
    const std::map<int, float> pairs{{1, 2.5F}};
    indexset::map copied(pairs.begin(), pairs.end());
    static_assert(std::is_same_v<decltype(copied), indexset::map<int, float>>);
    indexset::map listed{std::pair(2, 'b'), std::pair(1, 'a')};
    CHECK(copied.get(1) == 2.5F && listed.begin()->second == 'a');
    CHECK(*deduced.begin() == 1 && std::accumulate(deduced.begin(), deduced.end(), 0) == 6);
    CHECK(indexset::version() == indexset_version());
    CHECK(indexset::is_proved() == (indexset_proved == 1));
    indexset_set plain = INDEXSET_HANDLE; // which compilers take in C++ without a word too
    CHECK(indexset_set_len(&plain) == 0);
}

static void test_empty() {
    const indexset::set<int> none;
    CHECK(none.begin() == none.end() && none.rbegin() == none.rend() && none.size() == 0 && !none.contains(1));
    CHECK(none.find(1) == none.end() && none.lower_bound(1) == none.upper_bound(1) && none.order_of_key(1) == 0);
    CHECK(none == indexset::set<int>() && indexset::set<int>(none).empty() && none.find_by_order(0) == none.end());
    indexset::map<int, int> map;
    CHECK(map.erase(1) == 0 && !map.get(1) && map.find(1) == map.end());
    map.clear();
    indexset::byte_map<int> bytes;
    CHECK(bytes.erase("a") == 0 && !bytes.get("") && bytes.find(std::string_view()) == bytes.end());
    CHECK(bytes.insert({std::string_view(), 3}).second && bytes.begin()->first.empty() && bytes.get("") == 3);
    nth = 1; // none of these calls allocates
    indexset::set<int> moved(std::move(const_cast<indexset::set<int> &>(none))), other;
    swap(moved, other);
    moved = std::move(other);
    moved.clear();
    nth = 0;
    CHECK(moved.empty());
}

// Each allocation of a call fails in turn.
static void test_sweep() {
    std::vector<int> keys(700), more(60);
    std::iota(keys.begin(), keys.end(), 1);
    std::iota(more.begin(), more.end(), 680);
    const indexset::set<int> set(keys.begin(), keys.end());
    indexset::set<int> changed(set);
    changed.insert(more.begin(), more.end());
    sweep(set, changed, [&](auto &copy) { copy.insert(more.begin(), more.end()); });
    sweep(indexset::set<int>(), set, [&](auto &copy) { copy.insert(keys.begin(), keys.end()); });
    sweep(changed, set, [&](auto &copy) { copy = set; });
    indexset::map<int, int> map, larger;
    indexset::byte_map<int> bytes, more_bytes;
    std::vector<std::pair<int, int>> pairs;
    std::vector<std::pair<std::string, int>> texts;
    for (int key : keys) map.insert({key, key}), bytes.insert({std::to_string(key), key});
    for (int key : more) pairs.emplace_back(key, -key), texts.emplace_back(std::to_string(key), -key);
    larger = map, more_bytes = bytes;
    larger.insert(pairs.begin(), pairs.end()), more_bytes.insert(texts.begin(), texts.end());
    CHECK(larger.size() == 739 && more_bytes.size() == 739 && larger.get(690) == 690 && larger.get(739) == -739);
    sweep(map, larger, [&](auto &copy) { copy.insert(pairs.begin(), pairs.end()); });
    sweep(bytes, more_bytes, [&](auto &copy) { copy.insert(texts.begin(), texts.end()); });
    sweep(larger, map, [&](auto &copy) { copy = map; });
    sweep(set, {1, 3}, [](auto &copy) { copy = {3, 1}; });
    sweep(map, {{1, 2}}, [](auto &copy) { copy = {{1, 2}}; });
    sweep(bytes, {{"", 2}}, [](auto &copy) { copy = {{"", 2}}; });
    larger = map, more_bytes = bytes;
    larger[3000] = larger[2000], more_bytes["3000"] = more_bytes["2000"];
    CHECK(larger.size() == 702 && more_bytes.size() == 702 && larger.get(2000) == 0 && more_bytes.get("3000") == 0);
    sweep(map, larger, [](auto &copy) { copy[3000] = copy[2000]; });
    sweep(bytes, more_bytes, [](auto &copy) { copy["3000"] = copy["2000"]; });
}

template <class K>
void test_set(unsigned steps) {
    set_script<K>{{}, {}, {}, {}, 0}.run(steps);
    for (unsigned long refuse = 1; refuse <= 12; refuse++) set_script<K>{{}, {}, {}, {}, refuse}.run(steps / 20);
}

template <class Ours, class Peer, class DrawKey>
void test_map(DrawKey draw_a_key, unsigned steps) {
    map_script<Ours, Peer, DrawKey>{draw_a_key, 0}.run(steps);
    for (unsigned long refuse = 1; refuse <= 12; refuse++)
        map_script<Ours, Peer, DrawKey>{draw_a_key, refuse}.run(steps / 20);
}

int main() {
    test_keys();
    test_empty();
    test_sweep();
    test_set<std::uint64_t>(4000);
    test_set<short>(4000);
    test_set<double>(4000);
    beside_tree<std::uint64_t>(4000);
    beside_tree<std::int64_t>(2000);
    beside_tree<unsigned>(2000);
    beside_tree<signed char>(2000);
    beside_tree<wchar_t>(2000);
    beside_tree<double>(4000);
    beside_tree<float>(2000);
    beside_tree<color>(2000);
    test_map<indexset::map<std::uint64_t, std::uint64_t>, std::map<std::uint64_t, std::uint64_t>>(
        draw_key<std::uint64_t>, 3000);
    test_map<indexset::map<double, float>, std::map<double, float>>(draw_key<double>, 3000);
    test_map<indexset::byte_map<int>, std::map<std::string, int>>(draw_bytes, 3000);
    return told();
}
