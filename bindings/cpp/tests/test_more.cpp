// Tests of indexset.hpp by example: descending keys, sets of byte strings, maps to objects, and elements that are moved
// from one collection to another.
#include "walks.hpp"
#include <limits>
#include <map>
#include <memory>
#include <set>
#include <stdexcept>
#include <string>

// A value whose comparison is a member.
struct amount {
    int whole;
    short part;
    bool operator==(const amount &other) const { return whole == other.whole && part == other.part; }
};

// A value of more than eight bytes, trivially copyable.
struct point {
    double x, y, z;
    friend bool operator==(const point &a, const point &b) { return a.x == b.x && a.y == b.y && a.z == b.z; }
};

template <class Call>
bool is_out_of_range(Call call) {
    try {
        call();
    } catch (const std::out_of_range &) {
        return true;
    }
    return false;
}

static void test_values() {
    indexset::map<int, amount> amounts;
    amounts[5] = amount{1, 2};
    CHECK(amounts[5] == amount{1, 2} && amount{1, 2} == amounts[5] && amounts[5] == amounts[5]);
    CHECK(amounts[5] != amount{1, 3} && !(amounts[5] != amount{1, 2}) && !(amounts[5] == amounts[6]));
    CHECK(amounts.at(5) == amount{1, 2} && amounts.size() == 2 && is_out_of_range([&] { amounts.at(7); }));
    indexset::map<int, int> numbers{{1, 2}};
    CHECK(numbers[1] == 2 && numbers[1] == 2L && 2 == numbers[1] && numbers[1] != 3U && numbers.at(1) == 2);
    indexset::byte_map<int> texts{{"a", 1}};
    CHECK(texts.at("a") == 1 && is_out_of_range([&] { texts.at("b"); }));
    const std::string lengthy(100, 'k'); // an iterator to it allocates when it is read
    indexset::byte_map<int> larger(texts);
    CHECK(larger[lengthy] == 0 && larger.size() == 2);
    sweep(texts, larger, [&](auto &copy) { CHECK(copy[lengthy] == 0); });
}

// ---- descending keys, beside std
template <class K>
void test_descending(std::initializer_list<K> odd) {
    indexset::set<K, std::greater<>> ours(odd);
    std::set<K, std::greater<>> peer(odd);
    indexset::map<K, int, std::greater<K>> map;
    for (int i = 0; i < 400; i++) {
        const K key = static_cast<K>(draw_below(200)) - static_cast<K>(100);
        if (draw_below(3) == 0) {
            CHECK(ours.erase(key) == peer.erase(key));
        } else {
            CHECK(ours.insert(key).second == peer.insert(key).second);
        }
        map[key] += i;
        check_reads(ours, peer, key);
        CHECK(ours.key_comp()(key, *ours.begin()) == peer.key_comp()(key, *peer.begin()));
    }
    CHECK(same(ours, peer));
    CHECK(map.begin()->first > map.rbegin()->first && map.lower_bound(0)->first <= 0);
    const std::set<K, std::greater<>> less(std::next(peer.begin()), peer.end());
    const indexset::set<K, std::greater<>> fewer(std::next(ours.begin()), ours.end());
    CHECK((fewer < ours) == (less < peer) && (ours < fewer) == (peer < less) && ours != fewer);
}

// ---- a set of byte strings, beside std
static void test_byte_set() {
    for (unsigned long refuse = 0; refuse <= 6; refuse++) {
        indexset::byte_set ours;
        std::set<std::string> peer;
        for (int i = 0; i < 600; i++) {
            std::string key(draw_below(4), 'x');
            for (char &letter : key) letter = static_cast<char>('a' + static_cast<int>(draw_below(3)) * 80);
            bool added = false;
            if (draw_below(3) == 0) {
                CHECK(ours.erase(key) == peer.erase(key));
            } else if (!is_refused(refuse, [&] { added = ours.insert(key).second; })) {
                CHECK(added == peer.insert(key).second);
            }
            if (i % 16 == 0) check_reads(ours, peer, key);
        }
        CHECK(same(ours, peer));
        check_walks(ours);
    }
    indexset::byte_set set{"b", "a", "", "b"};
    CHECK(set.size() == 3 && *set.begin() == "" && set == indexset::byte_set(set) && !(set < set));
    CHECK(set.extract("a") == std::string("a") && !set.extract("a") && set.size() == 2);
    CHECK(set.emplace(2, 'z').second && *set.rbegin() == "zz" && set.order_of_key("zz") == 2);
    const std::vector<std::string> more{"c", "b", "d"};
    indexset::byte_set larger(set);
    larger.insert(more.begin(), more.end());
    sweep(set, larger, [&](auto &copy) { copy.insert(more.begin(), more.end()); });
}

// ---- elements that are moved
static void test_moves() {
    const indexset::set<int> odd{1, 3, 5}, some{1, 2, 3, 4};
    indexset::set<int> all(odd), rest(some);
    all.merge(rest);
    CHECK(all == indexset::set<int>{1, 2, 3, 4, 5} && rest == indexset::set<int>{1, 3});
    CHECK(all.extract(2) == 2 && !all.extract(2) && all.extract(all.begin()) == 1 && all.size() == 3);
    sweep(odd, indexset::set<int>{1, 2, 3, 4, 5}, [&](auto &copy) {
        indexset::set<int> other(some);
        try {
            copy.merge(other);
        } catch (const std::bad_alloc &) {
            CHECK(other.size() == 4);
            throw;
        }
        CHECK(other.size() == 2);
    });
    indexset::map<int, int> pairs{{1, 10}, {2, 20}}, others{{2, 200}, {3, 300}};
    pairs.merge(others);
    CHECK(pairs.get(2) == 20 && pairs.get(3) == 300 && others.size() == 1 && others.get(2) == 200);
    CHECK(pairs.extract(3) == std::pair(3, 300) && !pairs.extract(3));
    indexset::byte_map<int> texts{{"a", 1}}, more{{"a", 2}, {"b", 3}};
    texts.merge(std::move(more));
    CHECK(texts.size() == 2 && texts.get("a") == 1 && texts.extract("b") == std::pair<std::string, int>("b", 3));
}

// ---- maps to objects, beside std
template <class Ours, class Peer, class DrawKey>
void test_objects(DrawKey draw_a_key) {
    for (unsigned long refuse = 0; refuse <= 6; refuse++) {
        Ours ours;
        Peer peer;
        for (int i = 0; i < 500; i++) {
            const auto key = draw_a_key();
            std::string value(draw_below(40), static_cast<char>('a' + i % 26));
            bool added = false;
            switch (draw_below(6)) {
            case 0: CHECK(ours.erase(key) == peer.erase(key)); break;
            case 1:
                if (!is_refused(refuse, [&] { added = ours.insert_or_assign(key, value).second; }))
                    CHECK(added == peer.insert_or_assign(key, value).second);
                break;
            case 2:
                if (!is_refused(refuse, [&] { ours[key] += "!"; })) peer[key] += "!";
                break;
            case 3:
                if (!peer.empty()) {
                    const std::size_t at = draw_below(peer.size());
                    const auto found = std::next(peer.begin(), static_cast<std::ptrdiff_t>(at));
                    if (!is_refused(refuse, [&] { ours.erase(ours.find_by_order(at)); })) peer.erase(found);
                }
                break;
            default:
                if (!is_refused(refuse, [&] { added = ours.try_emplace(key, value).second; }))
                    CHECK(added == peer.try_emplace(key, value).second);
            }
            CHECK((ours.get(key) != nullptr) == (peer.count(key) != 0) && ours.size() == peer.size());
            CHECK(ours.get(key) == nullptr || *ours.get(key) == peer.at(key));
            CHECK(ours.order_of_key(key)
                  == static_cast<std::size_t>(std::distance(peer.begin(), peer.lower_bound(key))));
        }
        const auto is_equal = [](const auto &a, const auto &b) { return a.first == b.first && a.second == b.second; };
        CHECK(std::equal(ours.begin(), ours.end(), peer.begin(), peer.end(), is_equal));
        CHECK(std::equal(ours.rbegin(), ours.rend(), peer.rbegin(), peer.rend(), is_equal));
        Ours copy(ours), moved(std::move(ours));
        CHECK(copy == moved && ours.empty() && !(copy != moved)); // NOLINT: what was moved from is empty
        const std::size_t half = copy.size() / 2;
        copy.erase(copy.begin(), copy.find_by_order(half));
        CHECK(copy.size() == moved.size() - half && (half == 0 || copy != moved));
        copy.merge(moved);
        CHECK(copy.size() == peer.size() && moved.size() == peer.size() - half);
        swap(copy, ours);
        ours = moved;
        CHECK(ours == moved);
    }
}

static void test_examples() {
    indexset::object_map<int, std::unique_ptr<int>> owners;
    owners.try_emplace(3, std::make_unique<int>(30));
    std::unique_ptr<int> &three = owners.at(3);
    for (int i = 10; i < 3000; i++) owners.try_emplace(i, nullptr);
    CHECK(&owners.at(3) == &three && *three == 30 && is_out_of_range([&] { owners.at(4); }));
    const std::unique_ptr<std::unique_ptr<int>> out = owners.extract(3);
    CHECK(out && **out == 30 && !owners.extract(3) && owners.begin()->first == 10);
    indexset::object_map<unsigned, point, std::greater<>> points{{1, {1, 2, 3}}, {7, {4, 5, 6}}};
    points[1].y = 20;
    CHECK(points.begin()->first == 7 && points.at(1) == point{1, 20, 3} && points.size() == 2);
    const auto &fixed = points;
    static_assert(std::is_same_v<decltype(fixed.begin()->second), const point &>);
    CHECK(fixed.find(7)->second == point{4, 5, 6} && fixed.lower_bound(6)->first == 1 && fixed.get(8) == nullptr);
    indexset::byte_object_map<std::string> texts{{"b", "bee"}, {"a", "ay"}};
    for (auto [key, value] : texts) value += key;
    CHECK(texts.at("a") == "aya" && texts.begin()->first == "a" && texts.count("c") == 0);
    indexset::object_map<int, std::string> before{{1, "one"}}, after{{1, "one"}, {2, "two"}};
    sweep(before, after, [](auto &copy) { copy.insert({2, "two"}); });
    sweep(before, after, [&](auto &copy) { copy = after; });
}

int main() {
    test_values();
    test_descending<int>({std::numeric_limits<int>::min(), std::numeric_limits<int>::max(), 0});
    test_descending<double>({-1e300, 0.0, 1e300});
    test_byte_set();
    test_moves();
    test_objects<indexset::object_map<int, std::string>, std::map<int, std::string>>(
        [] { return static_cast<int>(draw_below(300)); });
    test_objects<indexset::object_map<int, std::string, std::greater<>>, std::map<int, std::string, std::greater<>>>(
        [] { return static_cast<int>(draw_below(300)); });
    test_objects<indexset::byte_object_map<std::string>, std::map<std::string, std::string>>(
        [] { return std::to_string(draw_below(300)); });
    test_examples();
    return told();
}
