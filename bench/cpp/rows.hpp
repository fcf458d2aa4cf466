// Shared by the programs in C++: they time the calls of an ordered set and map of u64 keys. Each row is a line: its
// name, a tab, nanoseconds per operation. `rows KEYS` prints the rows; `hold KEYS COPIES ascending|mixed` makes that
// many sets, prints a line and waits for one, so that its memory can be read; `calls KEYS ROW COUNT` prepares 100,000
// calls and makes the first COUNT of them, so that the cost of one is the difference between two runs.
//
// A library is a type with these members; rows for which it has no call are left out.
//
//   Set, Map, TextMap          its set, its map, and its map from texts
//   has_positions              whether it has `find_by_order` and `order_of_key`
//   has_split                  whether it has `split(set, last, upper)`: what is above a key moves to `upper`
//   has_equality               whether it has `==`
//   appends_any                whether `append` takes sets whose elements alternate
//   append(set, other)         moves the elements of another set into a set
//   erase_if(set, test)        removes the elements that pass a test
#pragma once
#include <algorithm>
#include <chrono>
#include <cstdint>
#include <cstdio>
#include <cstdlib>
#include <cstring>
#include <optional>
#include <string>
#include <utility>
#include <vector>

using Clock = std::chrono::steady_clock;
using Keys = std::vector<uint64_t>;
using Texts = std::vector<std::string>;

static volatile uint64_t sink;

// The i-th of distinct keys in random order.
static uint64_t key(uint64_t i) {
    i = (i + 1) * 0x9e3779b97f4a7c15u;
    i = (i ^ (i >> 30)) * 0xbf58476d1ce4e5b9u;
    i = (i ^ (i >> 27)) * 0x94d049bb133111ebu;
    return i ^ (i >> 31);
}

// The values of a function from 0 on.
template <class Value>
static Keys listed(uint64_t count, Value value) {
    Keys list;
    for (uint64_t i = 0; i < count; i++) list.push_back(value(i));
    return list;
}

// The lists that the measures iterate over: keys to insert, the same in another order, absent ones, positions.
struct Lists {
    Keys mixed, sought, absent, positions;

    explicit Lists(uint64_t keys)
        : mixed(listed(keys, key)), sought(listed(keys, [=](uint64_t i) { return key(i * 7919 % keys); })),
          absent(listed(keys, [=](uint64_t i) { return key(keys + i); })),
          positions(listed(keys, [=](uint64_t i) { return key(i) % keys; })) {}
};

template <class Work>
static void row(const char *name, uint64_t operations, Work work) {
    auto start = Clock::now();
    sink = work();
    double nanoseconds = std::chrono::duration<double, std::nano>(Clock::now() - start).count();
    printf("%s\t%.1f\n", name, nanoseconds / static_cast<double>(operations ? operations : 1));
}

template <class Set>
[[gnu::noinline]] static uint64_t inserted(Set &set, const Keys &keys) {
    for (auto key : keys) set.insert(key);
    return set.size();
}

template <class Map>
[[gnu::noinline]] static uint64_t inserted_pairs(Map &map, const Keys &keys) {
    for (auto key : keys) map.insert({key, key});
    return map.size();
}

template <class Set>
[[gnu::noinline]] static uint64_t contained(const Set &set, const Keys &keys) {
    uint64_t count = 0;
    for (auto key : keys) count += set.find(key) != set.end();
    return count;
}

template <class Set>
[[gnu::noinline]] static uint64_t by_position(const Set &set, const Keys &positions) {
    uint64_t sum = 0;
    for (auto at : positions) sum += *set.find_by_order(at);
    return sum;
}

template <class Set>
[[gnu::noinline]] static uint64_t ranks(const Set &set, const Keys &keys) {
    uint64_t sum = 0;
    for (auto key : keys) sum += set.order_of_key(key);
    return sum;
}

// The keys in decimal.
static Texts texts_of(const Keys &keys) {
    Texts texts;
    for (auto key : keys) texts.push_back(std::to_string(key));
    return texts;
}

template <class Map>
[[gnu::noinline]] static uint64_t inserted_texts(Map &map, Texts texts) {
    for (auto &text : texts) map.insert({std::move(text), 1});
    return map.size();
}

template <class Map, class List>
[[gnu::noinline]] static uint64_t looked_up(const Map &map, const List &keys) {
    uint64_t sum = 0;
    for (auto &key : keys) sum += map.find(key)->second;
    return sum;
}

// Adds one to each value, key by key.
template <class Map>
[[gnu::noinline]] static uint64_t written(Map &map, const Keys &keys) {
    for (auto key : keys) map.find(key)->second += 1;
    return map.size();
}

template <class Set>
[[gnu::noinline]] static uint64_t walked(const Set &set) {
    uint64_t sum = 0;
    for (auto key : set) sum += key;
    return sum;
}

// Iterates from both ends in turn.
template <class Set>
[[gnu::noinline]] static uint64_t walked_from_both_ends(const Set &set) {
    uint64_t sum = 0;
    auto first = set.begin(), last = set.end();
    while (first != last) {
        sum += *first;
        if (++first != last) sum += *--last;
    }
    return sum;
}

// Ranges of about a hundred elements, each from a key on.
template <class Set>
[[gnu::noinline]] static uint64_t ranges(const Set &set, uint64_t keys, uint64_t times) {
    uint64_t width = UINT64_MAX / keys * std::min<uint64_t>(keys, 100), sum = 0;
    for (uint64_t i = 0; i < times; i++) {
        uint64_t start = key(i), end = start + width < start ? UINT64_MAX : start + width;
        for (auto at = set.lower_bound(start); at != set.end() && *at <= end; ++at) sum += *at;
    }
    return sum;
}

// An output iterator that sums the assigned values.
struct Adding {
    uint64_t *sum;

    Adding &operator*() { return *this; }
    Adding &operator++() { return *this; }
    void operator=(uint64_t element) { *sum += element; }
};

template <class Set>
[[gnu::noinline]] static uint64_t united(const Set &set, const Set &other) {
    uint64_t sum = 0;
    std::set_union(set.begin(), set.end(), other.begin(), other.end(), Adding{&sum});
    return sum;
}

template <class Set, class List>
[[gnu::noinline]] static uint64_t removed(Set &set, const List &keys) {
    uint64_t count = 0;
    for (auto &key : keys) count += set.erase(key);
    return count;
}

template <class Set>
[[gnu::noinline]] static uint64_t popped_from_the_back(Set &set) {
    while (!set.empty()) set.erase(--set.end());
    return set.size();
}

template <class Set>
[[gnu::noinline]] static uint64_t popped_from_the_front(Set &set) {
    while (!set.empty()) set.erase(set.begin());
    return set.size();
}

template <class Library>
static void measure_look_ups(typename Library::Set &set, const Lists &lists) {
    uint64_t keys = lists.mixed.size();
    row("contains", keys, [&] { return contained(set, lists.sought); });
    row("contains, absent", keys, [&] { return contained(set, lists.absent); });
    if constexpr (Library::has_positions) {
        row("element at a position", keys, [&] { return by_position(set, lists.positions); });
        row("rank", keys, [&] { return ranks(set, lists.sought); });
    }
}

// Moves the upper half of a set's elements to an empty set.
template <class Library>
static void split(typename Library::Set &set, typename Library::Set &upper) {
    if constexpr (Library::has_split) {
        row("split in the middle", 1, [&] { return Library::split(set, UINT64_MAX / 2, upper), upper.size(); });
    } else {
        auto middle = set.upper_bound(UINT64_MAX / 2);
        for (auto at = middle; at != set.end(); ++at) upper.insert(*at);
        set.erase(middle, set.end());
    }
}

template <class Library>
static void measure_walks(typename Library::Set &set, uint64_t keys) {
    row("iterate", keys, [&] { return walked(set); });
    row("iterate from both ends", keys, [&] { return walked_from_both_ends(set); });
    uint64_t times = std::min<uint64_t>(keys, 100000);
    row("range of 100", times, [&] { return ranges(set, keys, times); });
    typename Library::Set upper;
    split<Library>(set, upper);
    row("union of two halves", keys, [&] { return united(set, upper); });
    row("append, all above", keys / 2, [&] { return Library::append(set, upper), set.size(); });
}

template <class Library>
static void measure_set(const Lists &lists) {
    uint64_t keys = lists.mixed.size();
    typename Library::Set set;
    row("insert", keys, [&] { return inserted(set, lists.mixed); });
    measure_look_ups<Library>(set, lists);
    measure_walks<Library>(set, keys);
    row("remove", keys, [&] { return removed(set, lists.sought); });
}

// A set of ascending keys, its clone, and the ends of both.
template <class Library>
static void measure_ends(const Keys &ascending) {
    uint64_t keys = ascending.size();
    typename Library::Set set, copy;
    row("insert, ascending", keys, [&] {
        for (uint64_t key = 0; key < keys; key++) set.insert(key);
        return set.size();
    });
    row("clone", keys, [&] { return copy = set, copy.size(); });
    if constexpr (Library::has_equality) row("equality", keys, [&] { return uint64_t(set == copy); });
    row("pop_last", keys, [&] { return popped_from_the_back(set); });
    row("pop_first", keys, [&] { return popped_from_the_front(copy); });
}

// Reads the first elements, a number of times.
template <class Set>
[[gnu::noinline]] static uint64_t firsts(const std::vector<Set> &sets, uint64_t count) {
    uint64_t sum = 0;
    for (uint64_t i = 0; i < count; i++)
        for (auto &set : sets) sum += *set.begin();
    return sum;
}

static bool is_odd(uint64_t key) { return key % 2 == 1; }

// The first elements of some sets, and a set of which every second element goes.
template <class Library>
static void measure_kept(const Keys &ascending) {
    using Set = typename Library::Set;
    uint64_t keys = ascending.size();
    Set set;
    sink = inserted(set, ascending);
    std::vector<Set> sets(std::max<uint64_t>(16000 / keys, 1), set);
    row("first", sets.size() * 10000, [&] { return firsts(sets, 10000); });
    row("retain, every second", keys, [&] { return Library::erase_if(set, is_odd), set.size(); });
}

// Two sets whose elements alternate.
template <class Library>
static void measure_halves(uint64_t keys) {
    if constexpr (Library::appends_any) {
        typename Library::Set even, odd;
        for (uint64_t i = 0; i < keys / 2; i++) even.insert(2 * i), odd.insert(2 * i + 1);
        row("append, every second", keys / 2, [&] { return Library::append(even, odd), even.size(); });
    }
}

template <class Set>
static void measure_from(const char *name, const Keys &values) {
    std::optional<Set> set;
    row(name, values.size(), [&] { return set.emplace(values.begin(), values.end()).size(); });
}

template <class Map>
[[gnu::noinline]] static uint64_t walked_pairs(const Map &map) {
    uint64_t sum = 0;
    for (auto &pair : map) sum += pair.first + pair.second;
    return sum;
}

template <class Map>
static void measure_map(const Lists &lists) {
    uint64_t keys = lists.mixed.size();
    Map map;
    row("map, insert", keys, [&] { return inserted_pairs(map, lists.mixed); });
    row("map, get", keys, [&] { return looked_up(map, lists.sought); });
    row("map, get_mut", keys, [&] { return written(map, lists.sought); });
    row("map, iterate", keys, [&] { return walked_pairs(map); });
}

template <class Map>
static void measure_texts(const Lists &lists) {
    uint64_t keys = lists.mixed.size();
    Texts texts = texts_of(lists.mixed), sought = texts_of(lists.sought);
    Map map;
    row("texts, insert", keys, [&] { return inserted_texts(map, std::move(texts)); });
    row("texts, get", keys, [&] { return looked_up(map, sought); });
    row("texts, remove", keys, [&] { return removed(map, sought); });
}

template <class Library>
static void measure(uint64_t keys) {
    Lists lists(keys);
    measure_set<Library>(lists);
    Keys ascending = listed(keys, [](uint64_t i) { return i; });
    measure_ends<Library>(ascending);
    measure_kept<Library>(ascending);
    measure_halves<Library>(keys);
    measure_from<typename Library::Set>("from, ascending", ascending);
    measure_from<typename Library::Set>("from", lists.mixed);
    measure_map<typename Library::Map>(lists);
    measure_texts<typename Library::TextMap>(lists);
}

template <class Set>
static void hold(uint64_t keys, uint64_t copies, bool is_mixed) {
    std::vector<Set> sets(copies);
    for (auto &set : sets)
        for (uint64_t i = 0; i < keys; i++) set.insert(is_mixed ? key(i) : i);
    puts("held");
    fflush(stdout);
    sink = getchar() + sets.size();
}

static constexpr uint64_t PREPARED = 100000; // calls, of which a run makes the first ones

// The arguments of a row.
static Keys prepared(const std::string &name, uint64_t keys, uint64_t count) {
    bool is_insert = name == "insert" || name == "map, insert" || name == "texts, insert";
    bool is_remove = name == "remove" || name == "texts, remove";
    Keys list = listed(PREPARED, [=](uint64_t i) {
        if (is_insert || name == "contains, absent") return key(keys + i);
        if (is_remove) return key(i * 7919 % keys);
        uint64_t position = key(i) % keys;
        return name == "element at a position" ? position : key(position);
    });
    list.resize(std::min(count, PREPARED));
    return list;
}

// Runs a function once for each key.
template <class Work>
static uint64_t times(const Keys &asked, Work work) {
    uint64_t sum = 0;
    for (size_t i = 0; i < asked.size(); i++) {
        sum += work();
        asm volatile("" : : : "memory");
    }
    return sum;
}

// Makes the calls of a row of a set. Returns whether the library has the row.
template <class Library>
static bool call_set(const std::string &name, uint64_t keys, const Keys &asked) {
    using Set = typename Library::Set;
    Set set;
    sink = inserted(set, listed(keys, key));
    if (name == "contains" || name == "contains, absent") return sink = contained(set, asked), true;
    if (name == "range of 100") return sink = ranges(set, keys, asked.size()), true;
    if (name == "iterate") return sink = times(asked, [&] { return walked(set); }), true;
    if (name == "iterate from both ends") return sink = times(asked, [&] { return walked_from_both_ends(set); }), true;
    if (name == "insert") return sink = inserted(set, asked), true;
    if (name == "remove") return sink = removed(set, asked), true;
    if constexpr (Library::has_positions) {
        if (name == "element at a position") return sink = by_position(set, asked), true;
        if (name == "rank") return sink = ranks(set, asked), true;
    }
    if constexpr (Library::has_split) {
        Set upper;
        if (name == "split in the middle" && !asked.empty()) Library::split(set, UINT64_MAX / 2, upper);
        if (name == "split in the middle") return sink = set.size() + upper.size(), true;
    }
    return false;
}

// Makes the calls of a row of a set of ascending keys. Returns whether the library has the row.
template <class Library>
static bool call_whole(const std::string &name, uint64_t keys, uint64_t count) {
    using Set = typename Library::Set;
    Set set;
    sink = inserted(set, listed(keys, [](uint64_t i) { return i; }));
    std::optional<Set> copy(set);
    Set above;
    sink = inserted(above, listed(keys, [=](uint64_t i) { return keys + i; }));
    Keys mixed = listed(keys, key), ascending = listed(keys, [](uint64_t i) { return i; });
    for (uint64_t i = 0; i < count; i++) {
        if (name == "append, all above") Library::append(set, above);
        if (name == "retain, every second") Library::erase_if(set, is_odd);
        if (name == "from") copy.emplace(mixed.begin(), mixed.end());
        if (name == "from, ascending") copy.emplace(ascending.begin(), ascending.end());
        if (name == "clone") copy.emplace(set);
        if (name == "pop_last") set.erase(--set.end());
        if (name == "pop_first") set.erase(set.begin());
        if constexpr (Library::has_equality) {
            if (name == "equality") sink = set == *copy;
        }
    }
    sink = copy->size() + set.size();
    return name != "equality" || Library::has_equality;
}

// Reads the first elements of copies of a set of ascending keys.
template <class Set>
static bool call_first(uint64_t keys, uint64_t count) {
    Set set;
    sink = inserted(set, listed(keys, [](uint64_t i) { return i; }));
    sink = firsts(std::vector<Set>(16, set), count / 16);
    return true;
}

// Makes the calls of a row of a map. Returns whether the library has the row.
template <class Map>
static bool call_map(const std::string &name, uint64_t keys, const Keys &asked) {
    Map map;
    sink = inserted_pairs(map, listed(keys, key));
    if (name == "map, insert") return sink = inserted_pairs(map, asked), true;
    if (name == "map, get") return sink = looked_up(map, asked), true;
    if (name == "map, get_mut") return sink = written(map, asked), true;
    if (name == "map, iterate") return sink = times(asked, [&] { return walked_pairs(map); }), true;
    return false;
}

// Makes the calls of a row of a map from texts. Returns whether the library has the row.
template <class Map>
static bool call_texts(const std::string &name, uint64_t keys, const Keys &asked) {
    Map map;
    sink = inserted_texts(map, texts_of(listed(keys, key)));
    Texts texts = texts_of(asked);
    if (name == "texts, insert") return sink = inserted_texts(map, std::move(texts)), true;
    if (name == "texts, get") return sink = looked_up(map, texts), true;
    if (name == "texts, remove") return sink = removed(map, texts), true;
    return false;
}

// Makes the calls of a row. Returns whether the library has the row.
template <class Library>
static bool call(const std::string &name, uint64_t keys, uint64_t count) {
    Keys asked = prepared(name, keys, count);
    if (name == "first") return call_first<typename Library::Set>(keys, count);
    for (auto whole : {"append, all above", "retain, every second", "from", "from, ascending", "clone", "equality",
                       "pop_last", "pop_first"})
        if (name == whole) return call_whole<Library>(name, keys, count);
    if (name.rfind("map, ", 0) == 0) return call_map<typename Library::Map>(name, keys, asked);
    if (name.rfind("texts, ", 0) == 0) return call_texts<typename Library::TextMap>(name, keys, asked);
    return call_set<Library>(name, keys, asked);
}

// The program of a library.
template <class Library>
static int run(int count, char **words) {
    auto is = [&](int length, const char *word) { return count == length && !strcmp(words[1], word); };
    auto number = [&](int at) { return strtoull(words[at], nullptr, 10); };
    if (is(3, "rows")) {
        measure<Library>(number(2));
    } else if (is(5, "hold")) {
        hold<typename Library::Set>(number(2), number(3), !strcmp(words[4], "mixed"));
    } else if (is(5, "calls")) {
        puts(call<Library>(words[3], number(2), number(4)) ? "called" : "no such row");
    } else {
        puts("usage: rows KEYS | hold KEYS COPIES ascending|mixed | calls KEYS ROW COUNT");
    }
    return 0;
}
