// CPU nanoseconds per call of the C library compared with pb_ds's tree of order statistics, and of its map from texts
// compared with std's map and Abseil's, in random order: the minimum of 101 runs, or of 5 from 10,000 keys on.
//
// After `make -C bindings/c`:
//   mkdir -p bench/out
//   g++ -O2 -I bindings/c/include bench/cpp/beside.cpp bindings/c/out/libindexset.a -labsl_throw_delegate \
//       -labsl_raw_logging_internal -o bench/out/beside
//   bench/out/beside 1000 100000 1000000
#include "indexset.h"
#include <absl/container/btree_map.h>
#include <algorithm>
#include <cstdio>
#include <cstdlib>
#include <ctime>
#include <ext/pb_ds/assoc_container.hpp>
#include <ext/pb_ds/tree_policy.hpp>
#include <functional>
#include <map>
#include <random>
#include <string>
#include <utility>
#include <vector>

using namespace __gnu_pbds;
using Peer = tree<uint64_t, null_type, std::less<uint64_t>, rb_tree_tag, tree_order_statistics_node_update>;
using Numbers = std::vector<uint64_t>;
using Texts = std::vector<std::string>;

static uint64_t sum; // of all results, so that no call is optimized away

template <typename Item, typename Call>
static double cost(const std::vector<Item> &items, Call call) {
    timespec start, end;
    clock_gettime(CLOCK_THREAD_CPUTIME_ID, &start);
    for (const Item &item : items) call(item);
    clock_gettime(CLOCK_THREAD_CPUTIME_ID, &end);
    const auto seconds = static_cast<double>(end.tv_sec - start.tv_sec);
    const auto nanoseconds = static_cast<double>(end.tv_nsec - start.tv_nsec);
    return (seconds * 1e9 + nanoseconds) / static_cast<double>(items.size());
}

struct Costs {
    std::vector<double> insert, contains, rank, at, remove;
};

static double least(const std::vector<double> &costs) { return *std::min_element(costs.begin(), costs.end()); }

static void run_ours(const Numbers &keys, const Numbers &asked, const Numbers &positions, Costs &costs) {
    indexset_set set = INDEXSET_HANDLE;
    if (indexset_set_new(&set) != INDEXSET_YES) std::exit(1);
    costs.insert.push_back(cost(keys, [&](uint64_t key) { sum += indexset_set_insert(&set, key); }));
    costs.contains.push_back(cost(asked, [&](uint64_t key) { sum += indexset_set_contains(&set, key); }));
    costs.rank.push_back(cost(asked, [&](uint64_t key) { sum += indexset_set_rank(&set, key); }));
    costs.at.push_back(cost(positions, [&](uint64_t position) {
        uint64_t found = 0;
        indexset_set_at(&set, position, &found);
        sum += found;
    }));
    costs.remove.push_back(cost(asked, [&](uint64_t key) { sum += indexset_set_remove(&set, key); }));
    if (indexset_set_len(&set) != 0) std::exit(1);
    indexset_set_free(&set);
}

static void run_peer(const Numbers &keys, const Numbers &asked, const Numbers &positions, Costs &costs) {
    Peer set;
    costs.insert.push_back(cost(keys, [&](uint64_t key) { sum += set.insert(key).second; }));
    costs.contains.push_back(cost(asked, [&](uint64_t key) { sum += set.find(key) != set.end(); }));
    costs.rank.push_back(cost(asked, [&](uint64_t key) { sum += set.order_of_key(key); }));
    costs.at.push_back(cost(positions, [&](uint64_t position) { sum += *set.find_by_order(position); }));
    costs.remove.push_back(cost(asked, [&](uint64_t key) { sum += set.erase(key); }));
    if (!set.empty()) std::exit(1);
}

struct TextCosts {
    std::vector<double> insert, get, remove;
};

static void run_texts(const Texts &keys, const Texts &asked, TextCosts &costs) {
    indexset_text_map map = INDEXSET_HANDLE;
    uint64_t value = 0;
    if (indexset_text_map_new(&map) != INDEXSET_YES) std::exit(1);
    costs.insert.push_back(
        cost(keys, [&](auto &key) { sum += indexset_text_map_insert(&map, key.data(), key.size(), 1, &value); }));
    costs.get.push_back(
        cost(asked, [&](auto &key) { sum += indexset_text_map_get(&map, key.data(), key.size(), &value); }));
    costs.remove.push_back(
        cost(asked, [&](auto &key) { sum += indexset_text_map_remove(&map, key.data(), key.size(), &value); }));
    if (indexset_text_map_len(&map) != 0) std::exit(1);
    indexset_text_map_free(&map);
}

template <typename Map>
static void run_text_peer(const Texts &keys, const Texts &asked, TextCosts &costs) {
    Map map;
    costs.insert.push_back(cost(keys, [&](auto &key) { sum += map.insert_or_assign(key, 1).second; }));
    costs.get.push_back(cost(asked, [&](auto &key) { sum += map.find(key)->second; }));
    costs.remove.push_back(cost(asked, [&](auto &key) { sum += map.erase(key); }));
    if (!map.empty()) std::exit(1);
}

static size_t runs_of(size_t count) { return count < 10000 ? 101 : 5; }

// The decimal texts of numbers.
static Texts texts_of(const Numbers &numbers) {
    Texts texts;
    for (uint64_t number : numbers) texts.push_back(std::to_string(number));
    return texts;
}

static void compare_texts(const Texts &keys, const Texts &asked) {
    TextCosts ours, of_std, of_absl;
    for (size_t run = 0; run < runs_of(keys.size()); run++) {
        run_texts(keys, asked, ours);
        run_text_peer<std::map<std::string, uint64_t>>(keys, asked, of_std);
        run_text_peer<absl::btree_map<std::string, uint64_t>>(keys, asked, of_absl);
    }
    std::pair<const char *, std::vector<double> TextCosts::*> rows[] = {
        {"text_insert", &TextCosts::insert}, {"text_get", &TextCosts::get}, {"text_remove", &TextCosts::remove}};
    for (auto [name, of] : rows)
        std::printf("%8zu %-12s %8.0f %8.0f/%.0f\n", keys.size(), name, least(ours.*of), least(of_std.*of),
                    least(of_absl.*of));
}

static void compare(size_t count) {
    std::mt19937_64 draw(count);
    Numbers keys;
    while (keys.size() < count) {
        while (keys.size() < count) keys.push_back(draw());
        std::sort(keys.begin(), keys.end());
        keys.erase(std::unique(keys.begin(), keys.end()), keys.end());
    }
    std::shuffle(keys.begin(), keys.end(), draw);
    Numbers asked = keys, positions;
    std::shuffle(asked.begin(), asked.end(), draw);
    for (size_t i = 0; i < count; i++) positions.push_back(draw() % count);
    Costs ours, peer;
    for (size_t run = 0; run < runs_of(count); run++) {
        run_ours(keys, asked, positions, ours);
        run_peer(keys, asked, positions, peer);
    }
    std::pair<const char *, std::vector<double> Costs::*> rows[] = {{"insert", &Costs::insert},
                                                                    {"contains", &Costs::contains},
                                                                    {"rank", &Costs::rank},
                                                                    {"at", &Costs::at},
                                                                    {"remove", &Costs::remove}};
    for (auto [name, of] : rows) std::printf("%8zu %-12s %8.0f %8.0f\n", count, name, least(ours.*of), least(peer.*of));
    compare_texts(texts_of(keys), texts_of(asked));
    std::fflush(stdout);
}

int main(int count, char **words) {
    std::printf("%8s %-12s %8s %8s\n", "keys", "", "ours", "peers");
    for (int i = 1; i < count; i++) compare(std::strtoul(words[i], nullptr, 10));
    return sum == 0;
}
