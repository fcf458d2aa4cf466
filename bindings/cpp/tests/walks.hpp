// Comparisons of collections with their peers in std, shared by the tests of indexset.hpp.
#ifndef WALKS_HPP
#define WALKS_HPP

#include "checks.hpp"
#include <functional>
#include <iterator>
#include <type_traits>
#include <utility>

// The key of an element.
template <class K>
const K &key_of(const K &element) {
    return element;
}
template <class K, class V>
const K &key_of(const std::pair<K, V> &element) {
    return element.first;
}

template <class Ours, class Peer>
bool same(const Ours &ours, const Peer &peer) {
    const auto is_equal = [](const auto &a, const auto &b) { return a == typename Ours::value_type(b); };
    if (ours.size() != peer.size() || ours.empty() != peer.empty()) return false;
    if (!std::equal(ours.begin(), ours.end(), peer.begin(), is_equal)) return false;
    if (!std::equal(ours.rbegin(), ours.rend(), peer.rbegin(), is_equal)) return false;
    return ours.end() - ours.begin() == static_cast<std::ptrdiff_t>(peer.size());
}

template <class Ours, class Peer>
bool is_at(const Ours &ours, const Peer &peer, typename Ours::iterator it, typename Peer::const_iterator other) {
    const auto position = std::distance(peer.begin(), other);
    const bool at_end = other == peer.end();
    if (at_end != (it == ours.end()) || at_end == (it != ours.end())) return false;
    if (!at_end && !(*it == typename Ours::value_type(*other))) return false;
    return it - ours.begin() == position && it == ours.begin() + position;
}

template <class Ours, class Peer, class Key>
void check_reads(const Ours &ours, const Peer &peer, const Key &key) {
    CHECK(ours.contains(key) == (peer.count(key) != 0) && ours.count(key) == peer.count(key));
    CHECK(is_at(ours, peer, ours.find(key), peer.count(key) == 0 ? peer.end() : peer.lower_bound(key)));
    CHECK(is_at(ours, peer, ours.lower_bound(key), peer.lower_bound(key)));
    CHECK(is_at(ours, peer, ours.upper_bound(key), peer.upper_bound(key)));
    const auto range = ours.equal_range(key);
    CHECK(range.second - range.first == static_cast<std::ptrdiff_t>(peer.count(key)));
    CHECK(ours.order_of_key(key) == static_cast<std::size_t>(std::distance(peer.begin(), peer.lower_bound(key))));
    const std::size_t position = draw_below(ours.size() + 2);
    const auto found = ours.find_by_order(position);
    CHECK(is_at(ours, peer, found,
                position < peer.size() ? std::next(peer.begin(), static_cast<std::ptrdiff_t>(position)) : peer.end()));
}

// Two iterations of one collection at a time, one from each end, and jumps.
template <class Ours>
void check_walks(const Ours &ours) {
    std::vector<typename Ours::value_type> all(ours.begin(), ours.end());
    auto forth = ours.begin(), back = ours.end();
    for (std::size_t i = 0; i < all.size(); i++) {
        CHECK(*forth++ == all[i] && *--back == all[all.size() - 1 - i]);
    }
    CHECK(forth == ours.end() && back == ours.begin() && !(forth < back));
    for (std::size_t i = 0; i < 20 && !all.empty(); i++) {
        const auto from = static_cast<std::ptrdiff_t>(draw_below(all.size())),
                   to = static_cast<std::ptrdiff_t>(draw_below(all.size()));
        auto it = ours.begin() + from;
        CHECK(it[to - from] == all[static_cast<std::size_t>(to)] && *(it + (to - from)) == it[to - from]);
        it += to - from;
        CHECK(it - ours.begin() == to && (ours.begin() + from < it) == (from < to)
              && (it <= ours.begin() + from) == (to <= from));
        it -= to;
        CHECK(it == ours.begin() && std::distance(it, ours.end()) == static_cast<std::ptrdiff_t>(all.size()));
        CHECK(*std::prev(ours.end()) == all.back() && *std::next(it, to) == all[static_cast<std::size_t>(to)]);
    }
#if __cplusplus >= 202002L
    const auto key = [](const auto &element) { return key_of(element); };
    CHECK(std::ranges::is_sorted(ours, std::less<>(), key)
          && std::ranges::distance(ours) == static_cast<std::ptrdiff_t>(all.size()));
    CHECK(std::ranges::equal(ours, all));
    if (!all.empty()) {
        const auto last = std::ranges::lower_bound(ours, key_of(all.back()), std::less<>(), key);
        CHECK(key_of(*last) == key_of(all.back()) && last == ours.lower_bound(key_of(all.back())));
    }
#endif
#ifdef HAS_VIEWS
    CHECK(std::ranges::equal(ours | std::views::reverse, all | std::views::reverse));
    CHECK(std::ranges::equal(ours | std::views::drop(3) | std::views::take(5),
                             all | std::views::drop(3) | std::views::take(5)));
#endif
}

#endif
