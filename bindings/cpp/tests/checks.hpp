// Shared by the tests of indexset.hpp and those in C: allocations that fail, those of `new` among them, counted checks,
// and random numbers.
#ifndef CHECKS_HPP
#define CHECKS_HPP

#include "indexset.hpp"
#include <algorithm>
#include <cstdio>
#include <cstdlib>
#include <cstring>
#include <new>
#include <vector>
#if __cplusplus >= 202002L
#include <ranges>
#if !defined(__clang__) || __clang_major__ >= 16 // older ones do not compile the views of libstdc++
#define HAS_VIEWS
#endif
#endif
extern "C" {
#include "checks.h"
}

#undef CHECK
#define CHECK(...) check((__VA_ARGS__), #__VA_ARGS__, __FILE__, __LINE__) // also with commas between angle brackets

[[gnu::noinline]] void *operator new(std::size_t size) {
    void *at = refused() ? nullptr : __real_malloc(size == 0 ? 1 : size);
    if (at == nullptr) throw std::bad_alloc();
    return at;
}
[[gnu::noinline]] void operator delete(void *at) noexcept { std::free(at); }
[[gnu::noinline]] void operator delete(void *at, std::size_t) noexcept { std::free(at); }

// A removal may allocate, but in nodes of the library's size it hardly ever does: here every 97th does.
extern "C" uint32_t __real_indexset_multi_remove_at(indexset_multi *, size_t, uint64_t *, uint64_t *);
extern "C" uint32_t __wrap_indexset_multi_remove_at(indexset_multi *multi, size_t position, uint64_t *key,
                                                    uint64_t *value) {
    static unsigned removals = 0;
    if (removals == 96 && refused()) return INDEXSET_MEMORY;
    removals = (removals + 1) % 97;
    return __real_indexset_multi_remove_at(multi, position, key, value);
}

// Makes a call while every `refuse`th allocation fails, or all from that one on. Returns whether it threw; it throws no
// other exception.
template <class Call>
bool is_refused(unsigned long refuse, Call call, unsigned long &which = nth) {
    bool is = false;
    which = refuse;
    try {
        call();
    } catch (const std::bad_alloc &) {
        is = true;
    }
    which = 0;
    CHECK(!is || refuse != 0);
    return is;
}

// Makes a call on a copy of a collection with the first allocation failing, then the second, and so on, until none
// fails; and then with all from the first on, from the second on. If the call throws, the copy is unchanged, and
// otherwise it equals `changed`.
template <class Collection, class Call>
void sweep(const Collection &before, const Collection &changed, Call call) {
    for (unsigned long *which : {&nth, &onward}) {
        unsigned long at = 0;
        do {
            Collection copy(before);
            requests = 0, at++;
            CHECK(is_refused(
                      at, [&] { call(copy); }, *which)
                      ? copy == before
                      : copy == changed);
        } while (requests >= at && at < 5000);
        CHECK(at < 5000);
    }
}

inline std::size_t draw_below(std::size_t bound) { return static_cast<std::size_t>((draw() >> 20) % bound); }

#endif
