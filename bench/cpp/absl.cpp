// Times the calls of the B-trees of Abseil on u64 keys; rows.hpp documents the arguments.
#include "rows.hpp"
#include <absl/container/btree_map.h>
#include <absl/container/btree_set.h>

struct Absl {
    using Set = absl::btree_set<uint64_t>;
    using Map = absl::btree_map<uint64_t, uint64_t>;
    using TextMap = absl::btree_map<std::string, uint64_t>;
    static constexpr bool has_positions = false, has_split = false, has_equality = true, appends_any = true;

    static void append(Set &set, Set &other) { set.merge(other); }
    template <class Test>
    static void erase_if(Set &set, Test test) {
        absl::erase_if(set, test);
    }
};

int main(int count, char **words) { return run<Absl>(count, words); }
