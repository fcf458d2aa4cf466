// Times the calls of the order-statistics tree of libstdc++ (pb_ds) on u64 keys; rows.hpp documents the arguments.
#include "rows.hpp"
#include <ext/pb_ds/assoc_container.hpp>
#include <ext/pb_ds/tree_policy.hpp>

template <class Key, class Value>
using Tree = __gnu_pbds::tree<Key, Value, std::less<Key>, __gnu_pbds::rb_tree_tag,
                              __gnu_pbds::tree_order_statistics_node_update>;

struct PbDs {
    using Set = Tree<uint64_t, __gnu_pbds::null_type>;
    using Map = Tree<uint64_t, uint64_t>;
    using TextMap = Tree<std::string, uint64_t>;
    static constexpr bool has_positions = true, has_split = true, has_equality = false, appends_any = false;

    static void split(Set &set, uint64_t last, Set &upper) { set.split(last, upper); }
    static void append(Set &set, Set &other) { set.join(other); }
    template <class Test>
    static void erase_if(Set &set, Test test) {
        set.erase_if(test);
    }
};

int main(int count, char **words) { return run<PbDs>(count, words); }
