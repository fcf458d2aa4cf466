// Elements that an iteration has fetched. Included by indexset.hpp.
#ifndef INDEXSET_RUNS_HPP
#define INDEXSET_RUNS_HPP

#include <cstddef>
#include <memory>
#include <new>

namespace indexset {

namespace detail {

// Two runs of fetched elements, so that two iterations over one collection do not evict each other's. A `Run` has its
// first position and its number of elements, and reads them.
template <class Run>
class runs {
  public:
    void forget() noexcept {
        if (runs_) runs_[0].count = runs_[1].count = 0;
    }

    // Returns the run that contains a position, or null if it cannot be allocated or there is no such element.
    template <class Handle>
    const Run *at(Handle *handle, std::size_t position) noexcept {
        if (!runs_) {
            runs_.reset(new (std::nothrow) Run[2]);
            if (!runs_) return nullptr;
        }
        for (unsigned i = 0; i < 2; i++) {
            if (runs_[i].has(position)) {
                last_ = i;
                return &runs_[i];
            }
        }
        return fetch(handle, position);
    }

  private:
    static constexpr std::size_t few = 8; // the length of a run that does not continue another one

    template <class Handle>
    const Run *fetch(Handle *handle, std::size_t position) noexcept {
        std::size_t from = position, places = few;
        unsigned to = 1 - last_;
        for (unsigned i = 0; i < 2; i++) {
            const Run &run = runs_[i];
            if (run.count == 0) continue;
            if (position == run.first + run.count) {
                to = i, places = Run::room;
            } else if (position + 1 == run.first) {
                to = i, places = Run::room, from = position < Run::room ? 0 : position + 1 - Run::room;
            }
        }
        last_ = to;
        Run &run = runs_[to];
        run.read(handle, from, places);
        if (!run.has(position)) run.read(handle, position, few);
        return run.has(position) ? &run : nullptr;
    }

    std::unique_ptr<Run[]> runs_;
    unsigned last_ = 0;
};

} // namespace detail

} // namespace indexset

#endif
