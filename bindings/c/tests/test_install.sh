#!/usr/bin/env bash
# Installs the library in a folder, builds programs in C and C++ on it outside the repository, by pkg-config and by
# CMake, and checks the names that the libraries export. A tool that is not installed is a failure. The last line
# counts.
#
#     bindings/c/tests/test_install.sh
set -u
case "${1-}" in
    "") ;;
    --help) sed -n '2,/^set/s/^# \{0,1\}//p' "$0" && exit ;;
    *) echo "$0 takes no argument but --help" >&2 && exit 2 ;;
esac
cd "$(dirname "$0")/.." || exit
room=$(mktemp -d)
trap 'rm -rf "$room"' EXIT
passed=0
failed=0

# Runs a command, and prints its output if it fails.
try() {
    if "$@" > "$room/said" 2>&1; then
        passed=$((passed + 1))
    else
        failed=$((failed + 1))
        echo "failed: $*"
        cat "$room/said"
    fi
}

by_pkg_config() {
    export PKG_CONFIG_PATH="$room/to/lib/pkgconfig"
    local words version
    version=$(sed -n 's/^version = "\(.*\)"/\1/p' ../python/pyproject.toml)
    read -ra words < <(pkg-config --cflags --libs indexset) &&
        test "$(pkg-config --modversion indexset)" = "$version" &&
        cc -Wall -Wextra -Werror "$room/least.c" "${words[@]}" -o "$room/shared" &&
        readelf -d "$room/shared" | grep -q 'NEEDED.*libindexset\.so\.[0-9]*\.[0-9]*\]' &&
        test "$(LD_LIBRARY_PATH="$room/to/lib" "$room/shared")" = 7
}

by_pkg_config_in_cpp() {
    export PKG_CONFIG_PATH="$room/to/lib/pkgconfig"
    local words
    read -ra words < <(pkg-config --cflags --libs indexset) &&
        "$1" -std=c++17 -Wall -Wextra -Wpedantic -Werror "$room/middle.cpp" "${words[@]}" -o "$room/$1" &&
        test "$(LD_LIBRARY_PATH="$room/to/lib" "$room/$1")" = "7 20 30"
}

by_cmake() {
    cmake -S "$room" -B "$room/built" -DCMAKE_PREFIX_PATH="$room/to" && cmake --build "$room/built" &&
        test "$("$room/built/shared")" = 7 && test "$("$room/built/alone")" = 7
}

by_cmake_in_cpp() {
    cmake -S "$room/cpp" -B "$room/built_cpp" -DCMAKE_PREFIX_PATH="$room/to" && cmake --build "$room/built_cpp" &&
        test "$("$room/built_cpp/shared")" = "7 20 30" && test "$("$room/built_cpp/alone")" = "7 20 30"
}

# A library of an older series does not satisfy a newer program.
refuses_another_version() {
    sed -i 's/indexset 0\.[0-9]*/indexset 0.999/' "$room/CMakeLists.txt"
    ! cmake -S "$room" -B "$room/other" -DCMAKE_PREFIX_PATH="$room/to"
}

# Only the names of the header.
exports() {
    local odd
    odd=$({ nm -D --defined-only "$room/to/lib/libindexset.so"; nm -g --defined-only "$room/to/lib/libindexset.a"; } |
        awk 'NF == 3 {print $3}' | grep -v '^indexset_')
    test -z "$odd" || { echo "$odd"; false; }
}

cat > "$room/least.c" << 'C'
#include <indexset.h>
#include <inttypes.h>
#include <stdio.h>

int main(void) {
    indexset_set set = INDEXSET_HANDLE;
    uint64_t least;
    if (indexset_set_new(&set) != INDEXSET_YES || indexset_set_insert(&set, 30) != INDEXSET_YES
        || indexset_set_insert(&set, 7) != INDEXSET_YES || !indexset_set_first(&set, &least)) {
        return 1;
    }
    indexset_set_free(&set);
    return printf("%" PRIu64 "\n", least) < 0;
}
C
cat > "$room/zone.c" << 'C'
#include <stdio.h>
#include <stdlib.h>

static int blocks, most;

void *zone_malloc(size_t size) {
    most += ++blocks > most;
    return malloc(size);
}
void *zone_realloc(void *at, size_t size) { return realloc(at, size); }
void zone_free(void *at) {
    blocks -= at != NULL;
    free(at);
}
__attribute__((destructor)) static void say(void) {
    printf("%d blocks of %s are left\n", blocks, most > 1 ? "several" : "few");
}
C
cat > "$room/CMakeLists.txt" << 'C'
cmake_minimum_required(VERSION 3.13)
project(least C)
find_package(indexset 0.2 REQUIRED)
add_executable(shared least.c)
target_link_libraries(shared PRIVATE indexset::indexset)
add_executable(alone least.c)
target_link_libraries(alone PRIVATE indexset::static)
C
cat > "$room/middle.cpp" << 'C'
#include <indexset.hpp>
#include <cstdio>

int main() {
    indexset::set<int> numbers{30, 7, 20};
    for (int number : numbers) std::printf(number == *numbers.begin() ? "%d" : " %d", number);
    return *numbers.find_by_order(1) == 20 && std::printf("\n") == 1 ? 0 : 1;
}
C
mkdir "$room/cpp"
cat > "$room/cpp/CMakeLists.txt" << 'C'
cmake_minimum_required(VERSION 3.13)
project(middle CXX)
find_package(indexset 0.2 REQUIRED)
set(CMAKE_CXX_STANDARD 17)
add_executable(shared ../middle.cpp)
target_link_libraries(shared PRIVATE indexset::indexset)
add_executable(alone ../middle.cpp)
target_link_libraries(alone PRIVATE indexset::static)
C

# The archive of the library, in a folder of its own, with an environment that has nothing but a path.
from_archive() {
    local words archive folder
    make -s dist > "$room/made" || return 1
    archive=$(tail -n 1 "$room/made")
    mkdir "$room/archive" && tar -C "$room/archive" -xzf "$archive" || return 1
    folder=$(echo "$room"/archive/indexset-*)
    cmp "$folder/share/doc/indexset/LICENSE" ../../LICENSE || return 1
    case "$folder" in *-unproved-*) test -n "${UNPROVED-}" ;; *) test -z "${UNPROVED-}" ;; esac || return 1
    grep -qE "^${UNPROVED:+un}proved.*, commit [0-9a-z-]+$" "$folder/share/doc/indexset/BUILD" || return 1
    test -n "${UNPROVED-}" || grep -qF "proved by $(rt version), commit " "$folder/share/doc/indexset/BUILD" || return 1
    read -ra words < <(env -i PATH=/usr/bin:/bin PKG_CONFIG_PATH="$folder/lib/pkgconfig" \
        pkg-config --cflags --libs indexset) || return 1
    env -i PATH=/usr/bin:/bin cc -Wall -Wextra -Werror "$room/least.c" "${words[@]}" -o "$room/archived" &&
        test "$(env -i LD_LIBRARY_PATH="$folder/lib" "$room/archived")" = 7 &&
        env -i PATH=/usr/bin:/bin cmake -S "$room" -B "$room/of_archive" -DCMAKE_PREFIX_PATH="$folder" &&
        cmake --build "$room/of_archive" && test "$("$room/of_archive/alone")" = 7
}

# A program with an allocator of its own: the library asks no other.
by_another_allocator() {
    objcopy --redefine-sym malloc=zone_malloc --redefine-sym realloc=zone_realloc --redefine-sym free=zone_free \
        "$room/to/lib/libindexset.a" "$room/libzone.a" &&
        test -z "$(nm -u "$room/libzone.a" | grep -E ' (malloc|calloc|realloc|free|posix_memalign|aligned_alloc)$')" &&
        cc -Wall -Wextra -Werror -I "$room/to/include" -o "$room/zone" \
            "$room/zone.c" "$room/least.c" "$room/libzone.a" &&
        test "$("$room/zone")" = "7
0 blocks of several are left"
}

# Each file that was installed is removed, and no other.
uninstalls() {
    echo kept > "$room/to/lib/kept" && make -s uninstall PREFIX="$room/to" &&
        test "$(cd "$room/to" && find . -type f -o -type l)" = ./lib/kept
}

installs_licence() {
    cmp "$room/to/share/doc/indexset/LICENSE" ../../LICENSE
}

try make -s install PREFIX="$room/to"
try installs_licence
try exports
try by_pkg_config
try by_pkg_config_in_cpp g++
try by_pkg_config_in_cpp clang++
try by_cmake
try by_cmake_in_cpp
try from_archive
try by_another_allocator
try refuses_another_version
try uninstalls
echo "$passed passed, $failed failed"
test "$failed" = 0
