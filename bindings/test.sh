#!/usr/bin/env bash
# Builds both bindings, each in its folder out/, and runs their tests concurrently. A tool that is not installed is a
# failure (scripts/needs.py installs them). The last line counts them. With UNPROVED=1 in the environment, the library
# is one that scripts/unproved.py builds in minutes.
#
#     bindings/test.sh
set -u
case "${1-}" in
    "") ;;
    --help) sed -n '2,/^set/s/^# \{0,1\}//p' "$0" && exit ;;
    *) echo "$0 takes no argument but --help" >&2 && exit 2 ;;
esac
cd "$(dirname "$0")" || exit
out=out${UNPROVED:+/unproved}
make -s -C c all "$out/examples.cpp" || exit 1
rm -rf python/out
mkdir -p python/out/logs
cp -r python/src/indexset python/tests/test_*.py python/tests/{counted,peer_tests}.py python/out
export INDEXSET_LIBRARY="$PWD/c/$out/libindexset.so" PYTHONDONTWRITEBYTECODE=1

names=()
jobs=()

# Starts a test.
try() {
    "$@" > "python/out/logs/${#jobs[@]}" 2>&1 &
    jobs+=($!)
    names+=("$*")
}

# Builds the extension into a folder of python, for a Python, with more flags of the compiler.
extension() {
    local to=$1 python=$2
    shift 2
    (cd python && CFLAGS="-Wall -Wextra -Werror -Wno-missing-field-initializers -Wno-cast-function-type $*" \
        "$python" setup.py -q build_ext --build-lib "$to")
}

# The extension under sanitizers, with the assertions of Python's headers, in a folder of its own.
sanitized() {
    local preload
    preload="$(gcc -print-file-name=libasan.so) $(gcc -print-file-name=libubsan.so)"
    mkdir python/out/sanitized
    cp -r python/src/indexset python/tests/test_*.py python/tests/counted.py python/out/sanitized
    extension out/sanitized python3 -g -UNDEBUG -fsanitize=address,undefined || return 1
    for test in test_answers test_blocks test_defects test_equals test_indexset test_kinds test_list test_text; do
        LD_PRELOAD="$preload" ASAN_OPTIONS=detect_leaks=0 python3 "python/out/sanitized/$test.py" || return 1
    done
}

try make -s -j "$(nproc)" -C c check
for compiler in g++ clang++; do
    try make -s -j "$(nproc)" -C c "check-$compiler"
done
try c/tests/test_install.sh
# By Debian's Python, for which Debian has setuptools and wheel.
try /usr/bin/python3 python/tests/test_package.py
try env PYTHONPATH=python/out python3 -m doctest python/README.md ../README.md
extension out python3 || exit 1
for backend in ctypes extension; do
    for test in test_answers test_blocks test_defects test_equals test_indexset test_kinds test_list test_logged \
        test_numbers test_text; do
        try env "INDEXSET_BACKEND=$backend" python3 "python/out/$test.py"
    done
    try env "INDEXSET_BACKEND=$backend" python3 python/out/peer_tests.py
done
try sanitized
try mypy --strict --no-incremental --cache-dir=/dev/null python/src/indexset python/tests/typing_sample.py
# The tests that need numpy, by Debian's Python, for which Debian has it.
mkdir python/out/arrays
cp -r python/src/indexset python/tests/test_{answers,equals}.py python/tests/counted.py python/out/arrays
extension out/arrays /usr/bin/python3 || exit 1
for backend in ctypes extension; do
    for test in test_answers test_equals; do
        try env INDEXSET_SKIPS=fail "INDEXSET_BACKEND=$backend" /usr/bin/python3 -W error "python/out/arrays/$test.py"
    done
done

failed=0
for i in "${!jobs[@]}"; do
    if wait "${jobs[$i]}"; then
        tail -n 1 "python/out/logs/$i" | grep . || echo "passed: ${names[$i]}"
        case "${names[$i]}" in *peer_tests.py*) sed 's/^/    /' "python/out/logs/$i" ;; esac
    else
        failed=$((failed + 1))
        cat "python/out/logs/$i"
        echo "failed: ${names[$i]}"
    fi
done
echo "$((${#jobs[@]} - failed)) passed, $failed failed"
test "$failed" = 0
