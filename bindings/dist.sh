#!/usr/bin/env bash
# Makes the archive of the C library and a wheel of the Python package, both with the library that `make -C bindings/c`
# proves, in bindings/out. Prints their names and what proved the library. With UNPROVED=1 in the environment the
# library is one that scripts/unproved.py builds in minutes, and the names say so.
#
#     bindings/dist.sh
set -eu
case "${1-}" in
    "") ;;
    --help) sed -n '2,/^set/s/^# \{0,1\}//p' "$0" && exit ;;
    *) echo "$0 takes no argument but --help" >&2 && exit 2 ;;
esac
cd "$(dirname "$0")"
out=out${UNPROVED:+/unproved}
mkdir -p "$out"
archive=c/$(make -s -C c dist | tail -n 1)
mv "$archive" "$out"
/usr/bin/python3 -m pip --disable-pip-version-check -q \
    wheel --no-index --no-deps --no-build-isolation -w "$out" ./python
ls "$out"/*.tar.gz "$out"/*.whl
strings "c/$out/libindexset.so" | grep -E '^(un)?proved.*, commit '
