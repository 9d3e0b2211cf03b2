#!/bin/sh
# Builds proved crates: build.sh [NAME]...
# A program NAME goes to target/bin/NAME, the library for C to target/staticlib/libfollowup.a. With no name all are built. Only a proved crate is built, so
# what is not proved yet is proved first.
set -eu
cd "$(dirname "$0")/.."
root=$PWD
mkdir -p target/bin target/staticlib
[ $# -gt 0 ] || set -- roundtrip judge carry forecast explain cases followup
for name in "$@"; do
    cd "$root/crates/$name"
    if [ "$name" = followup ]; then
        rm -f out/libfollowup.a
        rt lib >"$root/target/said" 2>&1 || { cat "$root/target/said" >&2; exit 1; }
        cp out/libfollowup.a "$root/target/staticlib/libfollowup.a"
        echo "built target/staticlib/libfollowup.a"
    else
        # Running a program is how the kit builds it: with an empty input, and without what it prints. An earlier build does not count.
        rm -f "out/$name.stamp"
        rt run </dev/null >"$root/target/said" 2>&1 || true
        [ -x "out/$name" ] && [ -s "out/$name.stamp" ] || { cat "$root/target/said" >&2; exit 1; }
        cp "out/$name" "$root/target/bin/$name"
        echo "built target/bin/$name"
    fi
done
