#!/bin/sh
# Tries the must-fail edits that are not part of the gate, each of which costs its crate's whole check: more_edits.sh CRATE
set -eu
crate=$1
root=$(cd "$(dirname "$0")/.." && pwd)
copy=$(mktemp -d)
trap 'rm -rf "$copy"' EXIT
git -C "$root" archive HEAD | tar -x -C "$copy"
rm -rf "$copy"/crates/*/must-fail
mv "$copy/crates/$crate/more-edits" "$copy/crates/$crate/must-fail"
cd "$copy"
git init -q .
rt must-fail "$crate"
