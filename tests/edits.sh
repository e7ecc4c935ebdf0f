#!/bin/sh
# More edits that the prover must refuse, beside those that the gate tries in crates/NAME/must-fail: tests/edits/NAME/*.edit.
#   tests/edits.sh [NAME...]        without a name all of them; each edit has its whole crate checked again
# It works on copies of the crates, and begins with what checks on this machine kept. An edit that cannot be applied fails it too.
set -u
root=$(cd "$(dirname "$0")/.." && pwd -P)
cd "$root" || exit 2
[ $# -gt 0 ] || set -- $(ls tests/edits)
here=$(mktemp -d) || exit 2
trap 'rm -rf "$here"' EXIT
mkdir "$here/crates" || exit 2
cp crates.txt "$here/" || exit 2
for folder in crates/*; do
    mkdir "$here/$folder" || exit 2
    for part in src specs proofs; do
        [ ! -d "$folder/$part" ] || cp -R "$folder/$part" "$here/$folder/" || exit 2
    done
done
for name in "$@"; do
    cp -R "tests/edits/$name" "$here/crates/$name/must-fail" || exit 2
done
cd "$here" && rt must-fail "$@"
