#!/bin/sh
# Two misuses of a running check must not build, and the same code without the misuse must.
# Each is a small crate over `engine`, in a folder of its own with copies of the crates below it, so nothing of this checkout is touched.
# What the check has to prove there, and is not kept on this machine, it proves first.
set -u
root=$(cd "$(dirname "$0")/.." && pwd -P)
here=$(mktemp -d) || exit 2
trap 'rm -rf "$here"' EXIT
below='engine poly answer'
printf 'answer:\npoly: answer\nengine: poly answer\n' >"$here/crates.txt"
for name in $below; do
    mkdir -p "$here/crates/$name" || exit 2
    for part in src specs proofs; do
        cp -R "$root/crates/$name/$part" "$here/crates/$name/" || exit 2
    done
done
(cd "$here/crates/engine" && rt check) >"$here/log" 2>&1 || { tail -n 5 "$here/log"; echo "misuse: the engine crate is not proved"; exit 1; }
bad=0

try() { # NAME WANT BODY: WANT is 'builds' or the name of the error that must stand there
    mkdir -p "$here/crates/$1/src" || exit 2
    cat >"$here/crates/$1/src/lib.rt" <<R
#![tactic(auto)]
use engine::engine::Engine;
use engine::running::RunningCheck;

pub fn $1<E: Engine + Drop>(engine: E, other: E, a: &[u8], b: &[u8]) -> (u32, u32, E, E) {
$3
}
R
    echo "$1: $below" >>"$here/crates.txt"
    (cd "$here/crates/$1" && rt check) >"$here/log" 2>&1
    status=$?
    if [ "$2" = builds ]; then
        [ $status -eq 0 ] && grep -q '^logic=proved' "$here/log"
    else
        [ $status -eq 1 ] && grep -q "error\[$2\]" "$here/log"
    fi
    if [ $? -eq 0 ]; then
        echo "misuse $1: $2, as it must"
    else
        echo "misuse $1: NOT $2"
        tail -n 20 "$here/log"
        bad=1
    fi
}

# feeding a finished check, and the remedy: begin another
try fed_after_finish borrow-e0382 '    let mut check = RunningCheck::begin(engine);
    check.feed(a);
    let (left, engine) = check.finish();
    check.feed(b);
    (left, 0, engine, other)'
try begun_again builds '    let mut check = RunningCheck::begin(engine);
    check.feed(a);
    let (left, engine) = check.finish();
    let mut check = RunningCheck::begin(engine);
    check.feed(b);
    let (right, engine) = check.finish();
    (left, right, engine, other)'
# carrying one check on in two copies, plainly and by a clone, and the remedy: feed the common start twice
try two_copies borrow-e0382 '    let mut check = RunningCheck::begin(engine);
    check.feed(a);
    let mut left = check;
    let mut right = check;
    left.feed(b);
    right.feed(a);
    let (x, engine) = left.finish();
    let (y, _) = right.finish();
    (x, y, engine, other)'
try two_clones unknown-method '    let mut check = RunningCheck::begin(engine);
    check.feed(a);
    let mut right = check.clone();
    check.feed(b);
    right.feed(a);
    let (x, engine) = check.finish();
    let (y, other) = right.finish();
    (x, y, engine, other)'
try common_start_twice builds '    let mut left = RunningCheck::begin(engine);
    left.feed(a);
    left.feed(b);
    let mut right = RunningCheck::begin(other);
    right.feed(a);
    right.feed(a);
    let (x, engine) = left.finish();
    let (y, other) = right.finish();
    (x, y, engine, other)'
exit $bad
