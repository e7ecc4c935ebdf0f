#!/bin/sh
# Random scripts through the line program and through the other program, compared byte by byte.
#   tests/scripts.sh [COUNT [SEED [PROGRAM]]]        where PROGRAM is left out, crates/line is proved and built, and is the program
# It fails where a transcript differs, where the program fails, and where an answer that lines can give was not reached.
set -u
root=$(cd "$(dirname "$0")/.." && pwd -P)
count=${1:-300}
seed=${2:-1}
program=${3:-$root/crates/line/out/line}
here=$(mktemp -d) || exit 2
trap 'rm -rf "$here"' EXIT
if [ $# -lt 3 ]; then
    (cd "$root/crates/line" && rt run) </dev/null >"$here/said" 2>&1 || { tail -n 20 "$here/said"; echo "scripts: crates/line is not proved and built"; exit 2; }
fi
[ -x "$program" ] || { echo "scripts: there is no program $program"; exit 2; }
python3 "$root/reference/scripts.py" "$count" "$seed" "$here" >"$here/said" || { cat "$here/said"; echo "scripts: not every answer was reached"; exit 1; }
cat "$here/said"
bad=0
k=1
while [ "$k" -le "$count" ]; do
    "$program" <"$here/$k.in" >"$here/found"
    status=$?
    if [ "$status" -ne 0 ]; then
        echo "scripts: script $k of seed $seed: the program ended with status $status"
        bad=$((bad + 1))
    elif ! cmp "$here/found" "$here/$k.out"; then
        echo "scripts: script $k of seed $seed: the transcripts differ"
        bad=$((bad + 1))
    fi
    k=$((k + 1))
done
lines=$(cat "$here"/*.out | wc -l)
echo "scripts: $count scripts of seed $seed, $lines printed lines, $bad scripts with another transcript"
[ "$bad" -eq 0 ]
