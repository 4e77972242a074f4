#!/bin/sh
# Times the proved solver beside the plain one, in turn, and prints the best of forty rounds in microseconds.
# usage: bench/run.sh [plans in a round]
set -e
cd "$(dirname "$0")/.."
times=${1:-10}
out=target/bench
mkdir -p $out
(cd crates/bench && rt run) > $out/check.log || { tail $out/check.log; exit 1; }
rustc -O -o $out/plain bench/plain.rs

crates/bench/out/bench > $out/proved.sums
$out/plain > $out/plain.sums
cmp $out/proved.sums $out/plain.sums || { echo "the solvers do not agree"; exit 1; }

rm -f $out/times
for round in $(seq 40); do
    crates/bench/out/bench "$times" | sed 's/^/proved /' >> $out/times
    $out/plain "$times" | sed 's/^/plain /' >> $out/times
done

awk '
    function least(old, new) { return old == 0 || new < old ? new : old }
    !($2 in seen) { seen[$2] = 1; cases[++n] = $2 }
    { solve[$1, $2] = least(solve[$1, $2], $(NF - 1)); plan[$1, $2] = least(plan[$1, $2], $NF) }
    END {
        line = "%-18s %14s %14s %8s %14s %14s %8s\n"
        printf line, "case", "solve, Rattle", "solve, Rust", "ratio", "plan, Rattle", "plan, Rust", "ratio"
        for (i = 1; i <= n; i++) {
            c = cases[i]; a = solve["proved", c]; b = solve["plain", c]; p = plan["proved", c]; q = plan["plain", c]
            printf "%-18s %14.1f %14.1f %8.2f %14.1f %14.1f %8.2f\n", c, a / 1000, b / 1000, a / b, p / 1000, q / 1000, p / q
        }
    }
' $out/times
