#!/usr/bin/env bash
# The C programs of the cabinet library under valgrind, to their end: the tests with one bit of 61 turned, and two runs with
# kills, one with an arbiter and one with ballots, ten times slower. Any error or lost memory fails, in any process, in those
# that are killed too. Needs target/cabinet_tests, target/cabinets (make examples) and the bench program (bin/bench builds
# it). Without valgrind it says so.
set -euo pipefail
root=$(cd "$(dirname "$0")/../.." && pwd)
command -v valgrind > /dev/null || { echo "cabinets: valgrind is not here: not run under it"; exit 0; }
said=$(mktemp -d)
trap 'rm -rf "$said"' EXIT
under=(valgrind -q --leak-check=full --error-exitcode=99 "--log-file=$said/%p")

stop() { cat "$said"/*; printf 'cabinets: FAILED: under valgrind, %s\n' "$*" >&2; exit 1; }

timeout 120 "${under[@]}" "$root/target/cabinet_tests" 61 || stop "the tests"
for seed in 1 11; do
    CABINETS="${under[*]} $root/target/cabinets" SLOW=10 "$root/examples/cabinets/runs.sh" "$seed" "$seed" || stop "a run"
done
[ -z "$(find "$said" -type f -size +0)" ] || stop "a process that was killed"
echo "cabinets: valgrind has nothing to say of $(find "$said" -type f | wc -l) processes"
