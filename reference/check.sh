#!/usr/bin/env bash
# Compares what was proved with the independent implementation beside this script: records, single controllers, the examples, whole
# schedules; then what each request of document 02 has in checks/; and calls the exported function from Rust.
# The comparisons run on two cores, as two sides that share no file but those made before.
# The programs under test are those that `rt ci` or `bin/run` left in crates/NAME/out; one that is not there, or is older than a source, is built first.
set -euo pipefail
here=$(cd "$(dirname "$0")" && pwd)
root=$(cd "$here/.." && pwd)
ref=$root/target/reference
work=$ref/work
bin=$work/bin

say() { printf 'compare: %s\n' "$*"; }
stop() { printf 'compare: FAILED: %s\n' "$*" >&2; exit 1; }

mkdir -p "$bin"
while read -r name program; do
    "$root/bin/$name" < /dev/null > /dev/null || stop "bin/$name does not start"
    cp "$root/crates/$program/out/$program" "$bin/"
done < <(sed -e '/^#/d' -e 's/^ *\([^ |]*\) *| *\([^ |]*\).*/\1 \2/' "$root/bin/programs")

"$here/build.sh" || stop "the reference implementation does not build"
for program in "$here"/programs/*.rs; do
    grep -qF "programs/$(basename "$program")" "$here/Cargo.toml" || stop "reference/Cargo.toml does not name programs/$(basename "$program")"
done
"$ref/trials" > "$work/trials.out" || { cat "$work/trials.out"; stop "the reference fails its own trials"; }
say "the reference passes its own trials"

# Both answer the same input; the outputs must be equal byte for byte.
compare() { # kind, program under test, count, seed
    "$ref/gen_$1" "$3" "$4" > "$work/$1.in"
    "$ref/ref_$1" < "$work/$1.in" > "$work/$1.expected"
    "$bin/$2" < "$work/$1.in" > "$work/$1.found"
    cmp "$work/$1.expected" "$work/$1.found" || stop "$1: $2 and the reference differ ($work/$1.expected, $1.found)"
}

# Both sides look at these.
"$ref/gen_schedules" 2000 3 > "$work/schedules"
"$ref/gen_steps_back" 2000 43 > "$work/back"

# One side: the exported functions, called from Rust and from C. Archives are built here alone.
exported() {
    "$root/bin/archive" bench_output || stop "the archive does not build"
    rustc --edition 2021 -D warnings -L native="$root/target/staticlib" -o "$work/from_rust" "$root/examples/from_rust.rs" || stop "examples/from_rust.rs does not build"
    "$work/from_rust" "$root"/examples/*.events > "$work/from_rust.out" || stop "a call from Rust gives something else"
    say "$(cat "$work/from_rust.out")"

    . "$here/checks/U9.sh"
    . "$here/checks/cabinet.sh"
}

# The other: the programs, and then the requests, a file each; they use say, stop, compare and the folders above.
programs() {
    compare records try_records 120000 7
    counts=$(awk '$1 == "R" || ($1 == "W" && $2 != 0) { n[$2]++ } END { for (q in n) printf "%d:%d\n", q, n[q] }' "$work/records.expected" | sort -n | tr '\n' ' ')
    for question in 1 2 3 4 7 8 9 10 11; do
        case " $counts" in *" $question:"*) ;; *) stop "no record was refused with $question" ;; esac
    done
    say "$(wc -l < "$work/records.expected") records read and written alike; refusals by number: $counts"

    compare controller try_controller 100000 11
    say "100000 sequences, $(wc -l < "$work/controller.expected") calls of single controllers answered alike"

    # The schedules of examples/, whose outputs beside them come from document 01 (the listing) or from the reference, and never from the program.
    met=0
    for schedule in "$root"/examples/*.events; do
        expected=${schedule%.events}.expected
        [ -f "$expected" ] || stop "$(basename "$schedule") has no expected output beside it"
        "$ref/ref_bench" < "$schedule" | cmp - "$expected" || stop "$(basename "$schedule"): the reference prints something else than stands beside it"
        for program in program_bench try_step; do
            "$bin/$program" < "$schedule" | cmp - "$expected" || stop "$(basename "$schedule"): $program prints something else than stands beside it"
        done
        met=$((met + 1))
    done
    [ "$met" -gt 0 ] || stop "examples/ has no schedules"
    say "$met examples print what stands beside them, by the run and by the step"

    "$ref/compare" "$work/schedules" "$bin/program_bench" > "$work/schedules.out" || { cat "$work/schedules.out"; stop "schedules differ"; }
    cat "$work/schedules.out"
    "$ref/compare" "$work/schedules" "$bin/try_step" > "$work/step.out" || stop "schedules differ where they are played by the step by value"
    say "$(head -n 1 "$work/step.out") where they are played by the step by value"

    for part in "$here"/checks/*.sh; do
        case $part in */U9.sh | */cabinet.sh) ;; *) . "$part" ;; esac
    done
}

# A side that fails ends with a status of its own, and the other goes on to its end. No side stands in a condition: there `set -e` would not hold.
exported > "$work/exported.log" 2>&1 &
exported=$!
programs &
programs=$!
failed=
wait "$programs" || failed="the programs"
wait "$exported" || failed="${failed:+$failed, and }the exported functions"
cat "$work/exported.log"
[ -z "$failed" ] || stop "$failed, as told above"
rm -rf "$work"
