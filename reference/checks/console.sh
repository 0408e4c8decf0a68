# The console: its trace beside the reference's, and its answers and last C lines beside what the bench program prints; of every example in both forms, and of
# schedules with refused events, steps back and ballots, as records and as text, with lines that are no events.
for schedule in "$root"/examples/*.events "$root"/examples/*.txt; do
    "$ref/ref_trace" < "$schedule" | cmp - <("$bin/program_console" < "$schedule") || stop "the console's trace of $(basename "$schedule") is not the reference's"
done
"$ref/gen_schedules" 900 51 > "$work/traced"
"$ref/gen_steps_back" 1250 52 >> "$work/traced"
"$ref/gen_ballots" 950 53 >> "$work/traced"
"$ref/compare_trace" "$work/traced" "$bin/program_console" "$bin/program_bench" > "$work/traced.out" || { cat "$work/traced.out"; stop "traces differ"; }
for word in "answered 26" "answered 28" "sent help-answer" "sent taken" undone put given; do
    grep -q " $word\$" "$work/traced.out" || stop "no trace has: $word"
done
# of the others one line is compared, the refusal of what does not read
traced=$((900 + 1250 + 950 - $(awk '/ not all records read$/ { print $1 }' "$work/traced.out")))
[ "$traced" -ge 2000 ] || stop "$traced schedules alone are traced"
say "the console's traces of every example and of $traced schedules are the reference's, and show what the bench program prints"
