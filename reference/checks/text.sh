# Schedules as text and as records, both ways: texts and records, whole and damaged.
compare text try_text 100000 32
"$ref/tally_text" < "$work/text.in" > "$work/text.met" || { cat "$work/text.met"; stop "the texts do not meet every answer"; }
say "100000 texts and schedules turned alike: $(paste -sd ',' "$work/text.met" | sed 's/,/, /g')"
# The examples in text stand for the records beside them, and those are written as that text but for comments and gaps.
for schedule in "$root"/examples/*.events; do
    text=${schedule%.events}.txt
    [ -f "$text" ] || stop "$(basename "$schedule") has no text beside it"
    "$bin/program_records" < "$text" | cmp - "$schedule" || stop "$(basename "$text") stands for other records than $(basename "$schedule")"
    "$bin/program_bench" < "$text" | cmp - "${schedule%.events}.expected" || stop "$(basename "$text"): program_bench prints something else than stands beside it"
    "$bin/program_text" < "$schedule" | "$bin/program_records" | cmp - "$schedule" || stop "$(basename "$schedule") is not the same after its text"
done
say "the examples in text stand for the records beside them, and print the same"
# Drawn schedules as text on the bench, some of them with one byte changed.
"$ref/gen_schedules" 500 32 > "$work/texts"
"$ref/compare_text" "$work/texts" "$bin/program_bench" > "$work/texts.out" || stop "the bench prints something else of a text"
say "$(cat "$work/texts.out")"
# What README.md has a newcomer write is the listing.
awk '/^END$/ { on = 0 } on { print } /^cat >>? first.txt/ { on = 1 }' "$root/README.md" > "$work/first.txt"
"$bin/program_records" < "$work/first.txt" | cmp - "$root/examples/listing.events" || stop "README.md's first schedule is not the listing"
say "README.md's first schedule is the listing"
