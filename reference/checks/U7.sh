# Sheets that contradict each other: of the 100,000 sequences of single controllers above every answer to a telegram is held against the sheets that the controller
# holds, and every refusal by 24 is counted on the reference and found in both outputs; a kind of telegram that is never refused for a kind of sheet fails, and so
# does any other row that is 0. On the bench, over the 2,000 schedules above, there is none (compare fails on one).
"$ref/contradictions" < "$work/controller.in" > "$work/contradictions.out" || { cat "$work/contradictions.out"; stop "an answer is not what the sheets held ask for, or a way of contradicting is not met"; }
for side in expected found; do
    counted=$(awk '$1 == 24' "$work/controller.$side" | wc -l)
    [ "$counted refusals by 24" = "$(head -n 1 "$work/contradictions.out")" ] || stop "controller.$side has $counted refusals by 24"
done
sed 's/^/compare: contradictions: /' "$work/contradictions.out"
