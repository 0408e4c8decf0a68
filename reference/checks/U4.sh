# Help calls that come early, over the schedules above: kept by stage, answered, lost; a row that is 0 fails. And the same benches by document 01's rule, with
# each kept call once more right after its receiver's second bell.
"$ref/kept_calls" "$work/schedules" > "$work/kept.out" || { cat "$work/kept.out"; stop "kept calls are not met, or document 01 comes to something else"; }
sed 's/^/compare: kept calls: /' "$work/kept.out"
# And single controllers that send both: their own calls, then the answers to kept calls, telegram by telegram (compared above).
both=$(grep -c ' 3>.* 4>' "$work/controller.expected") || stop "no single controller sent its own calls and then answers to kept calls"
say "kept calls: $both single controllers sent their own calls and after them the answers, alike telegram by telegram"
