# Steps back: runs of 1 to 70 of them woven into schedules at both kinds of lock, by the run and by the step; a row that is 0 fails. The reference is held
# against the document meanwhile: the bench after a step back is that before the event undone, and that after the events left.
"$ref/compare_steps_back" "$work/back" "$bin/program_bench" > "$work/back.out" || { cat "$work/back.out"; stop "schedules with steps back differ, or some of them is not met"; }
sed 's/^/compare: steps back: /' "$work/back.out"
"$ref/compare_steps_back" "$work/back" "$bin/try_step" > "$work/back.step" || stop "schedules with steps back differ where they are played by the step by value"
say "steps back: $(head -n 1 "$work/back.step") where they are played by the step by value"
