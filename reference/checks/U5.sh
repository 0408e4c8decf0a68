# Orders with up to f controllers stopped, in any sequence, brought to where every running gate must have heard; a gate without outcome, or a row that is 0, fails.
"$ref/compare_hears" 600 5 "$bin/program_bench" > "$work/hears.out" || { cat "$work/hears.out"; stop "a running gate is left waiting, or the bench differs"; }
sed 's/^/compare: hears: /' "$work/hears.out"
