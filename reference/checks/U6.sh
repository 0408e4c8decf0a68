# Files of the generator, byte for byte, and the bench's runs of 250 of them; a row that is 0 fails.
"$ref/compare_generator" 1600 5 "$bin/program_generate" "$bin/program_bench" > "$work/generator.out" || { cat "$work/generator.out"; stop "the generator's files differ"; }
sed 's/^/compare: generator: /' "$work/generator.out"
