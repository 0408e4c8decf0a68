# Clean orders that end everywhere, for every n and f, willing and not: alike, and T shows fn fn 0 0.
"$ref/compare_clean" 23 "$bin/program_bench" > "$work/clean.out" || stop "clean orders differ, or another figure than 2fn"
say "$(cat "$work/clean.out")"
