compare levels try_levels 120000 5
counts=
for answer in willing 'certainly unwilling' unsure '- 1' '- 20' '- 21'; do
    count=$(grep -cxe "$answer" "$work/levels.expected") || stop "no pair of ranges was answered '$answer'"
    counts+="; $answer: $count"
done
for length in 0 1 15 16 17 31 32; do
    expected='- 1'
    [ "$length" -ne 16 ] || expected=$(head -n 1 "$work/levels.expected")
    [ "$(head -c "$length" "$work/levels.in" | "$bin/program_levels")" = "$expected" ] || stop "program_levels answers $length bytes otherwise"
done
say "$(wc -l < "$work/levels.expected") pairs of ranges answered alike$counts"
