# The line of eight locks: 100,000 sequences of 40 acts, each on a new line; then the program itself on inputs around its limit.
"$ref/gen_line" 100000 17 > "$work/line.in"
"$ref/ref_line" 40 < "$work/line.in" > "$work/line.expected"
"$bin/try_line" < "$work/line.in" > "$work/line.found"
cmp "$work/line.expected" "$work/line.found" || stop "line: try_line and the reference differ ($work/line.expected, line.found)"
counts=$(awk '{ n[$2]++ } END { for (a in n) printf "%s:%d\n", a, n[a] }' "$work/line.expected" | sort -n | tr '\n' ' ')
for answer in - 0 1 2 3 4 5 6 7 8 25; do
    case " $counts" in *" $answer:"*) ;; *) stop "no act of a line was answered $answer" ;; esac
done
for length in 0 1 4095 4096 4097 9000; do
    head -c "$length" "$work/line.in" > "$work/line.one"
    "$ref/ref_line" < "$work/line.one" > "$work/line.expected"
    "$bin/program_line" < "$work/line.one" > "$work/line.found"
    cmp "$work/line.expected" "$work/line.found" || stop "line: program_line and the reference differ on $length acts"
done
say "100000 sequences of 40 acts on the line of eight locks answered alike; answers: $counts"
