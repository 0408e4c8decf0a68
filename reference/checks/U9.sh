# The count of gates still open: the reference counts over all controllers in the 2,000 schedules and in those with steps back, after every record of
# those of at most 80, at 80 places of longer ones, and the exported call, made from Rust, gives the same; a row that is 0 fails. It links the archive that
# check.sh has built.
rustc --edition 2021 -O -D warnings -L native="$root/target/staticlib" --extern reference="$ref/libreference.rlib" -o "$work/compare_open_gates" "$here/calls/compare_open_gates.rs" || stop "reference/calls/compare_open_gates.rs does not build"
cat "$work/schedules" "$work/back" > "$work/counted"
"$work/compare_open_gates" "$work/counted" > "$work/open_gates.out" || { cat "$work/open_gates.out"; stop "the count of gates still open differs"; }
sed 's/^/compare: gates still open: /' "$work/open_gates.out"
