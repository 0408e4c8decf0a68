# The cabinet library from C and from Rust: its calls beside the reference on 100,000 sequences, every turned bit of a state, and 50 runs of cabinets as processes over UDP on
# the loopback address, whose recordings the bench accepts with the same C lines; the first twenty seeds with nothing sent twice disagree nowhere. `make` links the archive.
(cd "$root" && make examples) > "$work/cabinet.log" 2>&1 || { tail -n 5 "$work/cabinet.log"; stop "the cabinet library or its examples do not build"; }
# no globals, and nothing of the C library but to copy and to fill: so nothing is allocated
nm "$root/target/staticlib/libcabinet.a" 2> /dev/null | awk 'NF == 3 && $2 ~ /^[BbCDdSsGg]$/ || $1 == "U" && $2 !~ /^(mem(cpy|set|move|cmp)|cabinet_.*)$/' > "$work/cabinet.symbols"
[ ! -s "$work/cabinet.symbols" ] || { cat "$work/cabinet.symbols"; stop "the cabinet library has globals, or calls more than memory's copying"; }
# installed as the README says, and the order in ten lines that the header has
if command -v pkg-config > /dev/null; then
    (cd "$root" && make -s install PREFIX="$work/installed") || stop "make install"
    sed -n '/^ \* An order, in a cabinet:/,/^ \* When to ring:/s/^ \*     //p' "$work/installed/include/cabinet.h" > "$work/ten_lines.inc"
    [ "$(wc -l < "$work/ten_lines.inc")" -ge 10 ] || stop "include/cabinet.h has no order in ten lines"
    flags=$(PKG_CONFIG_PATH="$work/installed/lib/pkgconfig" pkg-config --cflags --libs cabinet) || stop "cabinet.pc"
    # shellcheck disable=SC2086
    cc -std=gnu11 -Wall -Wextra -Werror -I"$work" -o "$work/order" "$root/examples/cabinets/order.c" $flags || stop "the order in the header does not build"
    "$work/order" || stop "the order in the header does something else"
    say "the order in the header, built against what was installed, runs"
else
    say "pkg-config is not here: the installed library was not tried"
fi
"$root/target/cabinet_from_rust" > "$work/cabinet_rust.out" || stop "the cabinet library gives something else to Rust"
say "$(cat "$work/cabinet_rust.out")"
"$root/target/cabinet_tests" || stop "a damaged state of a cabinet is taken"
rustc --edition 2021 -O -D warnings -L native="$root/target/staticlib" --extern reference="$ref/libreference.rlib" -o "$work/compare_cabinet" "$here/calls/compare_cabinet.rs" || stop "reference/calls/compare_cabinet.rs does not build"
"$work/compare_cabinet" 100000 17 > "$work/cabinet.out" || { cat "$work/cabinet.out"; stop "a cabinet's calls and the reference differ"; }
sed 's/^/compare: cabinets: /' "$work/cabinet.out"
# of a card that a torn write has left a part of: its cabinet ends, and accepts nothing
mkdir -p "$work/torn" && printf 'LS\001\003\001' > "$work/torn/card.1"
torn=0
timeout 60 "$root/target/cabinets" 1 "$work/torn" 3 1 0 1 0 0 0 > "$work/torn.out" 2>&1 || torn=$?
[ "$torn" = 9 ] && [ ! -s "$work/torn/record.1" ] && grep -q 'the card is refused' "$work/torn.out" || { cat "$work/torn.out"; stop "a torn card is taken"; }
say "a torn card is noticed"
timeout 600 "$root/examples/cabinets/runs.sh" 1 50 || stop "cabinets as processes"
timeout 300 "$root/examples/cabinets/runs.sh" 1 20 0 || stop "cabinets as processes, nothing sent twice"
timeout 400 "$root/examples/cabinets/valgrind.sh" || stop "valgrind on the cabinets' C programs"
