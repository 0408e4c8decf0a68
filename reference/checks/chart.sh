# Pictures: each has what its trace tells and no text on another, damaged traces are drawn or refused, and the papers' pictures are what is drawn now.
"$root/chart/build.sh" || stop "the program that draws does not build"
for kind in schedules ballots steps_back; do "$ref/gen_$kind" 40 32; done > "$work/charts"
"$ref/check_chart" "$work/charts" 32 "$root/target/chart/chart" > "$work/charts.out" || { cat "$work/charts.out"; stop "a picture has something else than its trace"; }
say "$(head -n 1 "$work/charts.out"): $(sed -e 1d -e 's/^ *//' "$work/charts.out" | paste -sd ',' | sed 's/,/, /g')"

mkdir -p "$work/pictures"
"$root/docs/pictures/draw.sh" "$work/pictures" || stop "the papers' pictures cannot be drawn"
for picture in "$root"/docs/pictures/*.svg; do
    cmp "$picture" "$work/pictures/$(basename "$picture")" || stop "$(basename "$picture") is not what is drawn now: run docs/pictures/draw.sh"
    grep -qF "docs/pictures/$(basename "$picture")" "$root/README.md" || stop "README.md does not show $(basename "$picture")"
    # By another reader of XML too, where there is one.
    ! command -v xmllint > /dev/null || xmllint --noout "$picture" || stop "$(basename "$picture") is not well-formed"
done
say "$(ls "$work/pictures" | wc -l) pictures in the papers are what is drawn now"

# Starts with faults: the status, and what is told.
fault() { # status, what is told (a pattern), the command
    local status=0 told
    told=$(cd "$root" && bash -c "$3" 2>&1 > /dev/null) || status=$?
    [ "$status" -eq "$1" ] && [[ $told == $2 ]] || stop "$3: status $status and '$told'"
}
fault 0 '' 'bin/chart examples/listing.txt | cmp - <(bin/chart < examples/listing.events)'
fault 0 '' 'bin/chart --order 1 examples/listing.txt'
fault 0 '' 'bin/chart --help'
fault 0 '' 'bin/chart --version'
fault 2 'chart: order 2 is not opened there' 'bin/chart examples/listing.txt --order 2'
fault 2 '*chart: --order takes *' 'bin/chart examples/listing.txt --order 0'
fault 2 '*chart: --order takes *' 'bin/chart examples/listing.txt --order 4294967296'
fault 2 '*chart: takes one file' 'bin/chart examples/listing.txt examples/listing.txt'
fault 2 '*chart: takes no --orders' 'bin/chart --orders 1'
fault 2 'chart: none is no file that can be read' 'bin/chart none'
fault 2 'chart: standard output is closed' 'bin/chart examples/listing.txt >&-'
fault 2 'chart: standard input is closed' 'bin/chart <&-'
fault 2 'chart: line 1 is no line of a trace' "target/chart/chart < README.md"
fault 3 'chart: standard output: *' 'bin/chart examples/listing.txt > /dev/full'
