# Faults of every program, started by its name in bin/: input that cannot be read, output that is lost, streams that are closed. Each has its status and is
# told on standard error; docs/PROGRAMS.md has the table.
expect() { # status, what is told (a pattern), the command
    local status=0 told
    told=$(cd "$root" && bash -c "$3" 2>&1 > /dev/null) || status=$?
    [ "$status" -eq "$1" ] && [[ $told == $2 ]] || stop "$3: status $status and '$told'"
    tried=$((tried + 1))
}

tried=0
while read -r name crate; do
    sample=crates/$crate/stdin
    expect 0 '' "bin/$name < $sample | cmp - crates/$crate/stdout"
    expect 3 "$name: standard output: *" "bin/$name < $sample > /dev/full"
    expect 3 "$name: standard input: *" "bin/$name 0> $work/unreadable"
    expect 2 "$name: standard output is closed" "bin/$name < $sample >&-"
    expect 2 "$name: standard input is closed" "bin/$name <&-"
    expect 2 "$name: standard input is a folder" "bin/$name < /"
    expect 2 "*$name: takes *" "bin/$name 1 2 3 4 5 6"
    expect 0 '' "bin/$name --help"
    expect 0 '' "bin/$name --version"
    # started directly, a program tells the same
    expect 0 'standard output: *' "$bin/$crate < $sample > /dev/full"
    expect 0 'standard output: *' "$bin/$crate < $sample >&-"
    expect 0 'standard input: *' "$bin/$crate < /"
done < <(sed -e '/^#/d' -e 's/^ *\([^ |]*\) *| *\([^ |]*\).*/\1 \2/' "$root/bin/programs")
expect 2 'run: no such program*' 'bin/run run'
expect 2 'bench: takes standard input or a file, and there is no file none' './bench none'
expect 2 'bench: takes standard input or a file, and docs is a folder' './bench docs'
expect 2 'bench: takes one file, or standard input, and 2 arguments are given: bench FILE' './bench README.md README.md'
expect 0 '' './bench <(cat examples/listing.txt) | cmp - examples/listing.expected'
expect 0 '' 'bin/run chart --version'
expect 2 'generate: n is to be from 2 to 32, and not 300' 'bin/generate 300 2 10 1'
expect 2 "generate: n is to be a whole number, and not 'x'" 'bin/generate x 2 10 1'
say "$tried starts with faults of the programs are told as docs/PROGRAMS.md says"
