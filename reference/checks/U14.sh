# Ballots. Schedules with ballots that compete, at both kinds of lock, by the run and by the step; a row that is 0 fails.
"$ref/gen_ballots" 4000 31 > "$work/ballots"
"$ref/compare_ballots" "$work/ballots" "$bin/program_bench" > "$work/ballots.out" || { cat "$work/ballots.out"; stop "schedules with ballots differ, or some of them is not met"; }
sed 's/^/compare: ballots: /' "$work/ballots.out"
"$ref/compare_ballots" "$work/ballots" "$bin/try_step" > "$work/ballots.step" || stop "schedules with ballots differ where they are played by the step by value"
say "ballots: $(head -n 1 "$work/ballots.step") where they are played by the step by value"

# Both answer the same input; then what the input met. The outputs must be equal byte for byte, and no row 0.
compare_ballots_of() { # kind, program under test, count, seed
    "$ref/gen_ballot_$1" "$3" "$4" > "$work/ballot.in"
    "$ref/ref_$1" < "$work/ballot.in" > "$work/ballot.expected"
    "$bin/$2" < "$work/ballot.in" > "$work/ballot.found"
    cmp "$work/ballot.expected" "$work/ballot.found" || stop "ballots: $2 and the reference differ ($work/ballot.expected, ballot.found)"
    "$ref/ballot_$1" < "$work/ballot.in" > "$work/ballot.out" || { cat "$work/ballot.out"; stop "ballots: some answer of $2 is not met"; }
    say "ballots: $(head -n 1 "$work/ballot.out"), answered alike; $(($(wc -l < "$work/ballot.out") - 1)) answers and their causes told apart, each of them met"
}
# Telegrams of kinds 5 to 8 in their two forms, with each refusal and each of its causes; events that ballots bring.
compare_ballots_of records try_records 125000 37
# Single controllers: what each opening and telegram of ballots does, and which telegrams go out.
compare_ballots_of controller try_controller 50000 41

# Every state of ballots at few controllers: no two words are chosen. The trials show that the search finds what a broken rule does.
"$ref/search_ballots" > "$work/search.out" || { cat "$work/search.out"; stop "two words are chosen"; }
say "ballots: $(tail -n 1 "$work/search.out"), of $(grep -c '^n =' "$work/search.out") searches; no two words are chosen"
