#!/usr/bin/env bash
# Looks that the papers name what is there. docs/QUESTIONS.md: a row for each question of crates/question_words, in its words; so those in include/cabinet.h. docs/ASSUMPTIONS.md: of each row with `crate::function` and `Definition` or `Definition.field`, that the crate is
# listed, that the function stands in its source with an `ensures` that names the definition, and that a record of that name has the field.
# Of each export of a crate NAME_c: that its head and its clauses are those of the function of that name in NAME.
# That it is proved is for `rt ci`, which proves every function of every listed crate.
set -euo pipefail
cd "$(dirname "$0")/.."

bad=0
fault() { printf 'docs/ASSUMPTIONS.md: %s\n' "$*" >&2; bad=$((bad + 1)); }

asked=$(sed -n 's/^.*asks \([0-9]*\) "\(.*\)"$/\1 \2/p' crates/question_words/specs/Questions.antt)
explained=$(sed -n 's/^| \([0-9]*\) | \([^|]*\) |.*$/\1 \2/p' docs/QUESTIONS.md | sort -n)
[ -n "$asked" ] && [ "$asked" = "$explained" ] || {
    diff <(printf '%s\n' "$asked") <(printf '%s\n' "$explained") >&2 || :
    echo "docs/QUESTIONS.md: its questions are not those of crates/question_words (<)" >&2
    exit 1
}
echo "docs/QUESTIONS.md: $(grep -c . <<< "$asked") questions, in the words of crates/question_words"
told=$(sed -n 's/^ \*  *\([0-9][0-9]*\) \(.*?\)$/\1 \2/p' include/cabinet.h)
[ -n "$told" ] && ! grep -vxF "$asked" <<< "$told" >&2 || { echo "include/cabinet.h: a question is not in the words of crates/question_words" >&2; exit 1; }

# The `ensures` lines of a function: those between its `fn` line and its body.
contract() { # crate, function
    find "crates/$1/src" -name '*.rt' -exec cat {} + | awk -v name="$2" '
        $0 ~ "(^|[ \t])fn " name "[(<]" { inside = 1; told = 0; next }
        inside && /^[ \t]*[{]/ { inside = 0 }
        inside && /^[ \t]*ensures/ { told = 1 }
        inside && told { print }'
}

# A function from its name to its body: its parameters, its result and its clauses.
head_of() { # crate, function
    find "crates/$1/src" -name '*.rt' -exec cat {} + | awk -v name="$2" '
        $0 ~ "(^|[ \t])fn " name "[(<]" { inside = 1; sub(".*fn ", "") }
        inside && /^[ \t]*[{]/ { inside = 0 }
        inside { print }'
}

exports=0
for crate in crates/*_c; do
    crate=${crate#crates/}
    for function in $(sed -n 's/^pub extern "C" fn \([a-z_0-9]*\).*/\1/p' "crates/$crate/src/lib.rt"); do
        exports=$((exports + 1))
        head=$(head_of "$crate" "$function")
        [ -n "$head" ] && [ "$head" = "$(head_of "${crate%_c}" "$function")" ] || { echo "$crate::$function: it is not declared as in ${crate%_c}, with the same clauses" >&2; bad=$((bad + 1)); }
    done
done

rows=0
while IFS=' ' read -r function definition; do
    rows=$((rows + 1))
    crate=${function%%::*}
    grep -q "^$crate:" crates.txt || { fault "$function: no crate $crate in crates.txt"; continue; }
    ensures=$(contract "$crate" "${function##*::}")
    [ -n "$ensures" ] || { fault "$function: crate $crate has no such function with an ensures"; continue; }
    name=${definition%%.*}
    grep -qE "(^|[^[:alnum:]_-])$name([^[:alnum:]_-]|\$)" <<< "$ensures" || { fault "$function: its ensures does not name $name"; continue; }
    if [ "$name" != "$definition" ]; then
        field=${definition#*.}
        cat crates/*/specs/*.antt | awk -v name="$name" -v field="$field" '
            /^[^ \t]/ { inside = ($0 ~ "^pub record " name "( |$)") }
            inside && $1 == "pub" && $2 == field { found = 1 }
            END { exit !found }' || fault "$function: the record $name has no field $field"
    fi
done < <(sed -n 's/^|.*| *`\([a-z_0-9]*::[a-z_0-9]*\)` *| *`\([^`]*\)` *|$/\1 \2/p' docs/ASSUMPTIONS.md)

[ "$rows" -gt 0 ] || fault "no row names a contract"
named=$(grep -c '^|.*`[a-z_0-9]*::[a-z_0-9]*`' docs/ASSUMPTIONS.md)
[ "$named" -eq "$rows" ] || fault "$named rows name a function, and $rows have the form of a contract"
[ "$bad" -eq 0 ] || exit 1
echo "docs/ASSUMPTIONS.md: $rows rows, each with a contract that is there; $exports exports, each with the clauses of its library"
