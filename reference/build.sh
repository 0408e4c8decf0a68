#!/bin/sh
# Builds the library, the programs and the trials into target/reference; prints nothing but errors.
set -eu
cd "$(dirname "$0")"
out=../target/reference
mkdir -p "$out"
compile() {
    rustc --edition 2021 -O -D warnings "$@"
}
compile --crate-type rlib --crate-name reference -o "$out/libreference.rlib" lib.rs
# the programs, as many at a time as there are processors
export out
printf '%s\n' programs/*.rs | xargs -P "$(nproc)" -I SOURCE sh -c \
    'rustc --edition 2021 -O -D warnings --extern reference="$out/libreference.rlib" -o "$out/$(basename "$1" .rs)" "$1"' build SOURCE
compile --test --extern reference="$out/libreference.rlib" -o "$out/trials" trials.rs
