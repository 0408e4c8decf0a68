#!/bin/sh
# Builds the program that draws pictures into target/chart; prints nothing but errors.
set -eu
cd "$(dirname "$0")"
out=../target/chart
mkdir -p "$out"
rustc --edition 2021 -O -D warnings -o "$out/chart" main.rs
