#!/usr/bin/env bash
# Measures the proved bench beside the reference implementation and beside one written for speed, then an order event alone and reports over many schedules: ./benchmark/run.sh
set -euo pipefail
cd "$(dirname "$0")/.."
ref=target/reference
for tool in rt rustc; do
    command -v "$tool" > /dev/null || { echo "benchmark: $tool is not on the PATH" >&2; exit 1; }
done
echo "benchmark: the bench is proved and built first, which takes long where nothing was proved yet" >&2
for library in bench_output survey_output; do bin/archive "$library"; done
reference/build.sh
rustc --edition 2021 -O -L native=target/staticlib --extern reference="$ref/libreference.rlib" -o "$ref/benchmark" benchmark/main.rs
"$ref/gen_schedules" 400 21 > "$ref/benchmark.schedules"
"$ref/benchmark" "$ref/benchmark.schedules"
rustc --edition 2021 -O -L native=target/staticlib -o "$ref/orders" benchmark/orders.rs
"$ref/orders"
rustc --edition 2021 -O -L native=target/staticlib --extern reference="$ref/libreference.rlib" -o "$ref/reports" benchmark/reports.rs
"$ref/reports"
