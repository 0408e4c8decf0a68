#!/usr/bin/env bash
# Runs of cabinets: runs.sh FIRST LAST [AGAIN] makes the runs of seeds FIRST to LAST and plays what each recorded on the
# bench, which must accept every event and show the cabinets' own C lines. With AGAIN 0 nothing is sent twice: then cabinets
# may be left open, and still none may disagree. The lock, the loss and the kills of a run follow from its seed.
# Needs target/cabinets (make examples) and the bench program (bin/bench builds it). valgrind.sh puts itself before the program (CABINETS),
# and makes its waits longer (SLOW).
set -euo pipefail
root=$(cd "$(dirname "$0")/../.." && pwd)
first=$1 last=$2 again=${3:-1} slow=${SLOW:-1}
read -ra cabinets <<< "${CABINETS:-$root/target/cabinets}"
work=$(mktemp -d)
trap 'rm -rf "$work"' EXIT

stop() { printf 'cabinets: FAILED: %s\n' "$*" >&2; exit 1; }

orders=0 open=0 killed=0 back=0 sent=0 lost=0 repeated=0 late=0 with_open=0 moves=0 stays=0
for seed in $(seq "$first" "$last"); do
    n=$((2 + seed % 5)) f=$((1 + seed / 5 % (1 + seed % 5))) own=$((seed / 3 % 2)) loss=$((seed * 7 % 31))
    # without an arbiter a ballot needs more than half
    most=$f; [ "$own" = 0 ] || [ "$most" -le $(((n - 1) / 2)) ] || most=$(((n - 1) / 2))
    kills=$((seed % (most + 1)))
    lock="n $n, f $f, own $own, loss $loss, kills $kills"
    rm -rf "$work/run"; mkdir "$work/run"
    status=0
    timeout 90 "${cabinets[@]}" "$seed" "$work/run" "$n" "$f" "$own" 3 "$loss" "$kills" "$again" "$slow" \
        > "$work/counts" || status=$?
    [ "$status" = 0 ] || { [ "$status" = 3 ] && [ "$again" = 0 ]; } \
        || stop "seed $seed ($lock): status $status, $(cat "$work/counts")"
    "$root/crates/program_bench/out/program_bench" < "$work/run/schedule" > "$work/played"
    awk '!/^[CT]/ && $2 != 0' "$work/played" > "$work/refused"
    [ ! -s "$work/refused" ] || stop "seed $seed: the bench refuses $(head -n 1 "$work/refused")"
    grep '^C' "$work/played" | cmp -s - "$work/run/lines" || stop "seed $seed: the bench shows other C lines"
    awk '/^C/ { s[$4] = 1 } END { exit (s["M"] && s["S"]) }' "$work/played" || stop "seed $seed: two outcomes"
    read -r o p k b s l r t < <(sed -E 's/[^0-9]+/ /g' "$work/counts" | awk '{ print $1, $5, $6, $7, $8, $9, $10, $11 }')
    orders=$((orders + o)) open=$((open + p)) killed=$((killed + k)) back=$((back + b))
    sent=$((sent + s)) lost=$((lost + l)) repeated=$((repeated + r)) late=$((late + t))
    [ "$p" = 0 ] || with_open=$((with_open + 1))
    ! grep -q ' M ' "$work/run/lines" || moves=$((moves + 1))
    ! grep -q ' S ' "$work/run/lines" || stays=$((stays + 1))
done
# what a batch is for has come to pass
if [ $((last - first)) -ge 49 ]; then
    for count in "$killed" "$back" "$lost" "$repeated" "$late" "$moves" "$stays"; do
        [ "$count" -gt 0 ] || stop "nothing was killed, lost, repeated or late, or no gate moved or stayed"
    done
    [ "$again" = 1 ] || [ "$last" -lt $((first + 149)) ] || [ "$with_open" -gt 0 ] \
        || stop "nothing was sent twice, and none was left open"
fi
printf 'cabinets: %d runs, %d orders ended, %d Move and %d Stay at the end; %d left open in %d runs; ' \
    "$((last - first + 1))" "$orders" "$moves" "$stays" "$open" "$with_open"
printf '%d killed, %d came back; of %d datagrams %d lost, %d repeated, %d late; ' \
    "$killed" "$back" "$sent" "$lost" "$repeated" "$late"
printf 'every recording accepted by the bench, with the same C lines\n'
