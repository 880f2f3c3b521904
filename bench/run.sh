#!/bin/sh
# Measures the library on the sample seasons and writes docs/BENCHMARKS.md (or the file that is named). Needs valgrind and cargo.
# bench/notes.md, if there is one, is put at the end. BENCH_CALLS=N makes only the first N calls of each list under the profiler.
set -eu
cd "$(dirname "$0")/.."
out=${1:-docs/BENCHMARKS.md}
work=$(pwd)/target/bench
export CARGO_TARGET_DIR="$(pwd)/target/cargo"
mkdir -p "$work"
make -s all
cargo build --release --offline --quiet --manifest-path host/Cargo.toml --package bench
bench=$CARGO_TARGET_DIR/release/bench

# count LABEL WHO SEASON PART CALL OPENS CALLS: the instructions within all calls of one sort, and how many calls they are
count() {
    label=$1 who=$2 season=$3 part=$4 call=$5 opens=$6 calls=$7
    case $who in
    library) function=season_$call ;;
    *) function=reference_$call ;;
    esac
    set -- $(valgrind --quiet --tool=callgrind --callgrind-out-file="$work/out" --toggle-collect="$function" \
        "$bench" play "$who" "$season" "$opens" "$calls" "$part")
    case $call in
    open) made=$1 ;;
    set) made=$2 ;;
    exchange) made=$3 ;;
    esac
    echo "count $label $season ${part#kind} $call $(awk '/^totals:/ { print $2 }' "$work/out") $made"
}

# parts SEASON: the functions with the largest part of what was counted last
parts() {
    callgrind_annotate "$work/out" | awk -v season="$1" '
        /\(100.0%\).*PROGRAM TOTALS/ { go = 1; next }
        go && /^ *[0-9,]+ \(/ && shown < 5 {
            percent = $0; sub(/^[^(]*\( */, "", percent); sub(/%.*/, "", percent)
            name = $0; sub(/^[^)]*\) */, "", name); sub(/ \[[^][]*\]$/, "", name); sub(/^[^:]*:/, "", name)
            print "self", season, percent, name; shown++
        }'
}

for season in league18:300 largest32:1024 mixed32:1024 trips20:206; do
    constraints=${season#*:} season=${season%:*}
    echo "$season" >&2
    for call in open exchange set; do
        count library library "$season" "$constraints" "$call" 5 "${BENCH_CALLS:-600}"
        [ "$call" != set ] || parts "$season"
        count reference reference "$season" "$constraints" "$call" 1 20
    done
done > "$work/counts"
for season in league18 largest32 mixed32 trips20; do
    for part in 0 kind11 kind12 kind13 kind14 kind15 kind21 kind31 kind32 kind34 kind41 kind42 kind51; do
        count kind library "$season" "$part" set 1 "${BENCH_CALLS:-200}"
    done
done >> "$work/counts"
for constraints in 0 64 128 256 512 1024; do
    count grown library largest32 "$constraints" set 1 200
done >> "$work/counts"

"$bench" report "$work/counts" > "$work/report"
{
    head -n 1 "$work/report"
    # An archive that was handed in (PROVED) may be another kit's.
    [ -n "${PROVED:-}" ] || printf '\nProved and built with `%s`.\n' "$(rt version)"
    tail -n +2 "$work/report"
    [ ! -f bench/notes.md ] || { echo && cat bench/notes.md; }
} > "$out"
echo "$out is written"
