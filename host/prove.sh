#!/bin/sh
# Proves and builds with rt what is not proved yet; standard error shows how far it is.
#
#   host/prove.sh checker_c       target/staticlib/libchecker_c.a
#   host/prove.sh season_report   target/bin/season_report
#
# rt builds in the crate's own folder out/, where other calls of rt build too; what was built for any x86-64 processor is copied to target/.
# A checksum of all that it is made of, and of itself, is kept beside it: where that is right nothing is proved again. Exit status: 0 built, or
# there was nothing to do; 1 not proved; 2 rt is missing or failed; 3 rt could not tell.
set -u
cd "$(dirname -- "$0")/.." || exit 2
root=$(pwd)
crate=${1:-}

case $crate in
checker_c) built=target/staticlib/libchecker_c.a ;;
season_report) built=target/bin/season_report ;;
*)
    echo 'usage: host/prove.sh checker_c|season_report' >&2
    exit 2
    ;;
esac
made=crates/$crate/out/${built##*/}

# The crates of the repository that it is made of, itself included.
crates=$(awk -v wanted="$crate" '
    function visit(name, list, k, count) {
        if (name in seen || !(name in needs)) return
        seen[name] = 1
        print name
        count = split(needs[name], list, " ")
        for (k = 1; k <= count; k++) visit(list[k])
    }
    { sub(/#.*/, "") }
    split($0, part, ":") == 2 { split(part[1], word, " "); needs[word[1]] = part[2] }
    END { visit(wanted) }' crates.txt)
count=$(printf '%s\n' "$crates" | wc -l | tr -d ' ')

if ! command -v rt > /dev/null; then
    echo 'rt, the Rattle toolchain, is not in PATH; it is needed once, to prove and build.' >&2
    echo 'An archive that is proved already will do for all but season-report: make PROVED=FILE' >&2
    exit 2
fi

key() {
    {
        rt version
        cat crates.txt
        for one in $crates; do
            find "crates/$one/src" "crates/$one/specs" "crates/$one/proofs" -type f 2> /dev/null
        done | LC_ALL=C sort | xargs sha256sum "$built"
    } | sha256sum
}
if [ -f "$built" ] && [ "$(cat "$built.key" 2> /dev/null)" = "$(key)" ]; then
    touch "$built"
    exit 0
fi

work=$(mktemp -d) || exit 2
trap 'rm -rf "$work"' EXIT
trap 'exit 2' HUP INT TERM
# rt says on standard output how a check goes, but on standard error where it builds a program, which it also runs once.
build() {
    cd "crates/$crate" || exit 2
    case $crate in
    season_report) rt run --cpu=x86-64 2>&1 < "$root/examples/season-a.bin" > "$work/printed" ;;
    *) rt lib --cpu=x86-64 2>&1 < /dev/null ;;
    esac
}
echo "proving $crate: $count crates; from nothing that takes some minutes, later only what changed" >&2
at=0
began=$(date +%s)
: > "$work/said"
{
    (build)
    echo $? > "$work/status"
} | while IFS= read -r line; do
    printf '%s\n' "$line" >> "$work/said"
    case $line in
    'crate '*': modules '*)
        one=${line#crate }
        one=${one%%: *}
        ;;
    logic=proved*)
        at=$((at + 1))
        now=$(date +%s)
        printf '  %d of %d: %s proved (%d s)\n' "$at" "$count" "${one:-$crate}" $((now - began)) >&2
        began=$now
        # What was said of a crate that is proved explains no failure.
        : > "$work/said"
        ;;
    logic=*) printf '  %s NOT PROVED\n' "${one:-$crate}" >&2 ;;
    esac
done
status=$(cat "$work/status")
if [ "$status" -ne 0 ]; then
    cat "$work/said" >&2
    exit "$status"
fi
mkdir -p "${built%/*}" && cp "$made" "$built.new" && mv "$built.new" "$built" && key > "$built.key" || exit 2
