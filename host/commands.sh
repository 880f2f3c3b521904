#!/bin/sh
# Tests of the commands: exit statuses and messages of season-report; on a copy of the sources in a folder with a blank in its name, with a
# stand-in for rt, the first call of season-report, make, and what .ci/run makes of rt's answers. Part of host/test.sh. The copy and all else
# lie outside the checkout, since rt ci takes no second copy of the crates and no link in it.
set -eu
cd "$(dirname "$0")/.."
root=$(pwd)
work=$(mktemp -d)
trap 'rm -rf "$work"' EXIT
trap 'exit 2' HUP INT TERM
season=$root/examples/season-a.bin

wrong() {
    printf 'host/commands.sh: %s\n' "$*"
    cat "$work/out" "$work/err"
    exit 1
}

# expect STATUS WORDS..: runs the words with the standard input and output that the caller gives, and keeps what they say.
expect() {
    wanted=$1
    shift
    status=0
    "$@" > "$work/out" 2> "$work/err" || status=$?
    [ "$status" -eq "$wanted" ] || wrong "'$*' ended with status $status, not $wanted"
}
said() { grep -q -e "$1" "$work/err" || wrong "nothing on standard error has '$1'"; }
printed() { printf '%s\n' "$@" | cmp - "$work/out" || wrong 'another printout'; }
printed_too() { grep -q -e "$1" "$work/out" || wrong "nothing on standard output has '$1'"; }
silent() { [ ! -s "$work/err" ] || wrong 'something on standard error'; }

report() {
    printf '   season-report: exit statuses\n'
    expect 0 ./season-report < "$season"
    printed '2 10 8' '0 11 10' '1 32 5' '3 13 3'
    silent
    expect 0 ./season-report "$season"
    printed '2 10 8' '0 11 10' '1 32 5' '3 13 3'
    silent
    expect 0 ./season-report - < "$season"
    expect 1 ./season-report < /dev/null
    printed 'refused 1'
    silent
    expect 1 ./season-report include/season_checker.h
    printed 'refused 2'
    expect 0 ./season-report --help
    grep -q 'exit status' "$work/out"
    silent
    expect 2 ./season-report < docs
    said 'standard input cannot be read: Is a directory'
    [ ! -s "$work/out" ]
    expect 2 ./season-report docs
    said 'docs cannot be read: Is a directory'
    expect 2 ./season-report 'no such file'
    said 'no such file cannot be read: No such file or directory'
    expect 2 sh -c './season-report <&-'
    expect 2 sh -c "./season-report '$season' >&-"
    if [ -w /dev/full ]; then
        expect 2 sh -c "./season-report '$season' > /dev/full"
        said 'the report cannot be written: No space left on device'
        expect 2 sh -c './season-report --help > /dev/full'
    fi
    for words in '--unknown' 'one two'; do
        # shellcheck disable=SC2086
        expect 2 ./season-report $words
        said 'usage: season-report'
    done
    (cd / && expect 0 "$root/season-report" "$season")
    ln -sf "$root/season-report" "$work/link"
    expect 0 "$work/link" "$season"
    # On a terminal it says what it waits for.
    if command -v script > /dev/null; then
        printf '\004' | script -qec ./season-report /dev/null > "$work/out" 2> "$work/err" || true
        grep -q 'waiting for a season and its sheet' "$work/out" || wrong 'on a terminal nothing says what it waits for'
    fi
}

# A stand-in for rt that proves nothing: it says what rt says, hands out what is built already, and counts its calls. It works in the folder
# of the crate that is to be built.
stand_in() {
    mkdir -p "$work/bin"
    cat > "$work/bin/rt" << 'END'
#!/bin/sh
echo "$*" >> "$RT_CALLS"
lines() {
    for crate in robinx masks season penalties timetable figures books "$@"; do
        echo "rt: chose --jobs 2 for $crate"
        echo "crate $crate: modules loaded=0 checked=66"
        echo 'logic=proved functions=3 sum=dac8208d650f15bf'
    done
}
case "$1 ${PWD##*/}" in
version*) echo 'stand-in' ;;
'lib checker_c')
    lines checker checker_c
    mkdir -p out && cp "$RT_BUILT/libseason_checker.a" out/libchecker_c.a
    ;;
'run season_report')
    if [ -n "${RT_FAILS:-}" ]; then
        {
            lines checker
            echo 'src/lib.rt:17:1: it is not proved that what the function ensures holds'
            echo 'crate report: modules loaded=54 checked=12'
            echo 'logic=not-proved'
        } >&2
        exit 1
    fi
    lines checker report season_report >&2
    mkdir -p out && cp "$RT_BUILT/bin/season_report" out/season_report
    exec out/season_report
    ;;
ci*)
    cat "$RT_SAYS"
    exit "$RT_STATUS"
    ;;
*)
    echo "rt $* in $PWD" >&2
    exit 2
    ;;
esac
END
    chmod +x "$work/bin/rt"
}

# gate STATUS LAST: .ci/run ends so, where rt ci says the lines of standard input and ends with RT_STATUS.
gate() {
    cat > "$work/says"
    expect "$1" .ci/run
    [ "$(tail -n 1 "$work/out")" = "$2" ] || wrong "the last line is not '$2'"
}
# Makes a file older than the sources, whatever they hold.
age() { touch -t 200001010000 "$1"; }
calls() { grep -c "^$1" "$RT_CALLS" || true; }

copy() {
    printf '   a copy in a folder with a blank, with a stand-in for rt\n'
    stand_in
    here="$work/a copy"
    mkdir "$here"
    # Without what rt keeps beside the crates.
    find .ci Makefile crates crates.txt docs examples host include season-report season_checker.pc.in -path 'crates/*/out' -prune -o -type f -print |
        tar -c -f - -T - | tar -x -m -f - -C "$here"
    cd "$here"
    RT_BUILT="$root/target" RT_CALLS="$work/calls" RT_SAYS="$work/says" RT_STATUS=0 PATH="$work/bin:$PATH"
    export RT_BUILT RT_CALLS RT_SAYS RT_STATUS PATH
    : > "$RT_CALLS"
    # A call of make on the copy is no part of the one that runs this test.
    unset MAKEFLAGS MFLAGS MAKELEVEL PROVED PROVED_REPORT

    RT_FAILS=1 expect 2 ./season-report "$season"
    said 'report NOT PROVED'
    said 'the program is not built'
    expect 0 ./season-report "$season"
    printed '2 10 8' '0 11 10' '1 32 5' '3 13 3'
    said 'proving season_report: [0-9]* crates'
    said '  1 of [0-9]*: robinx proved ([0-9]* s)'
    said '  [0-9]* of [0-9]*: season_report proved ([0-9]* s)'
    [ "$(calls run)" -eq 2 ]
    expect 0 ./season-report "$season"
    silent
    age target/bin/season_report
    expect 0 ./season-report "$season"
    silent
    [ "$(calls run)" -eq 2 ] || wrong 'proved again without a change'
    echo '// a change' >> crates/report/src/lib.rt
    age target/bin/season_report
    expect 0 ./season-report "$season"
    expect 0 ./season-report "$season"
    silent
    [ "$(calls run)" -eq 3 ] || wrong 'season-report does not see a change'

    rm -rf target
    expect 0 make -s PROVED="$root/target/libseason_checker.a"
    cmp -s target/libseason_checker.a "$root/target/libseason_checker.a" || wrong 'make PROVED=FILE'
    rm -rf target
    cp "$root/target/libseason_checker.a" "$work/a proved archive.a"
    expect 0 make -s PROVED="$work/a proved archive.a"
    [ "$(calls lib)" -eq 0 ] || wrong 'make PROVED=FILE calls rt'
    expect 0 make -s
    said '  [0-9]* of [0-9]*: checker_c proved'
    expect 0 make -s
    age target/staticlib/libchecker_c.a
    expect 0 make -s
    [ "$(calls lib)" -eq 1 ] || wrong 'make proves again what is proved'
    echo '// a change' >> crates/books/src/lib.rt
    age target/staticlib/libchecker_c.a
    expect 0 make -s
    [ "$(calls lib)" -eq 2 ] || wrong 'make does not see a change'
    echo 'another archive' > target/staticlib/libchecker_c.a
    age target/staticlib/libchecker_c.a
    expect 0 make -s
    [ "$(calls lib)" -eq 3 ] || wrong 'make takes another archive for the proved one'
    expect 0 make -s console
    expect 0 target/console examples/season-a.bin set 0 0
    expect 0 make -s install PREFIX="$work/a prefix" DESTDIR="$work/a stage"
    [ -f "$work/a stage$work/a prefix/lib/pkgconfig/season_checker.pc" ] || wrong 'make install'
    expect 0 make -s uninstall PREFIX="$work/a prefix" DESTDIR="$work/a stage"
    [ -z "$(find "$work/a stage" ! -type d)" ] || wrong 'make uninstall leaves files'
    expect 0 make help
    for word in install uninstall clean host-test PROVED; do
        grep -q -e "$word" "$work/out" || wrong "make help does not name $word"
    done
    expect 0 make -s clean
    [ ! -e target ] && [ ! -e crates/checker_c/out ] || wrong 'make clean'

    # The gate: where rt fails; where it ends before it has counted; where all is well; where only an edit, or only a host test, is not.
    RT_STATUS=1 gate 1 '118 passed, 1 failed' << 'END'
rt: FAILED: books
118 passed, 1 failed
END
    grep -q 'host tests: LEFT OUT' "$work/out" || wrong 'nothing says that the host tests were left out'
    edits=$(find crates -name '*.edit' | wc -l | tr -d ' ')
    crates=$(grep -c '^[a-z]' crates.txt)
    head -n 1 "$work/out" | grep -q "checks to make: $((crates + edits)) ($crates crates, $edits must-fail edits)" ||
        wrong 'another number of checks'
    RT_STATUS=2 gate 2 '0 passed, 1 failed' << 'END'
rt: no rt ci here
END
    printed_too 'rt: no rt ci here'
    # These tests are not run a second time in the copy.
    printf '#!/bin/sh\necho the host tests; exit "${HOST_STATUS:-0}"\n' > host/test.sh
    gate 0 '119 passed, 0 failed' << 'END'
rt: ok; handles allowed: none; must-fail edits: 80 refused, 2 of them only by a limit; every proof and must-fail edit was done in this run
119 passed, 0 failed
END
    printed_too 'the host tests'
    gate 1 '116 passed, 3 failed' << 'END'
rt: must-fail books/one.edit: BAD EDIT: it did not reach the prover
rt: ok; handles allowed: none; must-fail edits: 77 refused, 3 bad; every proof and must-fail edit was done in this run
116 passed, 0 failed
END
    printed_too 'must-fail edits: 3 are no edits'
    HOST_STATUS=1 gate 1 '119 passed, 1 failed' << 'END'
rt: ok; handles allowed: none; must-fail edits: 80 refused; every proof and must-fail edit was done in this run
119 passed, 0 failed
END
    printed_too 'host tests: FAILED'
}

report
copy
