#!/bin/sh
# The tests of what the proof does not cover: the compiled library behind its C interface against an independent checker, the header and
# its helpers, the installed files, the shared library, the examples, the commands, the documents, the text form, reports, pages and moves.
# Needs make, cargo, cc; uses C++ compilers, clang, pkg-config, Python, valgrind and Chromium where there are any.
#
#   host/test.sh          or: make host-test
#   HOST_TIMES=10 ..      ten times as many random seasons
#   HOST_SEED=N ..        another seed for all of them
set -eu
cd "$(dirname "$0")/.."
root=$(pwd)
work=$root/target/host
# What has links in it stands outside the checkout: rt ci takes none there.
outside=$(mktemp -d)
trap 'rm -rf "$outside"' EXIT
export CARGO_TARGET_DIR="$root/target/cargo"
CC=${CC:-cc}
mkdir -p "$work"
command -v cargo > /dev/null || PATH=$PATH:$HOME/.cargo/bin

step() {
    at=$*
    printf '== %s\n' "$at"
}
has() {
    command -v "$1" >/dev/null 2>&1 && return
    printf '   %s is not installed: left out\n' "$1"
    return 1
}

# steps NAME: a function's steps up to the first that fails, which is noted.
steps() {
    at=$1
    trap '[ $? -eq 0 ] || printf "failed: %s\n" "$at" >> "$work/failed"' EXIT
    "$1"
}

# both ONE OTHER: two functions at the same time. What the other prints is kept until the one is done.
both() {
    : > "$work/failed"
    steps "$1" &
    one=$!
    steps "$2" > "$work/$2.out" 2>&1 &
    other=$!
    status=0
    wait "$one" || status=1
    wait "$other" || status=1
    cat "$work/$2.out" "$work/failed"
    [ "$status" -eq 0 ] || exit 1
}
# An interrupt does not reach what runs in the background.
trap 'rm -rf "$outside"; trap - TERM; kill 0' INT

strict='-Wall -Wextra -Wpedantic -Wconversion -Wsign-conversion -Werror'
tests() { cargo test --offline --quiet --profile checked --manifest-path host/Cargo.toml "$@"; }

header() {
    step header as C and as C++
    for compiler in "$CC" clang; do
        has "$compiler" || continue
        for standard in c99 c11 c17; do
            $compiler -std=$standard $strict -Iinclude host/c/header.c target/libseason_checker.a -o "$work/header"
            "$work/header"
        done
    done
    for compiler in "${CXX:-c++}" clang++; do
        has "$compiler" || continue
        for standard in c++11 c++14 c++17 c++20; do
            $compiler -std=$standard $strict -Iinclude -x c++ host/c/header.c -x none target/libseason_checker.a -o "$work/header"
            "$work/header"
        done
    done
}

explained() {
    step explained refusals
    for compiler in "$CC" clang; do
        has "$compiler" || continue
        for standard in c99 c11 c17; do
            $compiler -std=$standard $strict -Iinclude host/c/explain.c target/libseason_checker.a -o "$work/explain"
        done
    done
    for compiler in "${CXX:-c++}" clang++; do
        has "$compiler" || continue
        for standard in c++11 c++20; do
            $compiler -std=$standard $strict -Iinclude -x c++ host/c/explain.c -x none target/libseason_checker.a -o "$work/explain-c++"
            "$work/explain-c++" examples/season-a.bin > /dev/null
        done
    done
    target/season-text encode examples/named8.txt "$work/named8.bin"
    target/season-text encode examples/league18.txt "$work/league18.bin"
    target/season-text encode examples/trips20.txt "$work/trips20.bin"
    "$work/explain" examples/season-a.bin "$work/named8.bin" "$work/league18.bin" "$work/trips20.bin"
}

example() {
    step example
    target/console < examples/season-a.moves > "$work/console.out"
    cmp examples/season-a.console "$work/console.out"
    # the same moves on the command line
    # shellcheck disable=SC2046
    target/console $(sed 's/#.*//' examples/season-a.moves) | cmp examples/season-a.console -
    for wrong in 'set 0' 'move 0 1' 'set 0 -1' 'set 0 1x' 'set 0 18446744073709551616' 'set 0 1 2'; do
        if echo "$wrong" | target/console > "$work/console.out" 2>&1; then
            echo "console takes '$wrong' for a move" && exit 1
        fi
        grep -q 'line 1: a move is' "$work/console.out"
    done
    head -c 113 examples/season-a.bin > "$work/cut.bin"
    if target/console "$work/cut.bin" set 0 0 > "$work/console.out"; then exit 1; fi
    grep -q 'refused 3' "$work/console.out"
}

installed() {
    step installed files
    prefix="$outside/a prefix"
    make -s install PREFIX="$prefix"
    if has pkg-config; then
        export PKG_CONFIG_PATH="$prefix/lib/pkgconfig"
        flags=$(pkg-config --cflags --libs season_checker)
        grep -q "^#define SEASON_CHECKER_VERSION \"$(pkg-config --modversion season_checker)\"\$" "$prefix/include/season_checker.h"
        eval "$CC -Wall -Wextra -Werror examples/console.c $flags -o '$work/console'"
    else
        $CC -Wall -Wextra -Werror -I"$prefix/include" examples/console.c "$prefix/lib/libseason_checker.a" -o "$work/console"
    fi
    "$work/console" < examples/season-a.moves | cmp examples/season-a.console -
    # the same with the shared library, which exports what the header declares and nothing else
    [ -z "$(nm -D --defined-only target/libseason_checker.so | awk '$3 !~ /^season_/')" ]
    $CC -Wall -Wextra -Werror -I"$prefix/include" examples/console.c -L"$prefix/lib" -lseason_checker -o "$work/console"
    LD_LIBRARY_PATH=$prefix/lib "$work/console" < examples/season-a.moves | cmp examples/season-a.console -
    if has python3; then
        for library in target/libseason_checker.so "$prefix/lib/libseason_checker.so"; do
            SEASON_CHECKER=$library python3 examples/season.py examples/season-a.bin 0 0 0 2 2 0 | cmp examples/season-a.python -
        done
        head -c 113 examples/season-a.bin > "$work/cut.bin"
        python3 examples/season.py "$work/cut.bin" > "$work/python.out"
        grep -q '^refused 3 ' "$work/python.out"
    fi
    make -s uninstall PREFIX="$prefix"
    [ -z "$(find "$prefix" ! -type d)" ]
}

text_form() {
    step text form of the examples
    for name in season-a league18 largest32 mixed32 trips20; do
        target/season-text encode examples/$name.txt "$work/$name.bin" 2> /dev/null
        target/season-text decode "$work/$name.bin" | cmp - examples/$name.txt
    done
    (cd "$work" && sha256sum --check --quiet "$root/examples/SHA256SUMS")
    target/season-text encode examples/season-a.txt "$work/a.season" "$work/a.sheet"
    cat "$work/a.season" "$work/a.sheet" | cmp - examples/season-a.bin
    printf 'teams 4\nslots 3\ngame 0 9 1\n' > "$work/wrong.txt"
    if target/season-text encode "$work/wrong.txt" > /dev/null 2> "$work/wrong.out"; then exit 1; fi
    grep -q "wrong.txt:3: '9' is not a team" "$work/wrong.out"
}

page_ends() {
    step C, buffers at the ends of pages
    "$CARGO_TARGET_DIR/checked/record" "$work/cases"
    $CC -std=c99 -O1 -g -Wall -Wextra -Wpedantic -Werror -Iinclude host/c/replay.c target/libseason_checker.a -o "$work/replay"
    "$work/replay" "$work/cases" end
    "$work/replay" "$work/cases" start
}

memory() {
    step C under memory checkers
    if echo 'int main(void) { return 0; }' | $CC -fsanitize=address,undefined -x c - -o "$work/sanitized" 2> /dev/null; then
        for part in host/c/replay.c host/c/explain.c examples/console.c; do
            $CC -std=c99 -O1 -g -fsanitize=address,undefined -fno-sanitize-recover=all -Iinclude $part target/libseason_checker.a \
                -o "$work/sanitized"
            case $part in
            *replay.c)
                "$work/sanitized" "$work/cases" end
                "$work/sanitized" "$work/cases" heap
                ;;
            *explain.c) "$work/sanitized" examples/season-a.bin "$work/named8.bin" ;;
            *) "$work/sanitized" < examples/season-a.moves | cmp examples/season-a.console - ;;
            esac
        done
    else
        echo '   the C compiler has no AddressSanitizer: left out'
    fi
    if has valgrind; then
        valgrind --quiet --error-exitcode=9 "$work/replay" "$work/cases" end 100
        valgrind --quiet --error-exitcode=9 "$work/replay" "$work/cases" heap 150
        valgrind --quiet --error-exitcode=9 --leak-check=full target/console < examples/season-a.moves > "$work/console.out"
        cmp examples/season-a.console "$work/console.out"
    fi
}

builds() {
    step builds in Rust
    tests --package checks --package season-text --no-run
    make -s text
}

beside_builds() {
    header
    example
    installed
    step commands
    host/commands.sh
}

# The longest of all tests are among these.
samples() {
    step Rust tests, sample seasons
    tests --package checks --test host -- --nocapture samples::
}

beside_samples() {
    explained
    step commands in the documents
    host/documents.sh README.md docs/FORMAT.md docs/KINDS.md
    text_form
    page_ends
    memory
    step Rust tests, all others
    tests --package checks --test host -- --nocapture --skip samples::
    tests --package season-text
}

started=$(date +%s)
step library, example
make -s all console
both beside_builds builds
both beside_samples samples
printf 'host tests: all passed in %d s\n' $(($(date +%s) - started))
