#!/bin/sh
# Runs what documents show: in a fenced block, a line that begins with '$ ' is a command, and the lines up to the next one are all that it
# prints. Part of host/test.sh.
#
#   host/documents.sh FILE...
set -eu
cd "$(dirname "$0")/.."
work=$(pwd)/target/host/documents
rm -rf "$work"
mkdir -p "$work"
awk -v work="$work" '
    FNR == 1 { command = "" ; fence = 0 }
    /^```/ { fence = !fence; command = ""; next }
    fence && /^\$ / {
        command = sprintf("%s/%03d", work, ++count)
        print "# " FILENAME ":" FNR > (command ".sh")
        print substr($0, 3) > (command ".sh")
        printf "" > (command ".wanted")
        next
    }
    fence && command != "" { print > (command ".wanted") }' "$@"
count=0
for file in "$work"/*.sh; do
    sh "$file" > "${file%.sh}.out" 2>&1 || true
    if ! diff "${file%.sh}.wanted" "${file%.sh}.out" > "$work/difference"; then
        printf 'a document shows something else (<) than what comes (>): %s\n' "$(cat "$file")"
        cat "$work/difference"
        exit 1
    fi
    count=$((count + 1))
done
printf '   %d commands print what is shown\n' "$count"
