#!/bin/sh
# Runs each example in a folder of its own, and compares what it prints with NAME.out, and its status with NAME.status (0
# where there is none). What NAME has besides:
#   NAME.script  the script, which stands on standard input
#   NAME.words   the words behind the program's name (replay)
#   NAME.pages   how many pages the store has that `init` makes before (1); 0: none is made
#   NAME.first   a script that is replayed before
#   NAME.loga    bytes that stand in place of those of log area A then; NAME.area those of the pages area
#   NAME.before  words with which the program is run then, and ends well
# A first word names another program in place of ../brahma.
set -eu

here=$(cd "$(dirname "$0")" && pwd)
program=${1:-$here/../brahma}
folder=$(mktemp -d)
trap 'rm -rf "$folder"' EXIT

# What the file says, or the second word where there is none.
told() {
    if [ -f "$1" ]; then cat "$1"; else echo "$2"; fi
}

# Makes the store that the example begins with, in the folder $folder/disk.
prepare() {
    rm -rf "$folder/disk"
    mkdir "$folder/disk"
    cd "$folder/disk"
    pages=$(told "$1.pages" 1)
    if [ "$pages" != 0 ]; then "$program" init "$pages" >"$folder/made"; fi
    if [ -f "$1.first" ]; then "$program" replay <"$1.first" >"$folder/made"; fi
    if [ -f "$1.loga" ]; then cp "$1.loga" brahma.loga; fi
    if [ -f "$1.area" ]; then cp "$1.area" brahma.pages; fi
    # The words are separate arguments.
    # shellcheck disable=SC2046
    if [ -f "$1.before" ]; then "$program" $(cat "$1.before") </dev/null >"$folder/made"; fi
}

count=0
wrong=0
for out in "$here"/*.out; do
    name=${out%.out}
    prepare "$name"
    script=/dev/null
    if [ -f "$name.script" ]; then script=$name.script; fi
    status=0
    # The words are separate arguments.
    # shellcheck disable=SC2046
    "$program" $(told "$name.words" replay) <"$script" >"$folder/printed" || status=$?
    count=$((count + 1))
    if [ "$status" != "$(told "$name.status" 0)" ] || ! cmp -s "$folder/printed" "$out"; then
        echo "$(basename "$name"): status $status, wanted $(told "$name.status" 0); printed and wanted lines differ so:"
        diff "$folder/printed" "$out" || true
        wrong=$((wrong + 1))
    fi
done
echo "examples: $count, different: $wrong"
[ "$wrong" = 0 ]
