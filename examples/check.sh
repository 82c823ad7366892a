#!/usr/bin/env bash
# Runs a runner program in each example folder and compares what it prints with
# the file `stdout` there. Usage: check.sh [RUNNER]
set -eu

examples=$(cd "$(dirname "$0")" && pwd)
runner=${1:-"$examples/../target/bin/runner"}
if [ ! -f "$runner" ] || [ ! -x "$runner" ]; then
    echo "no program at $runner" >&2
    exit 1
fi
# The runner is started from other folders, so its path has to be a full one.
runner=$(cd "$(dirname "$runner")" && pwd)/$(basename "$runner")

count=0
differences=0
for folder in "$examples"/*/ "$examples"/*/*/; do
    if [ ! -f "$folder/sheet.bin" ]; then
        continue
    fi
    count=$((count + 1))
    if ! (cd "$folder" && "$runner" | cmp -s - stdout); then
        echo "difference in ${folder#"$examples"/}"
        differences=$((differences + 1))
    fi
done

echo "$count examples, $differences differences"
[ "$count" -gt 0 ] && [ "$differences" -eq 0 ]
