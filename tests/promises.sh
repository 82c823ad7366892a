#!/usr/bin/env bash
# Compares what every public function promises with tests/promises.txt. Nothing in this repository calls the exported
# functions, so a promise of theirs that is weakened would pass every proof; here it shows, and the gate fails.
# Usage: bash tests/promises.sh, or bash tests/promises.sh --write to write tests/promises.txt anew.
set -euo pipefail
cd "$(dirname "$0")/.."

# Each public function from its name to the brace that opens its body.
promises() {
    find crates/*/src -name '*.rt' | LC_ALL=C sort | xargs awk '
        FNR == 1 { said = 0; inside = 0 }
        /^ *pub (extern "C" )?fn / { inside = 1; if (!said) { print "== " FILENAME; said = 1 } }
        inside { print }
        inside && /\{$/ { inside = 0 }
    '
}

if [ "${1:-}" = --write ]; then
    promises >tests/promises.txt
    exit
fi
if ! promises | diff tests/promises.txt - >&2; then
    echo "promises: not those of tests/promises.txt (above); where that is meant: bash tests/promises.sh --write" >&2
    exit 1
fi
echo "promises: $(grep -c ' fn ' tests/promises.txt) functions promise what tests/promises.txt says"
