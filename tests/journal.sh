#!/usr/bin/env bash
# A host that keeps journals in files (examples/journal) is killed at random moments and at every point of a small
# queue, and loses its power. Nothing synced may be lost, nothing may be told before it is synced, nothing done twice.
# What is synced is what the worker notes after `fsync`. Journals are also cut at every byte. The check is known to be able to fail: it has to find a host that acts before it
# syncs, one that does not cut back, and each fault that is made by hand. Usage: journal.sh [ARCHIVE [SEED]]
set -euo pipefail
cd "$(dirname "$0")/.."

archive=${1:-target/staticlib/libsinewhopa.a}
seed=${2:-31}
plans=12
kills=40
journal=$PWD/target/journal
sources=$PWD/examples/journal
if [ ! -f "$archive" ]; then
    echo "no archive at $archive: run make archive" >&2
    exit 1
fi

folder=$(mktemp -d)
worker=
ended() {
    { [ -z "$worker" ] || kill -KILL "$worker" || true; wait || true; } 2>/dev/null
    rm -rf "$folder"
}
trap ended EXIT

mkdir -p target
cc -std=c11 -Wall -Wextra -Werror -Iinclude "$sources"/{journal,plans,files,trial,check,cuts}.c "$archive" -o "$journal"
cc -std=c11 -Wall -Wextra -Werror -Iinclude "$sources/story.c" "$archive" -o target/journal-story

fail() {
    echo "FAILED: $*"
    exit 1
}

# A place of its own with journals, and nobody told yet: fresh NAME PLANS
fresh() {
    here=$folder/$1
    rm -rf "$here"
    mkdir "$here"
    "$journal" init "$here/plans" "$seed" "$2"
    : >"$here/world"
    : >"$here/synced"
}

# A worker on what is there: work OPTIONS..
work() {
    "$journal" work --synced="$here/synced" "$@" "$here/plans" "$here/world" "$queue"
}

# A worker that is not killed, unless it does not end: unharmed OPTIONS..
unharmed() {
    local status=0
    timeout -s KILL 60 "$journal" work --synced="$here/synced" --no-sync "$@" "$here/plans" "$here/world" "$queue" \
        >"$folder/out" 2>&1 || status=$?
    [ "$status" -eq 0 ] || { cat "$folder/out"; fail "a worker, status $status"; }
}

# The last line of the last check.
counts() { tail -n 1 "$folder/out"; }

# The check of what is there: look OPTIONS..
look() {
    "$journal" check "$@" "$here/plans" "$here/world" "$queue" "$here/synced" >"$folder/out"
}

# What a host has left has to pass: passes WHAT OPTIONS..
passes() {
    local what=$1
    shift
    look "$@" || { cat "$folder/out"; fail "$what"; }
}

lose_power() {
    "$journal" lose "$here/plans" "$here/synced" $((RANDOM + 1)) >"$folder/out" || fail 'lose'
    losses=$((losses + 1))
}

# A command has to fail and to say why: refused TEXT COMMAND..
refused() {
    local text=$1
    shift
    if "$@" >"$folder/out" 2>&1; then
        fail "not refused: $text"
    fi
    grep -q -- "$text" "$folder/out" || { cat "$folder/out"; fail "refused for another reason than: $text"; }
}

# Starts a worker and kills it: while it opens the journals, or 0 to 49 ms after. At one of the paces it lingers where a
# kill would hurt. False where it had come to the queue's end.
kill_round() {
    local status=0 opening=$((RANDOM % 8)) counted pace=${paces[RANDOM % ${#paces[@]}]}
    : >"$folder/opened"
    "$journal" work "--slow=$pace" --synced="$here/synced" "$here/plans" "$here/world" "$queue" \
        >"$folder/opened" 2>"$folder/err" &
    worker=$!
    while [ "$opening" -ne 0 ] && [ ! -s "$folder/opened" ] && kill -0 "$worker" 2>/dev/null; do
        sleep 0.002
    done
    sleep "0.0$((RANDOM % 5))$((RANDOM % 10))"
    [ -s "$folder/opened" ] && counted=true || counted=false
    kill -KILL "$worker" 2>/dev/null || true
    { wait "$worker"; } 2>/dev/null || status=$?
    worker=
    case $status in
    0) return 1 ;;
    137) ;;
    *) cat "$folder/err"; fail "a worker failed after $killed kills, status $status" ;;
    esac
    if $counted; then
        killed=$((killed + 1))
        torn=$((torn + $(sed -n 's/.* opened, \(.*\) cut back/\1/p' "$folder/opened")))
    else
        early=$((early + 1))
    fi
}

# Kills workers at least so many times after they have opened the journals. After two of three the power is lost, and
# the next worker meets what that leaves. After the others one that is not killed takes 10 replies, so that the kills
# fall on the whole queue.
kill_often() {
    killed=0 early=0 torn=0 losses=0
    fresh kills "$plans"
    while [ "$killed" -lt "$kills" ]; do
        if kill_round; then
            passes "after $killed kills" --under-way
            if [ $((RANDOM % 3)) -ne 0 ]; then
                lose_power
                passes "after $losses losses of power" --under-way
            else
                unharmed --most=10
            fi
        else
            passes "$killed kills, at the queue's end"
            fresh kills "$plans"
        fi
    done
    unharmed
    passes "after $killed kills, at the end"
    echo "killed $killed times at work, $early times before; the power lost $losses times; $torn torn records"
    echo "at the end: $(counts)"
    [ "$torn" -gt 0 ] && [ "$losses" -gt 0 ] || fail 'no torn record was met'
}

# A worker that ends itself at a point: die POINT OPTIONS.. False where it came to the queue's end before that.
die() {
    local status=0 at=$1
    shift
    { work --no-sync "--die=$at" "$@" >"$folder/err" 2>&1; } 2>/dev/null || status=$?
    [ "$status" -eq 0 ] || [ "$status" -eq 137 ] || { cat "$folder/err"; fail "a worker failed, status $status"; }
    [ "$status" -eq 137 ]
}

RANDOM=$seed
queue=$folder/queue
"$journal" replies "$seed" "$plans" >"$queue"
echo "seed $seed, $plans plans, $(wc -l <"$queue") replies in the queue"

target/journal-story | cmp - "$sources/stdout" || fail 'the story'
"$journal" cuts "$seed" 500

fresh never "$plans"
unharmed
passes 'never killed'
echo "never killed: $(counts)"
grep -q ' 0 calls taken again, .* 0 times again' "$folder/out" || fail 'never killed, and something is repeated'

paces=(0 300 1000 3000)
kill_often

RANDOM=$seed

# Every point of a small queue: the worker dies there, loses the power, and another one goes on.
all=$queue
queue=$folder/small
"$journal" replies "$seed" 3 | awk 'NR % 2' >"$queue"
points=0 losses=0
fresh template 3
template=$here
here=$folder/die
while rm -rf "$here" && cp -r "$template" "$here" && die $((points + 1)); do
    points=$((points + 1))
    lose_power
    passes "died at point $points" --under-way
    work --no-sync >"$folder/err" 2>&1 || { cat "$folder/err"; fail "a worker after point $points"; }
    passes "died at point $points, and then went on"
done
[ "$points" -ge 60 ] || fail "only $points points"
echo "died at each of $points points: $(counts)"

# WRONG on purpose, and to be found: it tells the offices first.
found=0
for ((at = 1; at <= points; at++)); do
    rm -rf "$here" && cp -r "$template" "$here"
    if die "$at" --act-first && ! look --under-way; then
        grep -q 'an office was told line .*, which is not synced' "$folder/out" || { counts; fail 'act first'; }
        found=$((found + 1))
        [ "$found" -lt 3 ] || break
    fi
done
[ "$found" -ge 3 ] || fail 'a host that acts before it syncs is not found'
echo "a host that acts first is found, $found times up to point $at"

# WRONG on purpose, and to be found: it appends behind leftover bytes.
queue=$all
found=0 losses=0
for most in 30 60 90; do
    fresh wrong "$plans"
    unharmed "--most=$most"
    lose_power
    work --no-sync --no-cut-back --most=60 >"$folder/err" 2>&1 || { cat "$folder/err"; fail 'no cut back'; }
    look --under-way || found=$((found + 1))
done
[ "$found" -ge 1 ] || fail 'a host that does not cut back is not found'
echo "a host that does not cut back is found, $found times of 3: $(counts)"

# A killed worker has written a record and not synced it. The next one syncs it before it tells anybody.
queue=$folder/first
echo '0 1 16 0' >"$queue"
fresh unsynced 1
die 4 || fail 'point 4'
[ "$(tail -c 2 "$here/plans/plan-1.journal" | od -An -tx1)" = ' 10 00' ] || fail 'the record is not written'
{ die 1 && [ ! -s "$here/world" ]; } || fail 'an office was told before the record was synced'
lose_power
passes 'a record that is not synced' --under-way
unharmed
passes 'a record that is not synced, and then went on'

# The bytes 13 c8 00 of a torn record and 10 00 behind them read as a move to minute 1048776, which nobody made.
queue=$folder/one
echo '0 4 16 0' >"$queue"
fresh torn 4
printf '\023\310\000' >>"$here/plans/plan-4.journal"
cp -r "$here" "$folder/right"
work --no-sync --no-cut-back >"$folder/err" 2>&1
refused 'plan 4: a record at offset 19 that no reply asked for' look
here=$folder/right
unharmed
passes 'a torn record that is cut back'

# A full disk: no byte is written, or 3 of 7. The host says so and ends; the next one cuts back, and goes on.
echo '5 4 16 1' >>"$queue"
for ((bytes = 21; bytes < 1021; bytes += 2)); do printf '\020\000'; done >>"$here/plans/plan-4.journal"
refused 'plan 4: a call is not stored: File too large' bash -c \
    '(trap "" XFSZ; ulimit -f 0; exec "$@" 2>&1) | cat; exit 1' full "$journal" work "$here/plans" /dev/null "$queue"
refused 'plan 4: a call is not stored: 3 of 7 bytes were written' bash -c \
    'ulimit -f 1; exec "$@"' full "$journal" work "$here/plans" "$here/world" "$queue"
[ "$(wc -c <"$here/plans/plan-4.journal")" -eq 1024 ] || fail 'the disk was not full'
passes 'a full disk' --under-way
unharmed
passes 'a full disk, and then went on'
grep -q ' 500 calls taken again' "$folder/out" || fail 'the calls that were stored by hand'

# Each fault by itself, made by hand in a copy of what a worker has left.
queue=$all
whole=$folder/never
found() {
    local text=$1
    shift
    here=$folder/copy
    rm -rf "$here"
    cp -r "$whole" "$here"
    cp "$all" "$here/queue"
    queue=$here/queue
    (cd "$here" && "$@")
    refused "$text" look
}
append() { printf "$1" >>plans/plan-1.journal; }
shorten() { truncate -s "-$1" plans/plan-1.journal; }
edit() { awk "$2" "$1" >less && mv less "$1"; }
forget() { shorten 1 && edit synced '$1 != 1'; }
found 'reply 3: answered twice' edit world '{ print } /^answered 3 /'
found 'reply 3: answered twice, or before an earlier one' edit world '!/^answered 2 /'
found 'answered, and nobody sent it' edit queue 'NR > 1 { print last } { last = $0 }'
found 'not answered' edit queue '{ print } END { print }'
found 'reply 3: answered 13 0, not as it should be' edit world '/^answered 3 / { $0 = "answered 3 13 0" } { print }'
found 'reply .*: there is no plan 99' edit queue 'NR == 2 { $2 = 99 } { print }'
found 'plan 1: line 1 was told before an earlier one' edit world '!/^told 1 0 /'
found 'plan 1: line 0 was told with two contents' edit world '{ print } /^told 1 0 / { print "told 1 0 7 2" }'
found 'plan 1: an office was told line 4, which is not synced' edit world '{ print } END { print "told 1 4 0 2" }'
found 'plan 1: an office was told line 3, which is not synced' edit world '/^told 1 3 / { $5 = 9 } { print }'
found 'told line 16, which there cannot be' edit world '{ print } END { print "told 1 16 0 2" }'
found 'plan 1: no office was told line 3' edit world '!/^told 1 3 /'
found 'plan 1: [12] bytes are gone that were synced' shorten 1
found 'plan 1: a record is gone whose reply was answered' forget
found 'a synced offset went down' edit synced '{ print } $1 == 1 && !done { print 1, $2 - 1; done = 1 }'
found 'the synced bytes are not whole records' edit synced '{ print } END { print 1, 24 }'
found 'plan 1: a record at offset .* that no reply asked for' append '\023\377\377\377\000'
found 'plan 1: 2 leftover bytes' append '\023\377'
found 'plan 1: its journal does not open: number 17' append '\000'
found 'plan 1: its sheet is not whole' truncate -s 9 plans/plan-1.journal
echo 'each fault that is made by hand is found'

# A journal that does not open, a second worker and bad input are refused, and say so.
one_work() { "$journal" work "$here/plans" "$here/world" "$queue"; }
damaged() {
    rm -rf "$here"
    cp -r "$whole" "$here"
    (cd "$here" && "$@")
}
queue=$all
damaged append '\024'
# Number 17 has no words of its own in C yet (docs/PORT.md).
refused 'plan-1.journal does not open: number 17 at offset [0-9]*: a number that this version does not know' one_work
damaged truncate -s 9 plans/plan-1.journal
refused 'plan-1.journal does not open: number 1 at offset 9: the bytes run out' one_work
damaged true
refused 'plan-1.journal: is there already' "$journal" init "$here/plans" "$seed" 1
printf '\005' >"$folder/sheet"
printf '\005\005' >"$folder/bad-sheet"
: >"$here/plans/plan-77.new" # what a creation leaves that is cut off
"$journal" new "$here/plans" 77 "$folder/sheet"
[ "$(od -An -tx1 "$here/plans/plan-77.journal")" = ' 05' ] || fail 'a new journal is another one'
refused 'plan-77.journal: is there already' "$journal" new "$here/plans" 77 "$folder/sheet"
refused 'plan 78: its sheet is turned down: number 8 at offset 1: bytes after' \
    "$journal" new "$here/plans" 78 "$folder/bad-sheet"
queue=$folder/bad
printf '5 99 16 0\n5 1 16 0\n' >"$queue"
: >"$here/world"
refused 'reply 0: there is no plan 99; not taken' one_work
grep -q '^answered 1 0 ' "$here/world" || fail 'the reply behind a bad one was not taken'
echo '5 1 19 0' >"$queue"
refused 'not a reply' one_work
printf '5 1 16' >"$queue"
refused 'a line has no end' one_work
queue=$folder/none
refused 'No such file' one_work
refused 'No such file' "$journal" work "$folder/none" "$here/world" "$all"
refused 'not an option' "$journal" work --quick "$here/plans" "$here/world" "$all"
refused 'not an option' "$journal" check --quick "$here/plans" "$here/world" "$all" "$here/synced"
refused 'usage' "$journal" work
queue=$folder/pipe
mkfifo "$queue"
"$journal" work "$here/plans" "$here/world" "$queue" >"$folder/err" 2>&1 &
worker=$!
exec 3>"$queue"
refused 'another worker has this folder' "$journal" work "$here/plans" "$here/world" "$all"
exec 3>&-
wait "$worker" || { cat "$folder/err"; fail 'the first worker of two'; }
worker=
echo 'what is bad is refused'
