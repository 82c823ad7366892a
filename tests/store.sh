#!/usr/bin/env bash
# A host over SQLite (examples/store) is killed at random moments, again and again. Nothing may be lost and nothing done
# twice. The check is known to be able to fail: it has to find a host that commits its outbox in a transaction of its
# own, killed as often, and each fault that is made by hand. Usage: store.sh [ARCHIVE [SEED]]
set -euo pipefail
cd "$(dirname "$0")/.."

archive=${1:-target/staticlib/libsinewhopa.a}
seed=${2:-31}
plans=60
store=target/store
if [ ! -f "$archive" ]; then
    echo "no archive at $archive: run make archive" >&2
    exit 1
fi

folder=$(mktemp -d)
workers=()
ended() {
    { [ "${#workers[@]}" -eq 0 ] || kill -KILL "${workers[@]}" || true; wait || true; } 2>/dev/null
    rm -rf "$folder"
}
trap ended EXIT

mkdir -p target
cc -std=c11 -Wall -Wextra -Werror -Iinclude examples/store/store.c examples/store/trial.c "$archive" -lsqlite3 \
    -o "$store"

fail() {
    echo "FAILED: $*"
    exit 1
}

# A folder with a database, and no office told yet: fresh NAME
fresh() {
    mkdir "$folder/$1"
    db=$folder/$1/plans.db
    world=$folder/$1/world
    "$store" init "$db" "$seed" "$plans"
    : >"$world"
}

# A worker that is not killed, unless it does not end: unharmed OPTIONS..
unharmed() {
    local status=0
    timeout -s KILL 60 "$store" work "$@" "$db" "$world" "$queue" >"$folder/out" 2>&1 || status=$?
    [ "$status" -eq 0 ] || { cat "$folder/out"; fail "a worker, status $status"; }
}

# What a host has left has to pass: passes WHAT
passes() {
    "$store" check "$db" "$world" "$queue" >"$folder/out" || { cat "$folder/out"; fail "$1"; }
    echo "$1: $(tail -n 1 "$folder/out")"
}

# Kills the workers and counts those that were still at work. False where one had come to the queue's end.
kill_workers() {
    local worker status at_work=true
    kill -KILL "${workers[@]}" 2>/dev/null || true
    for worker in "${workers[@]}"; do
        status=0
        { wait "$worker"; } 2>/dev/null || status=$?
        case $status in
        0) at_work=false ;;
        137) killed=$((killed + 1)) ;;
        *) cat "$folder"/out.*; fail "a worker failed after $killed kills, status $status" ;;
        esac
    done
    workers=()
    $at_work
}

# Starts workers and kills them after 10 to 59 ms: kill_round HOW-MANY OPTIONS..
# At one of the paces they linger where a kill would hurt.
kill_round() {
    local count=$1
    shift
    set -- "--slow=${paces[RANDOM % ${#paces[@]}]}" "$@"
    while [ "${#workers[@]}" -lt "$count" ]; do
        "$store" work "$@" "$db" "$world" "$queue" >"$folder/out.${#workers[@]}" 2>&1 &
        workers+=($!)
    done
    sleep "0.0$((10 + RANDOM % 50))"
    kill_workers
}

# Kills workers at least so many times: kill_often NAME KILLS HOW-MANY-AT-ONCE OPTIONS..
# One that is not killed takes 10 replies between the rounds, so that the kills fall on the whole queue. Where that has
# an end too early, it goes on with another database; the wrong host is found by then.
kill_often() {
    local name=$1 kills=$2 count=$3
    killed=0
    shift 3
    fresh "$name"
    while [ "$killed" -lt "$kills" ]; do
        if kill_round "$count" "$@"; then
            unharmed --no-sync --most=10 "$@"
        elif [ "$name" = wrong ]; then
            return 0
        else
            unharmed "$@"
            passes "$name, killed $killed times"
            name=$name+
            fresh "$name"
        fi
    done
}

# A spoilt copy of what the first host has left has to be found: found TEXT COMMAND.., with the command in the copy
found() {
    local text=$1
    shift
    rm -rf "$folder/copy"
    mkdir "$folder/copy"
    cp "$one/plans.db" "$one/world" "$queue" "$folder/copy"
    (cd "$folder/copy" && "$@") >"$folder/out"
    if "$store" check "$folder/copy/plans.db" "$folder/copy/world" "$folder/copy/queue" >"$folder/out"; then
        fail "the check has not found: $text"
    fi
    grep -q -- "$text" "$folder/out" || { cat "$folder/out"; fail "the check has found something else than: $text"; }
}

# A command has to fail and to say why: refused TEXT COMMAND..
refused() {
    local text=$1
    shift
    if "$@" >"$folder/out" 2>&1; then
        fail "not refused: $text"
    fi
    grep -q -- "$text" "$folder/out" || { cat "$folder/out"; fail "refused for another reason than: $text"; }
}

RANDOM=$seed
queue=$folder/queue
"$store" replies "$seed" "$plans" >"$queue"
echo "seed $seed, $plans plans, $(wc -l <"$queue") lines in the queue"

paces=(0 500 1000 2000)
kill_often one 40 1
unharmed
passes "one worker, killed $killed times in all"
one=$folder/one

# A host that was never killed ends with the same rows.
fresh never
unharmed --no-sync
passes 'one worker, never killed'
for table in plan call outbox reply; do
    differing=$("$store" sql "$db" "ATTACH '$one/plans.db' AS one; SELECT
        (SELECT count(*) FROM (SELECT * FROM $table EXCEPT SELECT * FROM one.$table)) +
        (SELECT count(*) FROM (SELECT * FROM one.$table EXCEPT SELECT * FROM $table))")
    [ "$differing" -eq 0 ] || fail "$differing rows of $table differ between the killed host and this one"
done

# One writer a plan, however many workers there are.
kill_often two 20 2 --no-sync
unharmed --no-sync
passes "two workers at once, killed $killed times in all"

# WRONG on purpose, and to be found.
paces=(1000)
kill_often wrong 40 1 --no-sync --two-transactions
unharmed --no-sync --two-transactions
refused 'lines of a history that the outbox has not' "$store" check "$db" "$world" "$queue"
echo "two transactions, killed $killed times, found: $(tail -n 1 "$folder/out")"

# Plan 3 has a window. Its event comes before it; another plan's reply comes after it. The timer has done the event.
# The last reply comes at an earlier minute than the one before, as from a clock that was set back.
all=$queue
queue=$folder/timed
printf '1 0 3 16 0\n2 400 1 16 0\n3 300 1 16 1\n' >"$queue"
fresh timer
[ "$("$store" sql "$db" 'SELECT wake BETWEEN 1 AND 200 FROM plan WHERE id = 3')" = 1 ] || fail 'plan 3 has no window'
unharmed --no-sync
[ "$(grep '^3 ' "$world")" = '3 0 0 2' ] || fail 'the timer has not done event 0 of plan 3'
passes 'a window and a clock set back'
queue=$all

# Each fault by itself, made by hand.
bin=$PWD/$store
sql() { "$bin" sql plans.db "$1"; }
only_line() { awk -v plan="$1" -v line="$2" '$1 != plan || $2 != line' world >less && mv less world; }
more_replies() { echo '100000 1 1 16 0' >>queue; }
fewer_replies() { awk '$1 != 1' queue >less && mv less queue; }
other_world() { echo '1 0 15 2' >>world; }
later_reply() { awk '$1 == 1 { $2 = 100000 } { print }' queue >less && mv less queue; }
backward_world() { tac world >less && mv less world; }
found 'replies lost' more_replies
found 'replies taken that nobody sent' fewer_replies
found 'replies without their call' sql 'UPDATE reply SET n = n + 1 WHERE id = 1'
found 'calls without a reply' sql "INSERT INTO call SELECT 1, max(n) + 1, x'1000' FROM call WHERE plan = 1"
found 'replies with the call of another one' sql 'UPDATE reply SET (plan, n) = (SELECT plan, n FROM reply WHERE id = 1)
    WHERE id = 2'
found 'lines of a history that the outbox has not' sql 'DELETE FROM outbox WHERE plan = 1 AND line = 1'
found 'rows of the outbox that no history has' sql 'INSERT INTO outbox VALUES (1, 15, 0, 2, 1)'
found 'rows of the outbox not sent' sql 'UPDATE outbox SET sent = 0 WHERE plan = 1 AND line = 1'
found 'lines no office was told' only_line 1 1
found 'times an office was told what no history has' other_world
found 'lines told before an earlier one' backward_world
found 'plan 1: its sheet and its calls give another state' sql 'UPDATE plan SET (state, checksum) =
    (SELECT state, checksum FROM plan WHERE id = 2) WHERE id = 1'
found 'plans whose minute is behind their last reply' later_reply
found 'plan 1: it is to wake at another minute' sql 'UPDATE plan SET wake = 1000 WHERE id = 1'
found 'plan 1: a call is missing' sql 'DELETE FROM call WHERE plan = 1 AND n = 1'
found 'plan 1: its state is turned down with 12' "$bin" outdate plans.db 1
found 'plan 1: its state does not fit its checksum' "$bin" damage plans.db 1 1376
echo 'each fault that is made by hand is found'

# A damaged state and one that the library turns down are made again from the calls, or refused.
db=$one/plans.db
world=$one/world
"$store" damage "$db" 2 1376 | grep -q 'sinewhopa_check answers 0' || fail 'the damage is to pass number 12'
"$store" outdate "$db" 3
"$store" mend "$db" 2>"$folder/err" | grep -qx '2 plans made again' || fail 'mend'
grep -q '^plan 2: .* by its checksum; made again' "$folder/err" || fail 'mend has not seen the checksum'
grep -q '^plan 3: .* by number 12; made again' "$folder/err" || fail 'mend has not seen number 12'
passes 'damaged and mended'
cp "$db" "$folder/bad.db"
"$store" damage "$folder/bad.db" 2 1376 >"$folder/out"
"$store" sql "$folder/bad.db" 'DELETE FROM call WHERE plan = 2'
refused 'plan 2: .* the calls give another state than the stored checksum is of' "$store" mend "$folder/bad.db"
cp "$db" "$folder/bad.db"
"$store" outdate "$folder/bad.db" 3
"$store" sql "$folder/bad.db" 'DELETE FROM outbox WHERE plan = 3 AND line = 0'
refused 'plan 3: .* the calls give another history than the outbox has' "$store" mend "$folder/bad.db"

# Bad input is refused, and says so.
echo '100000 1 99 16 0' >"$folder/bad"
refused 'reply 100000: there is no plan 99' "$store" work "$db" "$world" "$folder/bad"
echo '1 1 1 18 77' >"$folder/bad"
refused 'reply 1: another reply with this id was taken before' "$store" work "$db" "$world" "$folder/bad"
echo '1 1 1 19 0' >"$folder/bad"
refused 'not a reply' "$store" work "$db" "$world" "$folder/bad"
refused 'No such file' "$store" work "$db" "$world" "$folder/none"
refused 'unable to open' "$store" work "$folder/none" "$world" "$queue"
refused 'usage' "$store" work
refused 'not an option' "$store" work --quick "$db" "$world" "$queue"
passes 'bad input'

# The document shows the tables as they are.
sed -n '/^```sql$/,/^```$/p' docs/STORING.md | sed '1d;/^```$/,$d' | cmp - <("$store" schema) ||
    fail 'docs/STORING.md shows other tables'
