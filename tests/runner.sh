#!/usr/bin/env bash
# What a runner program says when something goes wrong: its status, standard output and standard error, case by case.
# Fails at the first difference. Usage: runner.sh [RUNNER [STATUS]]
set -eu

runner=${1:-"$(dirname "$0")/../target/bin/runner"}
if [ ! -f "$runner" ] || [ ! -x "$runner" ]; then
    echo "no program at $runner" >&2
    exit 1
fi

# Another user has to reach the folder and the program, so the program is copied there.
folder=$(mktemp -d)
trap 'rm -rf "$folder"' EXIT
cp "$runner" "$folder/runner"
chmod 755 "$folder" "$folder/runner"

# The status after a failure: 0 of `runner`, which always ends with it, 1 of the program with a status.
failed=${2:-0}

case_a='events 2 rules 2
0 done
1 done
held 0
broken 0
refused calls 0
'
no_calls='events 2 rules 2
held 0
broken 0
refused calls 0
'
one_held='events 2 rules 2
held 1
broken 0
refused calls 0
'

# A folder with case A in it.
fresh() {
    rm -rf "$folder/case"
    mkdir -m 755 "$folder/case"
    cd "$folder/case"
    printf '\001\000\006\001\001\006\002\000\001\003\000\001\005' >sheet.bin
    printf '\020\000\020\001' >calls.bin
}

# So many times case A's event 0 handed in: two bytes each.
submits() {
    head -c "$1" /dev/zero | sed 's/\x00/\x10\x00/g'
}

# Runs a command and compares: expect NAME STATUS REPORT LINE COMMAND..
expect() {
    local name=$1 wanted=$2 report=$3 line=$4 status=0
    shift 4
    "$@" >"$folder/out" 2>"$folder/err" || status=$?
    printf '%s' "$report" >"$folder/report"
    printf '%s' "${line:+$line
}" >"$folder/line"
    if [ "$status" -ne "$wanted" ] || ! cmp -s "$folder/out" "$folder/report" || ! cmp -s "$folder/err" "$folder/line"; then
        echo "DIFFERENT: $name: status $status, $wanted wanted; then the differences in standard output and in standard error"
        diff "$folder/report" "$folder/out" || true
        diff "$folder/line" "$folder/err" || true
        exit 1
    fi
    echo "as expected: $name"
}

# The program as a user whom a file's mode binds; root passes every permission.
bound() {
    if [ "$(id -u)" -ne 0 ]; then
        ../runner
    elif setpriv --reuid=65534 --regid=65534 --clear-groups true 2>/dev/null; then
        setpriv --reuid=65534 --regid=65534 --clear-groups ../runner
    elif su -s /bin/sh nobody -c true 2>/dev/null; then
        su -s /bin/sh nobody -c ../runner
    else
        echo "no other user can be had, by setpriv or by su, so a permission cannot be tested"
        return 2
    fi
}

onto_full() { ../runner >/dev/full; }

onto_closed() { ../runner >&-; }

# A pipe whose reader has gone, with the signal of that left at its default, or ignored.
onto_pipe() (
    rm -f ../pipe
    mkfifo ../pipe
    exec 3<>../pipe 4>../pipe 3>&-
    env "--$1-signal=PIPE" ../runner >&4
)

# A file that may grow by 24 bytes and no more; then what it has grown by.
onto_last_bytes() (
    status=0
    head -c 1000 /dev/zero >../grown
    (ulimit -f 1 && env --ignore-signal=XFSZ ../runner >>../grown) || status=$?
    tail -c +1001 ../grown
    exit $status
)

fresh
expect 'both files' 0 "$case_a" '' ../runner

fresh && rm calls.bin
expect 'no calls.bin' 0 "$no_calls" '' ../runner
fresh && rm sheet.bin
expect 'no sheet.bin' 0 $'refused 1 at 0\n' '' ../runner
fresh && rm sheet.bin calls.bin
expect 'neither file' 0 $'refused 1 at 0\n' '' ../runner

for file in sheet.bin calls.bin; do
    fresh && rm $file && mkdir $file
    expect "$file is a folder" $failed '' "$file: Is a directory" ../runner
    fresh && rm $file && ln -s $file $file
    expect "$file is a link to itself" $failed '' "$file: Too many levels of symbolic links" ../runner
    fresh && chmod 000 $file
    expect "$file may not be read" $failed '' "$file: Permission denied" bound
    fresh && ln -sf /proc/self/mem $file
    expect "$file fails while it is read" $failed '' "$file: Input/output error" ../runner
done
fresh && rm sheet.bin calls.bin && mkdir sheet.bin calls.bin
expect 'both files are folders: the first is named' $failed '' 'sheet.bin: Is a directory' ../runner

fresh && submits 32768 >calls.bin
expect 'calls.bin has 65,536 bytes' 0 "$one_held" '' ../runner
printf '\020' >>calls.bin
expect 'calls.bin has 65,537 bytes' 0 "$one_held" 'calls.bin: more than 65,536 bytes; the rest is not read' ../runner
submits 100000 >calls.bin
expect 'calls.bin has 200,000 bytes' 0 "$one_held" 'calls.bin: more than 65,536 bytes; the rest is not read' ../runner
fresh && head -c 65523 /dev/zero >>sheet.bin
expect 'sheet.bin has 65,536 bytes' 0 $'refused 8 at 13\n' '' ../runner
printf '\005' >>sheet.bin
expect 'sheet.bin has 65,537 bytes' 0 $'refused 8 at 13\n' 'sheet.bin: more than 65,536 bytes; the rest is not read' ../runner

fresh
expect 'the output is full' $failed '' 'standard output: No space left on device' onto_full
expect 'the output is closed' $failed '' 'standard output: Bad file descriptor' onto_closed
expect 'the output takes 24 bytes' $failed "${case_a:0:24}" 'standard output: File too large' onto_last_bytes
expect 'nobody reads the output, and the signal is ignored' $failed '' 'standard output: Broken pipe' onto_pipe ignore
# The kit has each program ignore the signal, so it is the same where the signal was at its default.
expect 'nobody reads the output' $failed '' 'standard output: Broken pipe' onto_pipe default
