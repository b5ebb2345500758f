#!/usr/bin/env bash
# Runs the program on a full disk, on files that it may not read or write, on a folder in the journal's place, with an
# output that is closed, and with an input that stops: each has its status and closing line, and what was answered before
# has to stand. `bash disk.sh PROGRAM COMMAND`; it prints a row for each, `name, tried, wrong`. It makes a small file system of
# its own where it may (`unshare`), and says so where it may not.
set -uo pipefail

program=$(readlink -f "$1")
command=$(readlink -f "$2")

# Compares, and prints a row: wanted NAME WANTED GOT
wanted() {
    local wrong=0
    if [[ $2 != "$3" ]]; then
        wrong=1
        printf '%s: wanted\n%s\nand got\n%s\n' "$1" "$2" "${3:0:400}" >&2
    fi
    printf '%s\t1\t%d\n' "$1" "$wrong"
}

# A run on a disk of 64 KiB: the first batch has room, the second has none.
full_disk() {
    local room
    room=$(mktemp -d)
    mount -t tmpfs -o size=64k none "$room" || return 125
    cd "$room" || return 125
    "$program" init </dev/null
    {
        printf 'a> CREATE TABLE t (k INT) KEY k\na> PUT t\nk\n1\n\\.\na> PUT t\nk\n'
        seq 2 20000
        printf '\\.\na> PUT t\nk\n7\n\\.\na> SELECT k FROM t\n'
    } | "$program" run
    echo "status $?"
    printf 'a> SELECT k FROM t\n' | "$program" run
    echo "status $?"
}

# A disk that is full from the start: no journal is made.
no_room() {
    local room
    room=$(mktemp -d)
    mount -t tmpfs -o size=4k none "$room" || return 125
    cd "$room" || return 125
    head -c 8192 /dev/zero >filler 2>/dev/null
    "$program" init </dev/null
    echo "status $?"
}

full=$'a @1 ok\na @2 ok\na @2 ! device\na @2 ! broken\na @2 rows 1\n1\n! device\nstatus 5\na @2 rows 1\n1\nstatus 0'
if unshare -rm true 2>/dev/null; then
    export -f full_disk no_room
    export program
    wanted "a disk that fills up" "$full" "$(unshare -rm bash -c full_disk)"
    wanted "a disk that is full" $'! device\nstatus 5' "$(unshare -rm bash -c no_room)"
else
    echo "a full disk: not tried, unshare may not make a file system here" >&2
    printf 'a full disk\t0\t0\n'
fi

room=$(mktemp -d)
trap 'chmod -R u+rwx "$room"; rm -rf "$room"' EXIT
cd "$room" || exit 1
cp "$program" program
chmod 777 .
# Root may read and write every file: where the script is run by root, the program is run as nobody.
as_nobody=()
[[ $(id -u) -eq 0 ]] && as_nobody=(setpriv --reuid=65534 --regid=65534 --clear-groups)
"${as_nobody[@]}" ./program init </dev/null
for mode in 000 200 400; do
    chmod "$mode" timeline.tlj
    wanted "a journal of mode $mode" $'! device\nstatus 5' "$("${as_nobody[@]}" ./program run </dev/null; echo "status $?")"
done
chmod 600 timeline.tlj
wanted "the journal afterwards" 'status 0' "$("$program" run </dev/null; echo "status $?")"
rm timeline.tlj

mkdir timeline.tlj
wanted "a folder in the journal's place" $'! device\nstatus 5' "$("$program" run </dev/null; echo "status $?")"
rmdir timeline.tlj
mkdir closed
"$program" init </dev/null
chmod 555 .
wanted "a folder that may not be written to" 'status 0' "$("${as_nobody[@]}" ./program sample 1 1 >/dev/null; echo "status $?")"
chmod 777 .

create='a> CREATE TABLE t (k INT) KEY k'
# The reader of the output is gone before the first reply.
printf '%s\n' "$create" | { sleep 0.2; "$program" run; echo "status $?" >ended; } | true
sleep 0.5
wanted "an output that is closed" 'status 4' "$(cat ended)"
wanted "its commit" $'a @1 rows 0\nstatus 0' "$(echo 'a> SELECT k FROM t' | "$program" run; echo "status $?")"
wanted "an output that is full" 'status 4' "$(echo 'a> SELECT k FROM t' | "$program" run >/dev/full; echo "status $?")"
wanted "an output that is full at a refusal" 'status 4' "$(printf 'a> MOMENT 1\na> S\n' | "$program" transact >/dev/full; echo "status $?")"
wanted "what it left" $'a @1 rows 0\nstatus 0' "$(echo 'a> SELECT k FROM t' | "$program" run; echo "status $?")"
wanted "an output that is not open" 'status 4' "$(echo 'a> SELECT k FROM t' | "$command" run >&-; echo "status $?")"
wanted "an input that is not open" $'! source\nstatus 3' "$("$command" run <&-; echo "status $?")"
wanted "an input that is a folder" $'! source\nstatus 3' "$("$program" run <.; echo "status $?")"
wanted "an input that stops in a block" $'! script BlockOpen 1\nstatus 6' \
    "$(printf 'a> PUT t\nk\n1' | "$program" run; echo "status $?")"
wanted "an input that stops in a line" $'a @1 ! Unexpected 8\nstatus 0' \
    "$(printf 'a> SELECT k' | "$program" run; echo "status $?")"
wanted "an input that waits, and goes on" $'a @2 ok\na @2 rows 1\n5\nstatus 0' \
    "$({ printf 'a> PUT t\nk\n'; sleep 0.3; printf '5\n\\.\nGO\na> SELECT k F'; sleep 0.3; printf 'ROM t\n'; } |
        "$program" run; echo "status $?")"
