#!/usr/bin/env bash
# Kills the program at random moments while it follows, packets of 50 commits at a time, and sees what outlives it: of each
# input all commits or none, of each one that was answered all, and a journal that begins as the leader's does. `bash
# kill_follow.sh PROGRAM [ROUNDS]`; 100 rounds unless given. It prints a row, `name, tried, wrong`.
set -uom pipefail

program=$(readlink -f "$1")
rounds=${2:-100}
inputs=60
room=$(mktemp -d)
trap 'rm -rf "$room"' EXIT
mkdir "$room/leader" "$room/copy"
cd "$room/leader" || exit 1
"$program" init </dev/null || exit 1
{
    printf 'a> CREATE TABLE t (k INT, x TEXT) KEY k\n'
    for ((key = 0; key < 50 * inputs; key++)); do printf 'a> PUT t\nk,x\n%d,"a text, of %d"\n\\.\n' "$((key % 400))" "$key"; done
} | "$program" group >/dev/null || exit 1
"$program" ship 1 1 </dev/null >first
for ((it = 0; it < inputs; it++)); do "$program" ship "$((2 + 50 * it))" "$((51 + 50 * it))" </dev/null >"packets$it"; done
cd ../copy || exit 1

# Follows one input after the other, and keeps each answer, until it is killed.
follow() {
    local it
    for ((it = 0; it < inputs; it++)); do "$program" follow <"../leader/packets$it" >>answers || return; done
}

wrong=0
for ((round = 1; round <= rounds; round++)); do
    rm -f timeline.tlj
    "$program" init </dev/null && "$program" follow <../leader/first >answers || exit 1
    follow &
    follower=$!
    sleep "0.0$((RANDOM % 90 + 10))"
    # The loop and the program that it runs are one process group.
    kill -KILL -- "-$follower" 2>/dev/null
    wait "$follower" 2>/dev/null
    # A killed program may still be ending: it has the journal's lock until it has ended.
    flock -w 10 timeline.tlj true
    answered=$(grep -oE '^follow @[0-9]+$' answers | tail -n 1)
    answered=${answered#follow @}
    if ! reply=$("$program" follow </dev/null); then
        echo "round $round: the journal does not open: $reply" >&2
        wrong=$((wrong + 1))
        continue
    fi
    found=${reply#follow @}
    # The last byte is the gate of what comes next, which is closed in the copy.
    if (((found - 1) % 50 > 0 || found < answered || found > answered + 50)); then
        echo "round $round: $answered commits were answered, and $found are there" >&2
        wrong=$((wrong + 1))
    elif ! cmp -sn "$(($(stat -c %s timeline.tlj) - 1))" timeline.tlj ../leader/timeline.tlj; then
        echo "round $round: the journal does not begin as the leader's does" >&2
        wrong=$((wrong + 1))
    fi
done
printf 'kill -9 while it follows\t%d\t%d\n' "$rounds" "$wrong"
