#!/usr/bin/env bash
# Kills the program at random moments while it loads, and sees what outlives it: every commit that was answered has to
# be there, and at most the one more that was under way. `bash kill.sh PROGRAM [ROUNDS]`; 100 rounds unless given. It
# prints a row, `name, tried, wrong`. A kill ends the program and not the machine, so what the system holds back of a
# file's writes is not tried here.
set -uom pipefail

program=$(readlink -f "$1")
rounds=${2:-100}
room=$(mktemp -d)
trap 'rm -rf "$room"' EXIT
cd "$room" || exit 1
"$program" init </dev/null || exit 1
printf 'a> CREATE TABLE t (k INT) KEY k\n' | "$program" run >/dev/null || exit 1

# The number of commits that a reply tells of: version REPLY
version() {
    local number=${1#*@}
    printf '%s' "${number%% *}"
}

# Loads one batch after the other, and keeps each answer, until it is killed.
load() {
    local next=$1
    while printf 'k\n%d\n%d\n' "$next" "$((next + 1))" | "$program" load t >>answers; do next=$((next + 1)); done
}

answered=1
more=0
wrong=0
for ((round = 1; round <= rounds; round++)); do
    : >answers
    load "$answered" &
    loader=$!
    sleep "0.0$((RANDOM % 90 + 10))"
    # The loader and the program that it runs are one process group.
    kill -KILL -- "-$loader"
    wait "$loader" 2>/dev/null
    # A killed program may still be ending: it has the journal's lock until it has ended.
    flock -w 10 timeline.tlj true
    last=$(grep -E '^load @[0-9]+ ok$' answers | tail -n 1)
    [[ -n $last ]] && answered=$(version "$last")
    if ! reply=$(printf 'a> SELECT k FROM t\n' | "$program" run); then
        echo "round $round: the journal does not open: $reply" >&2
        wrong=$((wrong + 1))
        break
    fi
    found=$(version "$reply")
    if ((found < answered || found > answered + 1)); then
        echo "round $round: $answered commits were answered, and $found are there" >&2
        wrong=$((wrong + 1))
    fi
    more=$((more + found - answered))
    answered=$found
done
echo "$answered commits; $more times the commit under way was there too" >&2
printf 'kill -9 while it loads\t%d\t%d\n' "$rounds" "$wrong"
