#!/usr/bin/env bash
# Kills the program at random moments while it runs groups of 50 commits, and sees what outlives it: of each group all
# commits or none, and of each one that was answered all. With `transact` in the place of `group` a script follows on each
# of which the last of 50 statements is refused, and nothing is to be there.
# `bash kill_group.sh PROGRAM [ROUNDS [COMMAND]]`; 100 rounds and `group` unless given. It prints a row, `name, tried, wrong`.
set -uom pipefail

program=$(readlink -f "$1")
rounds=${2:-100}
command=${3:-group}
room=$(mktemp -d)
trap 'rm -rf "$room"' EXIT
cd "$room" || exit 1
"$program" init </dev/null || exit 1
printf 'a> CREATE TABLE t (k INT) KEY k\n' | "$program" run >/dev/null || exit 1
for ((key = 0; key < 50; key++)); do printf 'a> PUT t\nk\n%d\n\\.\n' "$key"; done >script
{ head -n 196 script && printf 'a> S\n'; } >refused

# Runs one group after the other, and keeps the last line of each, until it is killed.
groups() {
    while "$program" "$command" <script >replies; do
        tail -n 1 replies >>answers
        [[ $command == group ]] || "$program" "$command" <refused >/dev/null
    done
}

answered=1
wrong=0
for ((round = 1; round <= rounds; round++)); do
    : >answers
    groups &
    loader=$!
    sleep "0.0$((RANDOM % 90 + 10))"
    # The loader and the program that it runs are one process group.
    kill -KILL -- "-$loader"
    wait "$loader" 2>/dev/null
    # A killed program may still be ending: it has the journal's lock until it has ended.
    flock -w 10 timeline.tlj true
    last=$(grep -oE '^a @[0-9]+ ok$' answers | tail -n 1)
    last=${last#a @}
    [[ -n $last ]] && answered=${last% ok}
    if ! reply=$(printf 'a> SELECT k FROM t WHERE k < 0\n' | "$program" run); then
        echo "round $round: the journal does not open: $reply" >&2
        wrong=$((wrong + 1))
        break
    fi
    found=${reply#a @}
    found=${found%% *}
    if (((found - 1) % 50 > 0 || found < answered || found > answered + 50)); then
        echo "round $round: $answered commits were answered, and $found are there" >&2
        wrong=$((wrong + 1))
    fi
    answered=$found
done
printf 'kill -9 while it runs groups by %s\t%d\t%d\n' "$command" "$rounds" "$wrong"
