#!/usr/bin/env bash
# Loads a large CSV file into a table, so many lines a batch, with a GO after each thousand batches or 16 MiB, so that
# no phase grows large; what was loaded is told after each thousand batches. Where it was killed, run it again: it goes
# on after the batches that are there. `bash examples/long_load.sh FILE TABLE [LINES]`; 1,000 lines a batch unless
# given. Each row stands on one line, and the first one names the columns.
#
# How far a load came is kept in the journal, in a table long_load: after each batch the run puts there the file's name,
# size and checksum, the lines of a batch and the batch's number. So at most one batch is there without its mark, the
# one that was committed right after the last mark, and it is known by its rows. While one file is not loaded whole,
# another one is refused for that table, until `bash examples/long_load.sh --give-up TABLE`. Where a batch is refused the
# others are loaded, TABLE.load.refused names it, and no further load of that table begins while that file is there.
set -euo pipefail

timeline=$(dirname "$(readlink -f "${BASH_SOURCE[0]}")")/../timeline

# The reply to a statement, and the rows of a query.
ask() { "$timeline" --wait --strict run <<<"long> $1"; }
rows() { ask "$1" | tail -n +2; }

if [[ $1 == --give-up ]]; then
    printf 'long> REMOVE long_load\nload\n%s\n\\.\n' "$2" | "$timeline" --wait --strict run >/dev/null
    printf 'the load of %s is given up\n' "$2"
    exit
fi
file=$1 table=$2 lines=${3:-1000}
refused=$table.load.refused
name=${file//\"/\"\"}
size=$(stat -Lc %s "$file")
sum=$(sha256sum <"$file" | cut -c 1-64)

# Says which batches were refused, and what to do.
stop_at_refusals() {
    {
        cat "$refused"
        printf 'all other batches of %s are loaded: mend the lines of these, put them with ./timeline load %s,' "$file" "$table"
        printf ' and remove %s\n' "$refused"
    } >&2
    exit 20
}

# The statement that marks how far the load came: mark BATCH
mark() {
    printf 'load> PUT long_load\nload,file,size,sum,lines,batch\n%s,"%s",%s,%s,%s,%s\n\\.\n' \
        "$table" "$name" "$size" "$sum" "$lines" "$1"
}

# The lines of a batch, in order of bytes: batch NUMBER
batch() { tail -n "+$((2 + ($1 - 1) * lines))" "$file" | head -n "$lines" | tr -d '\r' | LC_ALL=C sort; }

# Whether the commit after a version put the rows of a batch and no others: was_put VERSION BATCH
was_put() {
    local columns before after
    columns=$(head -n 1 "$file" | tr -d '\r"' | sed 's/^\xef\xbb\xbf//')
    before=$(rows "SELECT $columns FROM $table AS OF $1" | LC_ALL=C sort)
    after=$(rows "SELECT $columns FROM $table AS OF $(($1 + 1))" | LC_ALL=C sort)
    [[ $(LC_ALL=C comm -13 <(printf '%s\n' "$before") <(printf '%s\n' "$after")) == "$(batch "$2")" ]]
}

if [[ -s $refused ]]; then stop_at_refusals; fi
loaded=0
made=$("$timeline" --wait run <<<'long> CREATE TABLE long_load (load TEXT, file TEXT, size INT, sum TEXT, lines INT, batch INT) KEY load' 2>/dev/null) ||
    { printf '%s\n' "$made" >&2 && exit 1; }
case $made in
    *' ok') ;;
    *'! TableExists')
        # The last row of the table's load: the version at which it began, and what it says.
        last=$(rows "JOIN long_load WHERE load = '$table' WITH long_load ON load = load OVER SYSTEM ALL" | tail -n 1)
        reply=$(ask "SELECT size, sum, lines, batch FROM long_load WHERE load = '$table'")
        if [[ $reply == *' rows 1'* ]]; then
            known=${reply##*$'\n'}
            loaded=${known##*,}
            if [[ ${known%,*} != "$size,$sum,$lines" ]]; then
                printf 'another load of %s came to batch %d: run it again as it was, with the same file and lines a batch,' "$table" "$loaded" >&2
                printf ' or give it up: bash examples/long_load.sh --give-up %s\n' "$table" >&2
                exit 1
            fi
            version=${last%%,*} now=${reply#long @}
            if ((${now%% *} > version)) && was_put "$version" "$((loaded + 1))"; then loaded=$((loaded + 1)); fi
        fi
        ;;
    *)
        printf '%s\n' "$made" >&2
        exit 1
        ;;
esac
printf '%d batches are loaded\n' "$loaded"
status=0
{
    mark "$loaded"
    MARK=$(mark BATCH) awk -v table="$table" -v lines="$lines" -v loaded="$loaded" '
        BEGIN { mark = ENVIRON["MARK"] }
        NR == 1 { header = $0; next }
        NR - 1 <= loaded * lines { next }
        count == 0 { printf "load> PUT %s\n%s\n", table, header; bytes += length(header) + length(mark) + 80 }
        { print; bytes += length($0) + 1; if (++count == lines) close_batch() }
        function close_batch(   text) {
            print "\\."
            count = 0
            text = mark
            batches++
            sub(/,BATCH\n/, "," loaded + batches "\n", text)
            print text
            if (batches % 1000 == 0 || bytes > 16777216) { print "GO"; bytes = 0 }
        }
        END { if (count > 0) close_batch() }' "$file"
} | "$timeline" --wait --strict run |
    awk -v loaded="$loaded" -v lines="$lines" -v refused="$refused" '
    # The first reply is that of the mark, and then each batch has one and its mark.
    !/^load / || NR % 2 == 1 { next }
    { batches++ }
    /^load @[0-9]* ! / && !/ ! (device|broken)$/ {
        first = (loaded + batches - 1) * lines + 2
        printf "batch %d, lines %d to %d: %s\n", loaded + batches, first, first + lines - 1, $0 >refused
    }
    batches % 1000 == 0 { print batches " more batches are loaded"; fflush() }' || status=$?
if ((status && status != 20)); then exit "$status"; fi
printf 'long> REMOVE long_load\nload\n%s\n\\.\n' "$table" | "$timeline" --wait --strict run >/dev/null
if [[ -s $refused ]]; then stop_at_refusals; fi
printf 'all of %s is loaded\n' "$file"
