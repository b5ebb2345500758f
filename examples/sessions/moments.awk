# Checks the replies to moments.tl against it: awk -f moments.awk moments.tl REPLIES. It says what is wrong, and ends
# with 1, where
# - the versions of the batches that are answered `ok` have a gap, or one stands twice, or a version falls in a session;
# - a moment is stated that does not rise, or refused where it would, or with another moment than the last one;
# - a floor is set that does not rise, or refused where it would, or with another floor;
# - rows at a moment are not those of the last version before a greater moment was stated.
function wrong(what) { printf "%s: reply %d, of %s: %s\n", ARGV[1], m, who[m], what; bad = 1 }
# The last moment and the floor that stand at a version.
function moment_at(version,   v, last) { last = -1; for (v = 1; v <= version; v++) if (v in stated) last = stated[v]; return last }
function floor_at(version,   v, last) { last = 0; for (v = 1; v <= version; v++) if (v in floors) last = floors[v]; return last }
# The version that a moment stands for, and the rows there: the loader's keys are 0, 1, ..
function version_at(moment, now,   v) { for (v = 1; v <= now; v++) if (v in stated && stated[v] > moment) return v - 1; return now }
function rows_at(version,   v, count) { for (v = 1; v <= version; v++) count += v in puts; return count + 0 }
FNR == NR {
    if (/^[a-z]+> /) {
        n++
        who[n] = substr($1, 1, length($1) - 1)
        kind[n] = $2
        number[n] = $NF + 0
        by_moment[n] = $(NF - 1) == "MOMENT"
    }
    next
}
left > 0 { left--; if ($0 != before[m] - left - 1 && kind[m] == "SELECT") wrong("another key than the loader put"); next }
{
    m++
    at[m] = substr($2, 2) + 0
    if ($1 != who[m]) wrong("it is of " $1)
    if (at[m] < seen[$1]) wrong("the version falls")
    seen[$1] = at[m]
    word[m] = $3 == "!" ? $4 : $3
    before[m] = left = $3 == "rows" ? $4 + 0 : 0
    told[m] = $NF + 0
    if ($3 != "ok") next
    if (at[m] in done) wrong("its version is that of another batch")
    done[at[m]] = 1
    if (at[m] > last) last = at[m]
    if (kind[m] == "MOMENT") stated[at[m]] = number[m]
    if (kind[m] == "FORGET") floors[at[m]] = number[m]
    if (kind[m] == "PUT") puts[at[m]] = 1
}
END {
    if (m != n) { printf "%s: %d replies to %d statements\n", ARGV[1], m, n; exit 1 }
    for (v = 1; v <= last; v++) if (!(v in done)) wrong("no batch has version " v)
    for (m = 1; m <= n; m++) {
        v = at[m]
        if (kind[m] == "MOMENT" && word[m] == "ok" && number[m] <= moment_at(v - 1)) wrong("a moment that does not rise")
        if (word[m] == "MomentFalls" && (number[m] > moment_at(v) || told[m] != moment_at(v))) wrong("a moment that is refused")
        if (kind[m] == "FORGET" && word[m] == "ok" && (number[m] <= floor_at(v - 1) || number[m] >= v)) wrong("a floor that does not rise")
        if (word[m] == "FloorFalls" && (number[m] > floor_at(v) || told[m] != floor_at(v))) wrong("a floor that is refused")
        if (kind[m] != "SELECT") continue
        asked = by_moment[m] ? version_at(number[m], v) : number[m]
        if (asked < floor_at(v)) { if (word[m] != "Forgotten" || told[m] != floor_at(v)) wrong("a version that is forgotten") }
        else if (word[m] != "rows" || before[m] != rows_at(asked)) wrong("not the rows of version " asked)
    }
    if (word[n] != "rows") wrong("no rows")
    exit bad
}
