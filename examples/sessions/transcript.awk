# Checks the replies to a script of script.sh against the script: awk -f transcript.awk SCRIPT REPLIES
# It says what is wrong and ends with 1 where
# - a statement has no reply of its session in the order of lines, or another than `ok` or rows;
# - a batch names no version of its own, or the versions named by batches have a gap;
# - a version falls within a session, a batch's is not greater than each before it of its session, or a version is lesser
#   than one that an earlier phase named;
# - rows at a version are not just the keys that batches put into the table up to that version.
FNR == NR {
    if (/^GO$/) { phase++; next }
    if (match($0, /^[a-z0-9]+> /)) {
        n++
        who[n] = substr($0, 1, RLENGTH - 2)
        in_phase[n] = phase
        at = n
        if ($2 == "CREATE") { kind[n] = "make"; table[n] = $4 }
        if ($2 == "PUT") { kind[n] = "put"; table[n] = $3; header = 1 }
        if ($2 == "SELECT") { kind[n] = "ask"; table[n] = $5 }
        next
    }
    if ($0 == "\\.") next
    if (header) { header = 0; next }
    split($0, cell, ",")
    count[at]++
    keys[at] += cell[1]
    next
}
function wrong(what) { printf "%s: reply %d, of %s: %s\n", ARGV[1], m, who[m], what; bad = 1 }
left > 0 { left--; sum[m] += $1; next }
{
    m++
    if (m > n) { wrong("there are more replies than statements"); exit }
    if ($1 != who[m]) wrong("it is of " $1)
    version[m] = substr($2, 2) + 0
    if (kind[m] == "ask") {
        if ($3 != "rows") { wrong("no rows, but " $0); exit }
        rows[m] = left = $4 + 0
    } else {
        if ($3 != "ok") { wrong("not ok, but " $0); exit }
        if (version[m] in maker) wrong("its version is that of another batch")
        maker[version[m]] = m
        if (version[m] > last) last = version[m]
    }
}
END {
    if (bad) exit 1
    if (m != n) { printf "%s: %d replies to %d statements\n", ARGV[1], m, n; exit 1 }
    for (v = 1; v <= last; v++)
        if (!(v in maker)) { printf "%s: no batch names version %d\n", ARGV[1], v; exit 1 }
    for (m = 1; m <= n; m++) {
        if (in_phase[m] != now) { now = in_phase[m]; floor = top }
        if (version[m] < floor) wrong("a lesser version than an earlier phase named")
        if (version[m] < named[who[m]]) wrong("the version falls")
        if (kind[m] != "ask" && who[m] in named && version[m] <= named[who[m]]) wrong("the version does not rise")
        named[who[m]] = version[m]
        if (version[m] > top) top = version[m]
    }
    for (v = 1; v <= last; v++) {
        b = maker[v]
        so_far[table[b]] += count[b]
        key_sum[table[b]] += keys[b]
        if (kind[b] == "make") so_far[table[b]] = 0
        for (t in so_far) { rows_at[t, v] = so_far[t]; sum_at[t, v] = key_sum[t] }
    }
    for (m = 1; m <= n; m++) {
        if (kind[m] != "ask") continue
        if (rows[m] != rows_at[table[m], version[m]]) wrong("not the number of rows of that version")
        if (sum[m] != sum_at[table[m], version[m]]) wrong("not the keys of that version")
    }
    exit bad
}
