# Checks the replies to counts.tl: awk -f counts.awk REPLIES. The loader's are versions 1 to 4; each of the other's names
# one of these, none less than the one before it, the last one 4, and has the runs of the counts up to that version.
BEGIN { split("0,2,0 2,3,1 3,4,2 4,5,3", run, " ") }
function wrong(what) { printf "counts.tl: line %d, %s: %s\n", NR, $0, what; bad = 1; exit }
left > 0 {
    if ($0 != run[version - left + 1]) wrong("not the run of that version")
    left--
    next
}
$1 == "a" {
    if ($0 != "a @" (++done) " ok") wrong("not the loader's next version")
    next
}
$1 == "b" {
    asked++
    was = version
    version = substr($2, 2) + 0
    if (version < 1 || version > 4 || version < was) wrong("not a version from 1 to 4 that does not fall")
    if ($3 != "rows" || $4 != version) wrong("not as many runs as versions")
    left = version
    next
}
{ wrong("no reply of either session") }
END {
    if (bad || done != 4 || asked != 4 || version != 4 || left != 0) {
        printf "counts.tl: %d batches done, %d queries answered, the last at %d\n", done, asked, version
        exit 1
    }
}
