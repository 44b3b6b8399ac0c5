# Which crate of how many `rt run` in the folder of GOAL is at, by what it has said in LOG so far.
# awk -v goal=GOAL -f progress.awk crates.txt LOG
# rt proves one crate after the other, each behind those that its line names, in their order, and says a line `rt: chose` as it begins one
# that has to be proved.
function visit(crate,    below, count, i) {
    if (crate in place || !(crate in stands)) return
    count = split(stands[crate], below, " ")
    for (i = 1; i <= count; i++) visit(below[i])
    if (!(crate in place)) place[crate] = ++all
}
FNR == NR && /^[a-z_]+( [^:]*)?:/ { crate = $1; sub(/:.*/, "", crate); sub(/^[^:]*:/, ""); stands[crate] = $0 }
FNR != NR && /^rt: chose --jobs [0-9]+ for [a-z_]+$/ { at = $NF }
END {
    visit(goal)
    if (at == "") print "crate 1 of " all
    else print "crate " place[at] " of " all ": " at
}
