# SPDX-License-Identifier: MPL-2.0
# awk -v jobs=N -v words='COMMAND [CRATE]' -f plan.awk part=crates crates.txt part=seconds docs/PERFORMANCE.md part=there -: what `rt COMMAND` has to do, in
# the folder of the crate, or, for ci, for all: a line each: crate, edit or program; its name; about how many seconds by the clock it adds; 'old' where rt
# will most likely find the library built already. See tools/progress, which writes the lines of standard input. The seconds come from the document's
# table. In a crate's folder rt proves one crate after the other, each library before those that stand on it. rt ci has N at work at a time, and tries
# the edits of a crate beside the proofs of others; it says what came of them at the end alone, so their seconds are counted to the crate's.

part == "crates" {
    sub(/#.*/, "")
    if (!index($0, ":")) next
    crate = substr($0, 1, index($0, ":") - 1)
    sub(/^[ \t]+/, "", crate)
    sub(/[ \t].*/, "", crate)
    listed[++crates] = crate
    below[crate] = substr($0, index($0, ":") + 1)
}

# The table that tools/check-times writes: | `crate` | proof, s | edits | its edits, s | one edit, s |
part == "seconds" && /^<!-- tools\/check-times -->$/ { inside = 1 }
part == "seconds" && /^<!-- end of tools\/check-times -->$/ { inside = 0 }
part == "seconds" && inside && /^\| *`/ {
    split($0, column, / *[|] */)
    crate = column[2]
    gsub(/`/, "", crate)
    if (column[3] != "") { proof[crate] = column[3] + 0; rows++; sum += column[3] }
    if (column[4] > 0) edit[crate] = column[5] / column[4]
}

part == "there" && $1 == "program" { program[$2] = 1 }
part == "there" && $1 == "edit" { edits[$2]++; label[$2, edits[$2]] = $3 }
part == "there" && $1 == "old" { old[$2] = 1 }

# A crate after all below it.
function need(crate,    word, n, i) {
    if (crate in needed || !(crate in below)) return
    needed[crate] = 1
    n = split(below[crate], word, " ")
    for (i = 1; i <= n; i++) need(word[i])
    order[++all] = crate
}
# Where one below it is built anew, a library is too.
function stays(crate,    word, n, i) {
    if (!(crate in old)) return 0
    n = split(below[crate], word, " ")
    for (i = 1; i <= n; i++) if (word[i] in below && !stays(word[i])) return 0
    return 1
}
function add(kind, name, time, is_old) { printf "%s %s %.1f%s\n", kind, name, time < 0.1 ? 0.1 : time, is_old ? " old" : "" }

END {
    split(words, word, " ")
    command = word[1]
    if (command !~ /^(ci|check|lib|run)$/) exit
    mean = rows ? sum / rows : 10
    if (command != "ci") {
        need(word[2])
        for (i = 1; i <= all; i++) add("crate", order[i], order[i] in proof ? proof[order[i]] : mean, order[i] != word[2] && stays(order[i]))
        exit
    }
    for (i = 1; i <= crates; i++) {
        crate = listed[i]
        time = crate in proof ? proof[crate] : mean
        add("crate", crate, (time + edits[crate] * (crate in edit ? edit[crate] : time)) / jobs)
    }
    for (i = 1; i <= crates; i++) for (k = 1; k <= edits[listed[i]]; k++) print "edit", listed[i] "/" label[listed[i], k], 0
    for (i = 1; i <= crates; i++) if (listed[i] in program) print "program", listed[i], 0
}
