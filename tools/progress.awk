# SPDX-License-Identifier: MPL-2.0
# One look at how far rt is, by what tools/plan.awk says that it has to do and by what its log says: see tools/progress, whose variables these are:
# name, lines, moving, colour, columns, began, now, ended, status; and state, a file with what an earlier look left for this one.
#     shown    how many lines of the log have been shown
#     told     how many of the crates that are done have had their line
#     weight   the seconds, by the plan, of what was done when something was done last
#     at       how many seconds had gone when that was

BEGIN {
    getline < state
    shown = $1; told = $2; weight = $3; at = $4
    close(state)
    gone = now - began
}
part == "plan" {
    item = $1 " " $2
    planned[++items] = item
    seconds[item] = $3
    of[$1]++
    if ($4 == "old") old[item] = 1
}
part == "log" { line[++count] = $0 }

# ---- what the log says

# A line without its end may still grow; one that ends like this does not.
function whole(i) { return i < count || ended || line[i] ~ /^rt: .*( proved|same libraries|stdout has)$|^logic=[a-z-]+( |$)/ }

# What a line says is done: a crate, an edit or a program, and how that went. In a crate's folder rt names a crate when it begins with it, and its last
# line is the prover's; rt ci names what it has done.
function judge(text,    word, what) {
    split(text, word, " ")
    how = ""
    if (text ~ /^rt: must-fail [^ ]+: /) {
        what = word[3]
        sub(/(\.edit)?:$/, "", what)
        how = text ~ /: refused, as it must be/ ? "is refused" : "is NOT refused"
        return "edit " what
    }
    if (text ~ /^rt: [^ ]+ ran[ ,]/) {
        how = "has run"
        return "program " word[2]
    }
    if (text ~ /^rt: [^ :]+ (NOT PROVED|proved$)/) {
        how = text ~ / NOT PROVED/ ? "is NOT proved" : "is proved"
        return "crate " word[2]
    }
    if (text ~ /^rt: [^ :]+ is kept: /) {
        how = "unchanged"
        return "crate " word[2]
    }
    if (text ~ /^rt: chose --jobs [0-9]+ for [^ ]+$/) {
        busy = word[6]
        return ""
    }
    if (text ~ /^logic=/ && busy != "") {
        how = text ~ /^logic=proved/ ? "is proved" : "is NOT proved"
        what = busy
        busy = ""
        return "crate " what
    }
    return ""
}
function finish(item, told_how) {
    done[item] = told_how
    number[item] = ++done_of[kind_of(item)]
    doing[++dones] = item
    if (told_how == "unchanged") unchanged++
    else { last = item; heavy += seconds[item] }
}
# The crates that the plan has before one that rt is at, and of which it has said nothing: they were built before.
function passed_over(place,    i) {
    for (i = 1; i < place; i++) if (!(planned[i] in done)) finish(planned[i], "unchanged")
}
function place_of(item,    i) { for (i = 1; i <= items; i++) if (planned[i] == item) return i; return 0 }
function read_log(    i, item) {
    for (i = 1; i <= count; i++) {
        if (!whole(i)) break
        item = judge(line[i])
        if (busy != "") passed_over(place_of("crate " busy))
        if (!(item in seconds) || item in done) continue
        finish(item, how)
        # Where rt does prove one that was taken for old, the others are no longer taken for that.
        if (how != "unchanged" && item in old) stale = 1
    }
    if (ended && status == 0) passed_over(items + 1)
}
function kind_of(item) { return substr(item, 1, index(item, " ") - 1) }
function name_of(item) { return substr(item, index(item, " ") + 1) }

# ---- how long it takes

# What is left by the plan, as fast as it has gone so far. The plan itself counts for twenty seconds of that, so that the first small crates decide nothing.
function reckon(    i, item, rest, scale) {
    if (heavy > weight + 0) { weight = heavy; at = gone }
    for (i = 1; i <= items; i++) {
        item = planned[i]
        if (!(item in done) && (stale || !(item in old))) rest += seconds[item]
    }
    scale = (at + 20) / (weight + 20)
    left = rest * scale - (gone - at)
    if (left < 0) left = 0
    all_done = dones >= items
    # Only edits and programs are left, of which rt says nothing before it has tried all.
    unknown = done_of["crate"] + 0 == of["crate"] + 0
}
function clock(s) { return s < 100 ? s " s" : int(s / 60) " min " s % 60 " s" }
function about() {
    if (all_done || unknown) return ""
    if (left < 10) return ", a few seconds left"
    if (left < 55) return ", about " 10 * int(left / 10 + 0.5) " s left"
    if (left < 90) return ", about a minute left"
    return ", about " int(left / 60 + 0.5) " min left"
}
function times() { return clock(gone) " gone" (items ? about() : "") }

# ---- what is shown

function wipe() { return moving ? "\r\033[K" : "" }

# Whether a line says no more than that a single function is proved, or what was loaded for that, or which crate it is of.
function is_noise(text) {
    return text ~ /^[a-z]+ [^ ]+: proved(, .*)?$|^(library|statements|crate) [^ ]+: modules |^logic \/|^logic=proved |^axioms [^ ]+: |^linked target=|^== |^empty contracts: 0 |^tests?: |^test .* ok(\.|$)/
}

# The lines of rt, up to each of its own, which ends what it says of a crate. Left out is what says little; the notes too, but where the crate is not
# proved, for then they may say why.
function show(    i, last_one, bad, good) {
    for (i = shown + 1; i <= end; ) {
        for (last_one = i; last_one < end && line[last_one] !~ /^rt: /; last_one++) ;
        judge(line[last_one])
        bad = how == "is NOT proved" || (how == "" && ended && status != 0)
        good = how == "unchanged" || how ~ /^(is|has) [a-z]/
        for (; i <= last_one; i++) {
            if (is_noise(line[i])) continue
            if (line[i] ~ /(^|: )note: / && line[i] !~ /^rt: / && !bad) continue
            if (moving && good && i == last_one) continue
            print wipe() line[i]
            fresh = 1
        }
    }
    shown = end
}

# How many of each kind are done, for a group of rt's own lines.
function tally(    text) {
    text = done_of["crate"] + 0 " of " of["crate"] " crates"
    if (of["edit"] && done_of["crate"] == of["crate"]) text = text ", " done_of["edit"] + 0 " of " of["edit"] " edits"
    return text
}
function plain_lines(    i, item) {
    if (lines) {
        if (fresh && !all_done && !ended) print name ": " tally() "; " times()
        return
    }
    for (i = told + 1; i <= dones; i++) {
        item = doing[i]
        if (kind_of(item) == "crate" && done[item] != "unchanged") print name ": crate " number[item] " of " of["crate"] ", " name_of(item) ", " done[item] "; " times()
    }
    told = dones
}

# The line that is drawn anew: a bar, what was done last, and the times. It never reaches the last column, where a terminal would go on to the next line.
function moving_line(    most, bar, full, i, text, item, room) {
    most = (columns > 20 ? columns : 80) - 1
    full = gone + left > 0 ? int(10 * gone / (gone + left)) : 0
    for (i = 1; i <= 10; i++) bar = bar (i <= full ? "#" : ".")
    if (of["edit"] && unknown && !done_of["edit"]) text = of["crate"] " crates, trying " of["edit"] " edits"
    else if (last == "") text = of["crate"] ? of["crate"] " crates to prove" : "proving"
    else text = kind_of(last) " " number[last] " of " of[kind_of(last)] ", " name_of(last)
    room = most - length(name ": [" bar "] ; " times())
    if (length(text) > room) text = room > 3 ? substr(text, 1, room - 2) ".." : ""
    text = substr(name ": [" bar "] " text "; " times(), 1, most)
    if (colour) { sub(/#+/, "\033[32m&\033[0m", text) }
    printf "%s%s", wipe(), text
}

# The last word, where rt has not its own: how many crates are proved, and how many of them were before.
function summary(    text) {
    text = of["crate"] == 1 ? "1 crate is proved" : of["crate"] " crates are proved"
    if (unchanged) text = text (unchanged == of["crate"] ? ", as before" : ", " unchanged " of them before")
    print name ": " text "; " clock(gone)
}

END {
    # Up to the last line of rt's own, with which it ends what it says of a crate; when it has ended, up to the last.
    for (end = count; end > 0 && !ended && !(line[end] ~ /^rt: / && whole(end)); end--) ;
    read_log()
    reckon()
    if (ended) printf "%s", wipe()
    if (lines) show()
    if (!moving) plain_lines()
    else if (!ended) moving_line()
    if (ended && status == 0 && !lines && of["crate"]) summary()
    print shown + 0, told + 0, weight + 0, at + 0 > state
}
