# SPDX-License-Identifier: MPL-2.0
# awk -v all= -v moving= -v colour= -v gap= -f picture.awk part=table TABLE part=heads HEADS part=answers ANSWERS: see tools/picture.
# A frame is the lines of one row as it stands; the row is drawn anew, frame by frame, for each message that comes while it is the last one.
# The width of a line is counted without its colours.

part == "table" && /^[0-9]/ {
    split($0, column, / *[|] */)
    sentence[column[1]] = plain(column[3])
}
part == "heads" { heads++; type[heads] = $1; sequence[heads] = $2; place[heads] = $3; count[heads] = $4; size[heads] = $5 }
part == "answers" { answers++; word[answers] = $1; number[answers] = $2 }

# Signs that not every terminal has.
function plain(text) { gsub("−", "-", text); gsub("×", "x", text); return text }
# Thousands are set apart by a comma.
function thousands(n) { n = n ""; while (n ~ /[0-9][0-9][0-9][0-9]/) n = substr(n, 1, match(n, /[0-9][0-9][0-9](,|$)/) - 1) "," substr(n, RSTART); return n }
function times(n, what) { return n " " what (n == 1 ? "" : "s") }
function paint(code, text) { return colour && code != "" ? "\033[" code "m" text "\033[0m" : text }
function spaces(n) { return sprintf("%" n "s", "") }

# ---- the whole list

function kind_of(m) { return type[m] == 1 ? "Discovery" : type[m] == 2 ? "Connect" : type[m] == 4 ? "Session" : "type " type[m] }
function list(    m, nth) {
    for (m = 1; m <= heads; m++) {
        nth = place[m] == "-" ? "-" : place[m] + 1
        printf "message %d: %s, sequence %s, piece %s of %s, %s bytes: %s", m, kind_of(m), sequence[m], nth, count[m], thousands(size[m]), word[m]
        if (number[m] != "") printf " %s", number[m]
        print (word[m] == "refused" ? " (" sentence[number[m]] ")" : "")
    }
}

# ---- a frame

# Puts a text at the end of the frame's last line.
function put(text, code) { width += length(text); frame[lines] = frame[lines] paint(code, text) }
function new_line() { frame[++lines] = ""; width = 0 }
function go_to(column) { if (width < column) put(spaces(column - width)) }

# A cell of the row: filled, or still empty. Colour makes a tile of it, else strokes stand around it.
function first_stroke() { if (!colour) put("|") }
function cell(text, filled, code) {
    if (filled) put(text, code)
    else { gsub(/./, ".", text); put(text, "2") }
    put(colour ? " " : "|")
}

# Puts a part of the text beside the cells; what does not fit goes on below them.
function say(text, code, separator) {
    if (width + length(separator) + 1 + length(text) > 79) {
        put(separator)
        new_line()
        go_to(label)
    } else if (said) {
        put(separator " ")
    }
    put(text, code)
    said = 1
}

# What was counted beside the cells, from the column where every short row has it, or below.
function counts(    n, separator, first) {
    if (width < beside) go_to(beside)
    else { new_line(); go_to(label) }
    said = 0
    separator = ""
    if (report != "") { say(bytes != "" ? thousands(bytes) " bytes" : arrived " of " cells " pieces", bytes != "" ? "1" : ""); separator = "," }
    if (repeats) { say(times(repeats, "repeat"), "33", separator); separator = "," }
    if (agains) { say(agains " again", "36", separator); separator = "," }
    if (failed) { say("certificate not accepted", "31", separator); separator = "," }
    first = "refused "
    for (n = 1; n <= 25; n++)
        if (refused[n]) {
            say(first n (refused[n] > 1 ? "x" refused[n] : ""), n == refused_now ? "1;37;41" : "31", separator)
            first = separator = ""
        }
}

function make_frame(    i) {
    lines = 0
    new_line()
    put(report == "" ? "enrolment" : "report " report, "1")
    go_to(label)
    first_stroke()
    if (report == "") {
        cell("request", reply[1], tile(1))
        cell("certificate", reply[3], tile(3))
        cell("done", reply[7], tile(7))
    } else {
        for (i = 0; i < cells; i++) {
            if (i && i % 20 == 0) { new_line(); go_to(label); first_stroke() }
            cell(i in came ? sprintf("%2d", came[i]) : "  ", i in came, tile(i))
        }
    }
    counts()
}
# Green tiles; white is the one that just came, yellow one that came again.
function tile(i) { return i != now ? "30;42" : again_now ? "30;43" : "30;47" }

function draw(    i) {
    make_frame()
    # Up to the frame's first line, then each line, once what stood there is wiped out.
    if (drawn) printf "\033[%dA", drawn
    for (i = 1; i <= lines; i++) printf "%s%s\n", moving ? "\033[K" : "", frame[i]
    drawn = lines
}

# ---- message by message

function new_row(name,    i) {
    calm()
    if (!moving) draw()
    drawn = 0
    report = name
    cells = arrived = repeats = agains = failed = 0
    bytes = ""
    for (i in came) delete came[i]
    for (i in refused) delete refused[i]
}
# The row without what only its last message had.
function calm() { now = -1; again_now = refused_now = 0; if (moving) draw() }

function message(m) {
    now = -1
    again_now = refused_now = 0
    if (word[m] == "taken" || word[m] == "complete") {
        if (!open) { new_row(sequence[m]); cells = count[m] }
        open = word[m] == "taken"
        came[place[m] + 0] = ++arrived
        now = place[m] + 0
        if (!open) bytes = number[m]
    } else if (word[m] == "repeat") {
        repeats++
        now = place[m] + 0
        again_now = 1
    } else if (word[m] == "reply") {
        reply[number[m] + 0] = 1
        now = number[m] + 0
    } else if (word[m] == "again") {
        agains++
        if (report == "") { now = number[m] + 0; again_now = 1 }
    } else if (word[m] == "failure") {
        failed = 1
    } else if (word[m] == "refused") {
        refused[number[m] + 0]++
        occurs[number[m] + 0] = 1
        refused_now = number[m] + 0
    }
    if (moving) { draw(); pause() }
}
# So that one sees it. Where sleep knows no parts of a second, or is interrupted, there is none.
function pause() { fflush(); if (!hasty) hasty = system("sleep " 2.2 / answers " 2>/dev/null") != 0 }

# The sentences of the refusals that occur, in two columns. One that is too long is cut at a word; ./run --all has them whole.
function cut(text, most) {
    if (length(text) <= most) return text
    text = substr(text, 1, most - 2)
    sub(/[ ,;]*[^ ]*$/, "", text)
    sub(/ *\([^)]*$/, "", text)
    return text ".."
}
function legend(    n, rows, half, i) {
    for (n = 1; n <= 25; n++) if (occurs[n]) nth[++rows] = n
    half = int((rows + 1) / 2)
    for (i = 1; i <= half; i++) {
        lines = 0
        new_line()
        entry(nth[i], i + half > rows ? 76 : 35)
        if (i + half <= rows) { go_to(39); entry(nth[i + half], 37) }
        print frame[1]
    }
}
function entry(n, most) { put(sprintf("%2d", n), "31"); put(" " cut(sentence[n], most)) }

END {
    if (heads != answers) { print "picture: " heads " messages have " answers " answers" > "/dev/stderr"; exit 1 }
    if (all) { list(); exit }
    label = 10
    beside = 38
    if (gap) print answers " messages came; ./run --all lists them one by one."
    print "Cell: piece, numbered as it came; again: repeated request; 15x5: five times 15."
    report = ""
    now = -1
    if (moving) draw()
    for (m = 1; m <= answers; m++) message(m)
    calm()
    if (!moving) draw()
    if (gap) print ""
    legend()
}
