# SPDX-License-Identifier: MPL-2.0
# awk -f lists.awk table FILE: FILE with each of its lists made anew from the table. A list stands between a line that has
# `tests/refusals/write: KIND` and one that has `tests/refusals/write: end`, KIND being one of those in block() below.
BEGIN { FS = " *[|] *" }

# A name as each list has it: `too short`, `TooShort`, `too_short`, `TOO_SHORT`.
function capital(text) { return toupper(substr(text, 1, 1)) substr(text, 2) }
function camel(text,    words, count, i, out) {
    count = split(text, words, " ")
    for (i = 1; i <= count; i++)
        out = out capital(words[i])
    return out
}
function snake(text) { gsub(" ", "_", text); return text }
function upper(text) { return toupper(snake(text)) }

# Text after what stands before it, broken so that no line is longer than 113.
function broken(before, text,    words, count, i, line) {
    count = split(text, words, " ")
    line = before
    for (i = 1; i <= count; i++) {
        if (length(line) + 1 + length(words[i]) > 113) {
            print line
            line = sprintf("%" length(before) "s", "")
        }
        line = line " " words[i]
    }
    print line
}

function block(kind,    i, width, name) {
    for (i = 1; i <= rows; i++)
        if (width < length(names[i]))
            width = length(names[i])
    if (kind == "all")
        printf "const ALL: [Refusal; %d] = [\n", rows
    if (kind == "sentences")
        printf "const SENTENCES: [&str; %d] = [\n", rows
    for (i = 1; i <= rows; i++) {
        name = camel(names[i])
        if (kind == "faults")
            printf "    // %s.\n    %s = %d,\n", capital(document[i]), name, i
        else if (kind == "rows")
            printf "    Refusal::%s,\n", name
        else if (kind == "definitions")
            printf "-- %s\nabbrev pub %s : ℕ\n%s = %d\n\n", document[i], snake(names[i]), snake(names[i]), i
        else if (kind == "numbers")
            printf "number fault.%s = %s\n", name, snake(names[i])
        else if (kind == "refusals")
            printf "    %sfault.%s\n", (i > 1 ? "∷ " : ""), name
        else if (kind == "inverses")
            printf "refusal_of-number fault.%s = refl\n", name
        else if (kind == "header")
            broken(sprintf("    %-" (width + 11) "s/*", "HUB_" upper(names[i]) " = " i ","), header[i] " */")
        else if (kind == "texts")
            printf "    case HUB_%s:\n        return \"%s\";\n", upper(names[i]), header[i]
        else if (kind == "variants")
            printf "    /// %s.\n    %s = %d,\n", capital(rust[i]), name, i
        else if (kind == "all")
            printf "    %s,\n", name
        else if (kind == "sentences")
            printf "    \"%s\",\n", header[i]
        else {
            print "lists.awk: no list of kind " kind > "/dev/stderr"
            exit 1
        }
    }
    if (kind == "all" || kind == "sentences")
        print "];"
    if (kind == "refusals")
        print "    ∷ []"
    if (kind == "numbers" || kind == "inverses")
        print ""
}

NR == FNR && /^[0-9]/ {
    rows++
    if ($1 != rows) {
        print "lists.awk: row " rows " of the table has the number " $1 > "/dev/stderr"
        exit 1
    }
    names[rows] = $2
    document[rows] = $3
    header[rows] = $4 != "" ? $4 : $3
    rust[rows] = $5 != "" ? $5 : header[rows]
}
NR == FNR { next }

inside && !/tests\/refusals\/write: end/ { next }
{ inside = 0; print }
/tests\/refusals\/write: / && !/tests\/refusals\/write: end/ {
    kind = $0
    sub(/.*tests\/refusals\/write: /, "", kind)
    sub(/[^a-z].*/, "", kind)
    block(kind)
    inside = 1
}
