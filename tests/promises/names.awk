# SPDX-License-Identifier: MPL-2.0
# LC_ALL=C awk -f names.awk INDEX DOCUMENT: a line for each name in `...` of the document that the crates do not have, then the line `names N`.
# INDEX has the lines   public CRATE FILE NAME   of a definition, statement, law or field of .antt;   function CRATE MODULE NAME   of a public
# function;   module CRATE MODULE MODULE;   type CRATE MODULE NAME;   edit CRATE - NAME;   file - - NAME   of a file or a folder, by path or name.
# What is in `...` is judged by its form:
#     a/b           a file or a folder                       a::b::c     a public function c, or a module
#     a.b           a file, or field b of the record a       a_b         an edit, or anything that is public
#     a-b           a public law                             else        anything that is public, or a crate
# `a`, `b` (File) or (crate, File): each stands in a file of that name. crate `a`, `b`: an edit of that crate. What has a space is no name.
# A row of the table in "One result" may be of a type, for its methods of a trait: in the first column c may be a type of module b.

function says(text) { print "`" token "` " text }

# Whether something of a kind, in that crate and that file if these are given, has the name.
function has(kind, name, crate, file) { return (kind, name, crate, file) in known }

function judge(token, crate, file,    part, n) {
    if (token ~ /[ ]/ || token ~ /NAME|CRATE/ || token == "requires") return
    names++
    if (token ~ /\//) {
        sub(/^\.\//, "", token)
        sub(/\/$/, "", token)
        if (!has("file", token)) says("is no file")
    } else if (token ~ /::/) {
        n = split(token, part, "::")
        if (part[1] ~ /^[A-Z]/ ? !has("type", part[1]) : !(part[1] in crates)) says("begins with no crate and no type")
        else if (!has("function", part[n], part[1] ~ /^[A-Z]/ ? "" : part[1]) && !has("module", part[n], part[1]) \
            && !(excepted && first && has("type", part[3], part[1], part[2]))) says("is no public function")
    } else if (token ~ /\./) {
        split(token, part, ".")
        if (!has("file", token) && !(has("public", part[1]) && has("public", part[2], "", home[part[1]]))) says("is no file and no field")
    } else if (token ~ /_/) {
        if (has("edit", token)) {
            if (crate != "" && !has("edit", token, crate)) says("is no edit of " crate)
        } else if (!has("function", token) && !has("public", token)) says("is no edit and nothing public")
    } else if (token ~ /-/ && !has("public", token)) says("is no public law")
    else if (!has("public", token) && !has("function", token) && !has("type", token) && !(token in crates)) says("is nothing public")
    if (file != "" && !has("public", token, file_crate, file)) says("does not stand in " (file_crate == "" ? "" : file_crate ", ") file)
}

NR == FNR {
    known[$1, $4, "", ""]
    known[$1, $4, $2, ""]
    known[$1, $4, $2, $3]
    known[$1, $4, "", $3]
    if ($1 == "public" && $4 ~ /^[A-Z]/) home[$4] = $3
    if ($1 != "file") crates[$2]
    next
}
{ text = text " " $0 }

END {
    n = split(text, piece, "`")
    crate = ""
    # The even pieces stand between two marks, the odd ones beside them.
    for (i = 2; i <= n; i += 2) {
        before = piece[i - 1]
        after = piece[i + 1]
        if (before ~ /## /) excepted = before ~ /## One result [^#]*$/
        # Between two rows stands a mark of each.
        if (before ~ /\|/) first = before ~ /\| \|[^|]*$/
        if (before != ", ") {
            word = before
            sub(/ $/, "", word)
            sub(/.*[ |(]/, "", word)
            if (word in crates && before ~ / $/) crate = word
            else if (before !~ /^,? (and )?$/) crate = ""
        }
        list[++listed] = piece[i]
        crate_of[listed] = crate
        if (after == ", " || after == " over " || after == " and ") continue
        file = file_crate = ""
        if (match(after, /^ \(([a-z0-9_]+, )?[A-Z][A-Za-z]*[);]/)) {
            file = substr(after, 3, RLENGTH - 3)
            if (file ~ /, /) { file_crate = file; sub(/,.*/, "", file_crate); sub(/.*, /, "", file) }
        }
        for (k = 1; k <= listed; k++) { token = list[k]; judge(list[k], crate_of[k], file) }
        listed = 0
    }
    print "names " names + 0
}
