# SPDX-License-Identifier: MPL-2.0
# LC_ALL=C awk -f contracts.awk FILE..: a line `FUNCTION|OF WHAT|FAULT` for each fault in the contracts of the public functions of Rattle sources,
# then the line `functions N`. A FUNCTION is named by its crate, its file and its name; OF WHAT is `result`, `place`, `contract` or the name of a
# parameter. A clause is exact where it has the form
#     result ≡ E       or, for a struct, one such claim for each field      (result.a ≡ E) × (result.b ≡ E)
#     result.now ≡ E   of a part that is handed out
#     x.new ≡ E        of a buffer that is lent
# and E speaks of what the call was given alone: not of the result, and of what is lent as `x.old` where it can be changed, else as `x.now`, and in
# no other way. Outside its brackets E has numbers, fields, parameters, names that a `ghost use` of its file brings, and the operators below, from
# where they belong. Each binds more tightly than ≡, so the equation is the claim; what else stands there may be an operator that does not.

BEGIN {
    split("≡ + - * / % ^ ++ ∷ && ||", meaning, " ")
    for (i in meaning) belongs[meaning[i]] = "Rattle.std.specs.Prelude"
}

# A comment has become a form feed, which is a blank, so that a clause that has one is known: to the prover `//` is an operator.
function trim(s) { gsub(/^[ \t\n\f]+|[ \t\n\f]+$/, "", s); return s }
function joined(s) { gsub(/[ \t\n\f]+/, " ", s); return trim(s) }

# The place just after the bracket that closes the one at `at`; 0 where none does.
function closed(s, at, left, right,    depth, c) {
    for (; at <= length(s); at++) {
        c = substr(s, at, 1)
        if (c == left) depth++
        if (c == right && --depth == 0) return at + 1
    }
    return 0
}

# The parts of a text between the marks that stand in no bracket, into `part`; their number.
function parts(s, mark, part,    n, at, from, depth, c) {
    from = 1
    for (at = 1; at <= length(s); at++) {
        c = substr(s, at, 1)
        if (index("([{", c)) depth++
        if (index(")]}", c)) depth--
        if (depth == 0 && substr(s, at, length(mark)) == mark) {
            part[++n] = trim(substr(s, from, at - from))
            from = at + length(mark)
            at = from - 1
        }
    }
    part[++n] = trim(substr(s, from))
    return n
}

# A text with each bracket and what it holds as one word, `()`.
function outside(s,    flat, at, depth, c) {
    for (at = 1; at <= length(s); at++) {
        c = substr(s, at, 1)
        if (index("({", c) && depth++ == 0) flat = flat " () "
        if (depth == 0) flat = flat c
        if (index(")}", c)) depth--
    }
    return flat
}

# Whether a word stands in a text, and not as a part of a longer name: a name may have -, ', ·, Greek letters and subscripts too.
function has(s, word) {
    gsub(/·|[\316\317][\200-\277]|\342\202[\200-\211]/, "a", s)
    gsub(/[^A-Za-z0-9_'-]/, " ", s)
    return index(" " s " ", " " word " ") > 0
}

function fault(of, text) { print name "|" of "|" text }

# A text without each `word` that stands in it, alone or before a field.
function without(s, word,    done, at, before, after) {
    while (at = index(s, word)) {
        done = done substr(s, 1, at - 1)
        before = done == "" ? " " : substr(done, length(done))
        s = substr(s, at + length(word))
        after = s == "" ? " " : substr(s, 1, 1)
        done = done (index(" ([{", before) && index(" .)]};", after) ? "()" : word)
    }
    return done s
}

# Whether a text speaks of nothing but what the call was given. A `_` is left to the prover to find, and may be found to be anything.
function given(s,    x) {
    # What memory holds is spoken of at entry alone: a definition that is handed a buffer's name could look at its exit.
    for (x in lent) { s = without(s, x "." lent[x]); s = without(s, "«" x "»." lent[x]) }
    # A field may have a buffer's name. After a λ a dot need not mean a field.
    if (s !~ /λ/) gsub(/\.[A-Za-z0-9_]+/, "", s)
    if (has(s, "_") || has(s, "result")) return 0
    for (x in lent) if (has(s, x)) return 0
    return 1
}

# Whether the word at a place outside brackets is none that could bind more loosely than ≡. A module's name may be an operator's, unless it is first.
function tight(word, at,    path, n, i) {
    if (word in operator || word == "≡") return 0
    if (word in meant || word in known || word ~ /^([0-9]+|0x[0-9A-Fa-f]+|record|tt)$/) return 1
    n = split(word, path, ".")
    for (i = 2; i <= n; i++) if (path[i] !~ /^[A-Za-z0-9_'-]+$/) return 0
    # A bracket, or a field of one, which then stands beside it; a parameter, or a field of one.
    if (word == "()" || (n > 1 && path[1] == "") || path[1] in parameter) return 1
    return at == 1 && n == 2 && path[1] in modules
}

# Whether a claim says by an equation what `left` is, of nothing but what was given.
function exact(claim, left,    right, word, n, i) {
    if (!("≡" in meant) || ("≡" in operator) || index(claim, left " ≡ ") != 1) return 0
    right = substr(claim, length(left " ≡ ") + 1)
    n = split(outside(right), word, " ")
    for (i = 1; i <= n; i++) if (!tight(word[i], i)) return 0
    return given(right)
}

# Whether a clause of the contract in hand has an exact claim of `left`.
function says(left,    i) {
    for (i = 1; i <= claims; i++) if (exact(claim[i], left)) return 1
    return 0
}

function bracketed(s) { return substr(s, 1, 1) == "(" && closed(s, 1, "(", ")") == length(s) + 1 }

# The claims of a clause, if it has a form that this can read.
function take_claims(clause,    part, n, i) {
    # A comment may hide what is said or what seems to be, a text may hold brackets, code may have more than one answer, and an assertion is more than
    # a fact. A dot after a blank is no field's.
    if (clause ~ /\f|--|\{-|"|⟦|⌜| \.[^ ]/) return
    # `result` hides what else has its name.
    if ("result" in parameter) return
    n = parts(joined(clause), "×", part)
    for (i = 1; i <= n; i++) {
        # Bracketed, so that what is looser than × has no part in it; no binder, of which there merely is some value.
        if (n > 1 && !bracketed(part[i])) return
        while (bracketed(part[i])) part[i] = trim(substr(part[i], 2, length(part[i]) - 2))
        if (index(" " outside(part[i]) " ", " : ")) return
    }
    for (i = 1; i <= n; i++) claim[++claims] = part[i]
}

# Whether a type holds memory of somebody else. A name may mean a type of this crate or a public one of another: it does where either does.
function borrows(type,    word, n, i) {
    if (type ~ /&|\*[ \t\n\f]*(mut|const)|'[A-Za-z_]/) return 1
    gsub(/[^A-Za-z0-9_]+/, " ", type)
    n = split(type, word, " ")
    for (i = 1; i <= n; i++) if (word[i] in borrowing || (crate, word[i]) in borrowing || (word[i] == "Self" && borrows(impl))) return 1
    return 0
}

# Whether a type may do so: it does, or it has a word that is neither the language's own, a number or a constant (the length of an array), nor a type
# of one of these sources. An Option or a Result holds what its arguments hold, which are words too.
function may_borrow(type,    word, n, i) {
    if (borrows(type)) return 1
    gsub(/[A-Za-z0-9_]+::/, "", type)
    gsub(/[^A-Za-z0-9_]+/, " ", type)
    n = split(type, word, " ")
    for (i = 1; i <= n; i++) {
        if (word[i] ~ /^([iu](8|16|32|64|size)|f32|f64|bool|mut|Self|Option|Result|[0-9]+|[A-Z0-9_]+)$/) continue
        if (!((crate, word[i]) in body) && !(word[i] in home)) return 1
    }
    return 0
}

# What a reference refers to: `mut` and the type, or the type.
function referent(type) { sub(/^& ?('[A-Za-z0-9_]+ ?)?/, "", type); return type }
function is_mut(type) { return type ~ /^&/ && referent(type) ~ /^mut([^A-Za-z0-9_]|$)/ }

# The fields of a struct, of this crate or else of the only one that has a public type of the name.
function fields_of(type) {
    if ((crate, type) in body) return fields[crate, type]
    return defined[type] == 1 ? fields[home[type], type] : ""
}

function judge_result(type,    field, n, i) {
    if (type == "" || type == "()") return
    if (is_mut(type)) { fault("result", "hands out a part that can be changed"); return }
    if (may_borrow(referent(type))) { fault("result", "hands out a part within its result, which is not read here"); return }
    if (type ~ /^&/) {
        if (says("result.now")) fault("place", "says what the part holds that it hands out, and not where it stands")
        else fault("result", "has no exact clause of its result")
        return
    }
    if (says("result")) return
    n = split(fields_of(type == "Self" ? impl : type), field, " ")
    for (i = 1; i <= n; i++) if (!says("result." field[i])) break
    if (n == 0 || i <= n) fault("result", "has no exact clause of its result" (n ? ": nor of its field " field[i] : ""))
}

# The parameters of a function: their names and types in order, their names as a clause writes them, and which are references. Their number.
function take_parameters(s,    part, n, i, x) {
    split("", parameter)
    split("", lent)
    n = s == "" ? 0 : parts(s, ",", part)
    for (i = 1; i <= n; i++) {
        x = part[i]
        sub(/:.*/, "", x)
        sub(/.*[ &]/, "", x)
        name_of[i] = x
        parameter[x] = parameter["«" x "»"] = 1
        type_of[i] = part[i]
        if (!sub(/^[^:]*: ?/, "", type_of[i])) sub(/self$/, "Self", type_of[i])
        if (type_of[i] ~ /^&/) lent[x] = is_mut(type_of[i]) ? "old" : "now"
    }
    # A size that is a parameter.
    while (match(sizes, /const [A-Z]+/)) {
        parameter[substr(sizes, RSTART + 6, RLENGTH - 6)] = 1
        sizes = substr(sizes, RSTART + RLENGTH)
    }
    return n
}

function judge_lent(n,    i, x) {
    for (i = 1; i <= n; i++) {
        x = name_of[i]
        if (may_borrow(referent(type_of[i]))) fault(x, "has memory lent within the type of " x ", which is not read here")
        else if (is_mut(type_of[i]) && !says(x ".new") && !says("«" x "».new"))
            fault(x, "has no exact clause of what " x " holds at exit")
    }
}

# A function, from the place after its name.
function judge(s,    from, to, n, type, word) {
    functions++
    claims = 0
    if (s !~ /^[ \t\n\f]*(<('[A-Za-z0-9_]+|const [A-Z]+: usize|[ \t\n\f,:+])*>[ \t\n\f]*)?\(/) fault("contract", "has parameters that are types, which are not read here")
    from = index(s, "(")
    to = closed(s, from, "(", ")")
    sizes = substr(s, 1, from - 1)
    n = take_parameters(joined(substr(s, from + 1, to - from - 2)))
    s = substr(s, to)
    if (match(s, /^[ \t\n\f]*->[^\n{]*/)) {
        type = substr(s, 1, RLENGTH)
        s = substr(s, RLENGTH + 1)
        sub(/^[ \t\n\f]*->/, "", type)
        type = joined(type)
    }
    # A clause may have a name after its word.
    while (match(s, /^[ \t\n\f]*[a-z]+([ \t\n\f]+[A-Za-z0-9_]+)?[ \t\n\f]*\{/)) {
        word = trim(substr(s, 1, RLENGTH - 1))
        sub(/[ \t\n\f].*/, "", word)
        from = RLENGTH
        to = closed(s, from, "{", "}")
        if (word == "ensures") take_claims(substr(s, from + 1, to - from - 2))
        else if (word == "requires") fault("contract", "has a requires")
        else fault("contract", "has a clause that is not known here: " word)
        s = substr(s, to)
    }
    if (s !~ /^[ \t\n\f]*\{/) fault("contract", "has a contract that cannot be read here")
    judge_result(type)
    judge_lent(n)
}

function crate_of(file) { sub(/\/src\/.*/, "", file); sub(/.*\//, "", file); return file }

function take_fields(type, s,    part, n, i) {
    n = parts(s, ",", part)
    for (i = 1; i <= n; i++) {
        sub(/^pub(\([a-z]+\))?[ \t\n\f]+/, "", part[i])
        sub(/[ \t\n\f]*:.*/, "", part[i])
        if (part[i] != "") fields[crate, type] = fields[crate, type] " " part[i]
    }
}

# The types of a file: what each holds, and the fields of a struct. A public one is known to other crates by its name too. One that is not public, and
# has the name of another crate's, may hold other things.
function find_types(s,    word, type, at, to, open) {
    while (match(s, /(^|[^A-Za-z0-9_])(struct|enum|type)[ \t\n\f]+[A-Za-z0-9_]+/)) {
        open = substr(s, 1, RSTART) ~ /(^|[^A-Za-z0-9_])pub[ \t\n\f]+$/
        type = joined(substr(s, RSTART, RLENGTH))
        word = type
        sub(/.* /, "", type)
        s = substr(s, RSTART + RLENGTH)
        at = match(s, /[{(=;]/)
        to = index(s, ";") + 1
        if (substr(s, at, 1) == "{") to = closed(s, at, "{", "}")
        if (substr(s, at, 1) == "(") to = closed(s, at, "(", ")")
        body[crate, type] = body[crate, type] " " substr(s, 1, to - 1)
        if (word ~ /struct / && substr(s, at, 1) == "{") take_fields(type, substr(s, at + 1, to - at - 2))
        if (open) { public[crate, type] = 1; defined[type]++; home[type] = crate }
        else if (word !~ /type /) hidden[crate, type] = 1
        s = substr(s, to)
    }
}

# The types that borrow, and those that hold one that does: by crate and name, and the public ones by name too.
function find_borrowing(    key, part, more) {
    do {
        more = 0
        for (key in body) {
            split(key, part, SUBSEP)
            crate = part[1]
            if (key in borrowing || !borrows(body[key])) continue
            more = borrowing[key] = 1
            if (key in public) borrowing[part[2]] = 1
        }
    } while (more)
}

# A name that a `ghost use` brings. Each word of an operator is one, unless it is the operator that is meant.
function take_name(path, leaf,    mark, word, n, i) {
    mark = leaf
    gsub(/^◌|◌$/, "", mark)
    if (leaf == "◌" mark "◌" && (mark in belongs) && belongs[mark] == path) { meant[mark] = 1; return }
    sub(/.*( as |\.)/, "", leaf)
    if (leaf !~ /◌/) { known[leaf] = 1; return }
    n = split(leaf, word, "◌")
    for (i = 1; i <= n; i++) operator[word[i]] = 1
}

# What the `ghost use` items of a file bring: names, operators, modules.
function find_uses(s,    item, path, leaf, n, i) {
    split("", known)
    split("", meant)
    split("", operator)
    split("", modules)
    while (match(s, /(^|[ \t\n\f])ghost[ \t\n\f]+use[ \t\n\f]+[^;]*;/)) {
        item = joined(substr(s, RSTART, RLENGTH - 1))
        s = substr(s, RSTART + RLENGTH)
        sub(/^ghost use /, "", item)
        path = item
        if (!sub(/\.\{.*/, "", path)) {
            sub(/.*( as |\.)/, "", item)
            modules[item] = 1
            continue
        }
        n = split(substr(item, length(path) + 3, length(item) - length(path) - 3), leaf, ",")
        for (i = 1; i <= n; i++) take_name(path, trim(leaf[i]))
    }
}

# The type that the last `impl` of a text is for; `before` where it has none.
function impl_in(s, before) {
    while (match(s, /(^|[^A-Za-z0-9_])impl[^A-Za-z0-9_][^{]*\{/)) {
        before = joined(substr(s, RSTART, RLENGTH - 1))
        sub(/^.?impl ?(<[^>]*>)? ?/, "", before)
        s = substr(s, RSTART + RLENGTH)
    }
    return before
}

# What a conversion gives, as a contract of it: `λ a b. b ≡ E` says of a value a that the result b is E. It says nothing of memory that is lent.
function judge_from(from, type, block,    gives, a, b) {
    if (may_borrow(from) || may_borrow(type)) {
        fault("contract", "has memory lent within what it is made from or what it is, which is not read here")
        return
    }
    if (!match(block, /ghost from_gives = \{ λ [a-z_]+ [a-z_]+\. [^;]*\};/)) { fault("contract", "has no exact from_gives"); return }
    gives = substr(block, RSTART, RLENGTH - 2)
    sub(/^ghost from_gives = \{ λ /, "", gives)
    a = b = gives
    sub(/ .*/, "", a)
    sub(/^[a-z_]+ /, "", b)
    sub(/\..*/, "", b)
    sub(/^[^.]*\. /, "", gives)
    claims = 0
    split("", lent)
    split("", parameter)
    parameter[a] = 1
    take_claims(gives)
    if (!says(b) || has(substr(gives, length(b) + 1), b)) fault("contract", "has no exact from_gives")
}

# The methods that a type has of a trait are public without the word, where both are. Nobody else can call those of a trait that is not. A type that
# is not public is its crate's own to convert and to show; its methods of another trait may run where nobody names it, as an iterator's do.
# A Model is what contracts see of a type, and no method. One that forgets would leave open what `result ≡ E` allows. With `inverse` it forgets
# nothing: the kit has that proved. A type that is not public and borrows may forget, since no public call may give one or be given one.
function judge_traits(s, module,    head, trait, type, bare, at, block, private) {
    while (match(s, /(^|[ \t\n\f])impl[^{;]*[ \t\n\f]for[ \t\n\f]/)) {
        head = substr(s, RSTART, RLENGTH)
        s = substr(s, RSTART + RLENGTH)
        at = index(s, "{")
        head = joined(head substr(s, 1, at - 1))
        block = joined(substr(s, at + 1, closed(s, at, "{", "}") - at - 2))
        # Lifetimes and sizes. Parameters that are types stay, and the trait has then no name that is known here.
        sub(/^impl ?(<('[A-Za-z0-9_]+|const [A-Z]+: usize|[ ,:+])*> ?)?/, "", head)
        type = head
        sub(/.* for /, "", type)
        sub(/ for .*/, "", head)
        trait = head
        sub(/<.*/, "", trait)
        if ((crate, trait) in inner) continue
        bare = type
        sub(/<.*/, "", bare)
        private = (crate, bare) in hidden && !((crate, bare) in public)
        if (private && trait ~ /^(From|TryFrom|fmt::Display)$/) continue
        name = private ? module : module "::" bare
        if (trait == "Model") {
            if (outside(block) ~ /(^|; *)ghost inverse = / || (private && borrows(type))) continue
            fault("contract", "has a Model without an inverse, which may forget")
        } else if (trait == "From") judge_from(substr(head, 6, length(head) - 6), type, block)
        # A conversion that may fail is named with what it is from, so that an exception for it excuses nothing else that the type has.
        else fault(trait == "TryFrom" ? head : "contract", "has methods of the trait " head ", which are not read here")
    }
}

# The traits that are not public.
function find_traits(s) {
    while (match(s, /(^|[ \t\n\f])(pub(\([a-z]+\))?[ \t\n\f]+)?(unsafe[ \t\n\f]+)?trait[ \t\n\f]+[A-Za-z0-9_]+/)) {
        name = joined(substr(s, RSTART, RLENGTH))
        s = substr(s, RSTART + RLENGTH)
        if (name !~ /^pub (unsafe )?trait/) inner[crate, substr(name, match(name, /[A-Za-z0-9_]+$/))] = 1
    }
}

# What C can call is public without the word.
function find_functions(s, module,    after) {
    impl = ""
    while (match(s, /(^|[^A-Za-z0-9_])(pub|extern)[ \t\n\f]+(([a-z]+|"C")[ \t\n\f]+)*fn[ \t\n\f]+[A-Za-z0-9_]+/)) {
        name = substr(s, RSTART, RLENGTH)
        sub(/.*[ \t\n\f]/, "", name)
        name = module "::" name
        after = RSTART + RLENGTH
        impl = impl_in(substr(s, 1, RSTART), impl)
        s = substr(s, after)
        judge(s)
    }
}

{ sub(/\/\/.*/, "\f"); text[FILENAME] = text[FILENAME] $0 "\n" }
FNR == 1 { files[++count] = FILENAME }

END {
    for (i = 1; i <= count; i++) {
        crate = crate_of(files[i])
        find_types(text[files[i]])
        find_traits(text[files[i]])
    }
    find_borrowing()
    for (i = 1; i <= count; i++) {
        crate = crate_of(files[i])
        module = files[i]
        sub(/.*\/src\//, "", module)
        sub(/\.rt$/, "", module)
        gsub(/\//, "::", module)
        module = crate (module == "lib" ? "" : "::" module)
        name = module
        if (text[files[i]] ~ /(^|[^A-Za-z0-9_])pub[ \t\n\f]+([a-z]+[ \t\n\f]+)*trait[ \t\n\f]/)
            fault("contract", "has a trait, whose methods are not read here")
        if (text[files[i]] ~ /\/\*/) fault("contract", "has a comment of the other kind, which is not read here")
        find_uses(text[files[i]])
        judge_traits(text[files[i]], module)
        find_functions(text[files[i]], module)
    }
    print "functions " functions + 0
}
