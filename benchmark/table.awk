# SPDX-License-Identifier: MPL-2.0
# Best of rounds and ratios, from lines of: operation, size, subject, nanoseconds (tabs between). A ratio is theirs ÷ ours in time, which is
# ours ÷ theirs in speed: over 1, ours is faster.
BEGIN {
    FS = "\t"
    peers = split("OpenSSL,OpenSSL masked,nettle,mbedTLS,libtomcrypt,C,memcpy", peer, ",")
}

{
    key = $1 SUBSEP $2
    if (!(key in seen)) {
        seen[key] = 1
        row[++rows] = key
    }
    if (!((key, $3) in best) || $4 + 0 < best[key, $3])
        best[key, $3] = $4 + 0
}

# A whole number with its digits in threes.
function grouped(n) {
    n = sprintf("%.0f", n)
    while (n ~ /[0-9][0-9][0-9][0-9]($|,)/)
        n = in_threes(n)
    return n
}

function in_threes(n,    at) {
    at = index(n, ",") ? index(n, ",") - 1 : length(n)
    return substr(n, 1, at - 3) "," substr(n, at - 2)
}

# A time in nanoseconds, with a decimal where it is short.
function shown(ns) {
    return ns < 100 ? sprintf("%.1f", ns) : grouped(ns)
}

# Ours ÷ theirs in speed, or "" where one was not timed.
function ratio(operation, size, name) {
    if (!((operation, size, name) in best))
        return ""
    return sprintf("%.2f", best[operation, size, name] / best[operation, size, "ours"])
}

# A row of the goals: what must not be lower.
function goal(text, value, low, aim) {
    printf "| %s | %s%s | %.2f | %s |\n", text, low, aim, value, (value >= low ? "met" : sprintf("missed by %.0f %%", 100 * (low - value) / low))
}

# The same for what must not cost more.
function limit(text, value, high) {
    printf "| %s | at most %s | %.2f | %s |\n", text, high, value, (value <= high ? "met" : sprintf("missed by %.0f %%", 100 * (value - high) / high))
}

function least(operation, size,    i, r, low) {
    low = 1000
    for (i = 3; i <= 5; i++) {
        r = ratio(operation, size, peer[i])
        if (r != "" && r + 0 < low)
            low = r + 0
    }
    return low
}

function table(    i, k, n, part, line) {
    print "| Operation | bytes | ours, ns | ours, MB/s | OpenSSL | OpenSSL masked | nettle | mbedTLS | libtomcrypt | C |"
    print "|---|---|---|---|---|---|---|---|---|---|"
    for (i = 1; i <= rows; i++) {
        split(row[i], part, SUBSEP)
        n = best[row[i], "ours"]
        line = sprintf("| %s | %s | %s | %s |", part[1], grouped(part[2]), shown(n), part[1] == "listing" ? "" : grouped(part[2] * 1000 / n))
        for (k = 1; k <= 6; k++)
            line = line " " ((row[i], peer[k]) in best ? sprintf("%s (%s)", shown(best[row[i], peer[k]]), ratio(part[1], part[2], peer[k])) : "") " |"
        print line
    }
}

# A call costs about a fixed time and a time for each byte: the line through 64 bytes and 16 KiB.
function growth(    i, k, part, slope, far) {
    print "| Operation | ours | OpenSSL masked | nettle | mbedTLS | libtomcrypt | C |"
    print "|---|---|---|---|---|---|---|"
    for (i = 1; i <= rows; i++) {
        split(row[i], part, SUBSEP)
        if (part[2] != 64)
            continue
        printf "| %s |", part[1]
        for (k = 1; k <= 6; k++) {
            name = k == 1 ? "ours" : peer[k]
            far = part[1] SUBSEP 16384
            if ((row[i], name) in best) {
                slope = (best[far, name] - best[row[i], name]) / (16384 - 64)
                printf " %s + %.3f n |", grouped(best[row[i], name] - 64 * slope), slope
            } else
                printf " |"
        }
        print ""
    }
}

function goals(    masked, both, i, many, name) {
    masked = "OpenSSL masked"
    many = split("CBC encryption,CBC decryption,SHA-256,HMAC,seal,open,step", name, ",")
    print "| Ratio | goal | here | |"
    print "|---|---|---|---|"
    goal("CBC encryption, 16 KiB, ÷ OpenSSL masked", ratio(name[1], 16384, masked), 1)
    goal("CBC decryption, 16 KiB, ÷ OpenSSL masked", ratio(name[2], 16384, masked), 1)
    for (i = 3; i <= 4; i++) {
        goal(name[i] ", 16 KiB, ÷ OpenSSL masked", ratio(name[i], 16384, masked), 0.8)
        goal(name[i] ", 16 KiB, ÷ libtomcrypt", ratio(name[i], 16384, "libtomcrypt"), 1)
        goal(name[i] ", 16 KiB, ÷ mbedTLS", ratio(name[i], 16384, "mbedTLS"), 1)
    }
    goal("seal, 16 KiB, ÷ OpenSSL masked", ratio(name[5], 16384, masked), 0.95, ", aim 1")
    goal("open, 16 KiB, ÷ OpenSSL masked", ratio(name[6], 16384, masked), 1)
    for (i = 1; i <= many; i++)
        if (i < 3 || i == 5 || i == 6)
            goal(name[i] ", 16 KiB, ÷ the fastest other portable peer", least(name[i], 16384), 1)
    for (i = 1; i <= many; i++)
        goal(name[i] ", 64 bytes, ÷ OpenSSL masked", ratio(name[i], 64, masked), 1)
    for (i = 6; i <= 7; i++)
        goal(name[i] ", 64 bytes, ÷ nettle", ratio(name[i], 64, "nettle"), 1)
    both = best["open", 16384, "ours"] + best["join", 16384, "memcpy"]
    limit("step, 16 KiB, time ÷ that of open and memcpy", best["step", 16384, "ours"] / both, 1.05)
    limit("joining a piece of 16 KiB, time ÷ C", 1 / ratio("join", 16384, "C"), 1.15)
    limit("listing, time ÷ C", 1 / ratio("listing", 200000, "C"), 1.5)
}

END {
    table()
    print ""
    growth()
    print ""
    goals()
}
