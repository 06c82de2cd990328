# Joins the counts (number, side, instructions) and the times (number, side, nanoseconds) with the rows (number, group, bar, same, call, input),
# and prints the table. A ratio is held to its bar unrounded.
BEGIN { FS = "\t" }

FILENAME == counts { count[$1, $2] = $3 / repeats; here[$2] = 1; next }
FILENAME == times { time[$1, $2] = $3; next }

{
    ours = count[$1, "aml"]; rust = count[$1, "ref"]; ratio = ours / rust
    over = ($3 != 0 && ratio > $3)
    key = $2 "\t" $5
    if (!(key in rows)) { keys[++key_count] = key; group[key] = $2; bar[key] = $3; same[key] = $4; call[key] = $5 }
    rows[key]++
    misses[key] += over
    missed += over
    if (($1, "crate") in count && ours >= count[$1, "crate"]) slower[++slow] = "  " $5 ", " $6 ": " ours ", the crate " count[$1, "crate"]
    see(key, "aml", $1); see(key, "ref", $1); see(key, "copy", $1); see(key, "crate", $1)
    if (ratio > worst[key]) { worst[key] = ratio; worst_at[key] = $6 }
    if (detail == "rows") {
        heading($2, $3, $4, "input")
        printf "  %-72s %7d %7d %7.2f  %-4s %9s %9s %9s %9s\n", $5 ", " $6, ours, rust, ratio, verdict($3, over), time[$1, "aml"], time[$1, "ref"], \
            said("copy", count[$1, "copy"]), said("crate", count[$1, "crate"])
    }
}

END {
    for (k = 1; k <= key_count; k++) {
        key = keys[k]
        if (same[key] && least[key, "aml"] != most[key, "aml"]) { unequal++; misses[key]++ }
        if (detail == "rows") continue
        heading(group[key], bar[key], same[key], "call")
        printf "  %-34s %12s %12s %7.2f  %-5s %14s %14s %12s %12s  %s\n", call[key], range(key, "aml"), range(key, "ref"), worst[key], \
            verdict(bar[key], misses[key]), times_of(key, "aml"), times_of(key, "ref"), range(key, "copy"), range(key, "crate"), worst_at[key]
    }
    print ""
    if (unequal) print unequal " calls whose instructions depend on the region's length"
    for (k = 1; k <= slow; k++) {
        if (k == 1) print slow " inputs on which the crate's own text takes no more instructions:"
        print slower[k]
    }
    print (missed ? missed " inputs over their bar" : "every input within its bar")
    exit (missed || unequal || slow ? 1 : 0)
}

function heading(name, limit, equal, first) {
    if (name == last_heading) return
    last_heading = name
    print ""
    print name ": " (limit == 0 ? "no bar" : "at most " limit " times") (equal ? ", and the same in every region" : "")
    if (first == "call") printf "  %-34s %12s %12s %7s  %-5s %14s %14s %12s %12s  %s\n", "call", "ours", "Rust", "worst", "", "ours, ns", "Rust, ns", "memcpy", "crate", "worst input"
    else printf "  %-72s %7s %7s %7s  %-4s %9s %9s %9s %9s\n", "input", "ours", "Rust", "ratio", "", "ours, ns", "Rust, ns", "memcpy", "crate"
}

# the least and the most instructions and nanoseconds of a call's inputs
function see(key, side, number,    n, t) {
    if (!((number, side) in count)) return
    n = count[number, side]; t = time[number, side]
    if (!((key, side) in least) || n < least[key, side]) least[key, side] = n
    if (n > most[key, side]) most[key, side] = n
    if (!((key, side) in least_time) || t < least_time[key, side]) least_time[key, side] = t
    if (t > most_time[key, side]) most_time[key, side] = t
}

function said(side, n) { return n != "" ? n "" : (side in here) ? "-" : "not here" }
function between(a, b) { return a == b ? a "" : a " to " b }
function range(key, side) { return said(side, ((key, side) in least) ? between(least[key, side], most[key, side]) : "") }
function times_of(key, side) { return ((key, side) in least_time) ? between(least_time[key, side], most_time[key, side]) : "-" }
function verdict(limit, over) { return limit == 0 ? "-" : (over ? "over" : "ok") }
