# Prints the functions that no compiled program runs: those that neither a `main` nor an exported function reaches by
# calls, as crate::function. Over crates/*/src/*.rt: awk -f tests/unrun.awk FILES
# A name is followed to every function that it may mean: `f(` one of the own crate, and of a crate that a `use` of the own
# crate takes it from, `crate::f(` one of that crate, `T::f(` and `.f(` one of any crate. What stands in an `impl TRAIT for`
# is the library's to call, and counts as run. What is printed is not run, but a function that shares its name with one that
# is run may be missed.
FNR == 1 { split(FILENAME, part, "/"); crate = part[2]; known[crate] }
{ sub(/\/\/.*/, "") }
/^impl.* for / { lent = 1 }
/^}/ { lent = 0 }
/^use [a-z_0-9]+::\{?[a-z_A-Z0-9, ]+\}?;/ {
    from = $2
    sub(/::.*/, "", from)
    list = $0
    sub(/^use [a-z_0-9]+::\{?/, "", list)
    gsub(/[},; ]+/, " ", list)
    n = split(list, taken, " ")
    for (i = 1; i <= n; i++) taken_from[crate, taken[i], from]
}
match($0, /^ *(pub(\([a-z]+\))? )?(extern "C" )?fn [a-z_0-9]+/) {
    name = substr($0, RSTART, RLENGTH)
    exported = name ~ /extern "C"/
    sub(/.* /, "", name)
    me = crate "::" name
    if (exported || lent || name == "main") reached[me] = todo[++last] = me
    order[++functions] = me
    named[name] = named[name] " " me
    next
}
/^ *(requires|ensures|ghost) / { next }
me != "" { body[me] = body[me] " " $0 }
END {
    for (done = 1; done <= last; done++) {
        me = todo[done]
        own = me
        sub(/::.*/, "", own)
        text = body[me]
        while (match(text, /[A-Za-z_:.0-9]+\(/)) {
            call = substr(text, RSTART, RLENGTH - 1)
            text = substr(text, RSTART + RLENGTH)
            f = call
            sub(/.*[:.]/, "", f)
            at = call
            sub(/::[a-z_0-9]+$/, "", at)
            n = split(named[f], may, " ")
            for (i = 1; i <= n; i++) {
                of = may[i]
                sub(/::.*/, "", of)
                if (may[i] in reached) continue
                if (call == f && of != own && !((own, f, of) in taken_from)) continue
                if (call ~ /::/ && at in known && of != at) continue
                reached[may[i]] = todo[++last] = may[i]
            }
        }
    }
    for (i = 1; i <= functions; i++) if (!(order[i] in reached)) print order[i]
}
