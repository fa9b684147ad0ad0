# Prints the stack that each entry point of libsign.a needs, read from the compiled code:
#     objdump -dr --no-show-raw-insn libsign.a | awk -f stack.awk
# Each function is followed along its jumps, so that at each instruction it is known how far the stack pointer is
# below the caller's. Counted are the return address, what is pushed and subtracted, what is reached below the stack
# pointer (a function that calls none may use 128 bytes there without moving it: the red zone), and the deepest call.
# memcpy and memset of the C library count by their return address. What it does not know ends it: then there is no figure.

function no(why) { print "stack: " name ": " why > "/dev/stderr"; gone = 1; exit 1 }
function hex(digits,    i, n) { # also a negative one, of 64 bits
    sub(/^0x/, "", digits)
    if (length(digits) == 16) return hex(substr(digits, 9)) - 4294967296
    for (i = 1; i <= length(digits); i++) n = 16 * n + index("0123456789abcdef", substr(digits, i, 1)) - 1
    return n
}
function constant(text) { sub(/^[^$]*\$/, "", text); sub(/,.*/, "", text); return hex(text) }
function reach(bytes) { if (bytes > deepest[name]) deepest[name] = bytes }
function arrive(i, d) { # instruction i is run with the stack pointer d bytes below the caller's
    if (i in depth && depth[i] != d) no("two depths at " where[i])
    if (!(i in depth)) { depth[i] = d; todo[++waiting] = i }
}
function arrive_at(place, d) { if (!(place in line)) no("a jump to " place); arrive(line[place], d) }
function called(f, d) { # its return address is the last of d bytes
    if (f == "memcpy" || f == "memset") reach(d)
    else if (d > calls_at[name, f]) { calls[name] = calls[name] " " f; calls_at[name, f] = d }
}

# One instruction: what it reaches, and where it goes on.
function follow(i,    t, op, d, place) {
    t = what[i]; d = depth[i]; op = t; sub(/ .*/, "", op)
    if (match(t, /-0x[0-9a-f]+\(%rsp/)) reach(d + hex(substr(t, RSTART + 1, RLENGTH - 6)))
    if (framed && match(t, /-0x[0-9a-f]+\(%rbp/)) reach(framed + hex(substr(t, RSTART + 1, RLENGTH - 6)))
    place = t; sub(/^[a-z]+ +/, "", place); sub(/ .*/, "", place)
    if (op == "ret" || op == "ud2" || op == "hlt") {
        if (op == "ret" && d != 8) no("a return at depth " d)
    } else if (op == "jmp" && place ~ /^\*/) {
        if (tables && tables != d) no("tables of jumps at two depths")
        tables = d
    } else if (op == "jmp" && i in names) {
        if (d != 8) no("a jump to " names[i] " at depth " d)
        called(names[i], 8)
    } else if (op == "jmp") arrive_at(place, d)
    else {
        if (op ~ /^(j|loop)/) {
            if (i in names) no("a conditional jump to " names[i])
            arrive_at(place, d)
        } else if (op == "call") {
            if (!(i in names)) no("a call that names no function: " t)
            called(names[i], d + 8)
        } else if (op ~ /^(push|pop)f/) no("it is not known what this does: " t)
        else if (op ~ /^push[qw]?$/) d += 8
        else if (op ~ /^pop[qw]?$/) { d -= 8; if (t ~ /%rsp$/) no("it is not known what this does: " t) }
        else if (t ~ /^sub +\$0x[0-9a-f]+,%rsp$/) d += constant(t)
        else if (t ~ /^add +\$0x[0-9a-f]+,%rsp$/) d -= constant(t)
        else if (t ~ /^mov +%rsp,%rbp$/) framed = d > framed ? d : framed
        else if (t ~ /,%[er]?sp$/ && op !~ /^(cmp|test)/ || op == "leave" || op == "enter") no("it is not known what this does: " t)
        reach(d)
        arrive(i + 1, d)
    }
}
# The function that was read: from its start, then from what only a table of jumps leads to.
function finish(    i) {
    if (name == "") return
    framed = tables = 0
    deepest[name] = 8
    arrive(1, 8)
    for (i = 0; i <= n; i++) {
        if (i > 0 && !(i in depth)) {
            if (what[i] ~ /^(cs |data16 )*nop/ || what[i] ~ /^xchg +%ax,%ax/ || what[i] ~ /^int3/) continue
            if (!tables) no("nothing leads to " where[i] ": " what[i])
            arrive(i, tables)
        }
        while (waiting) { if (todo[waiting] > n) no("it runs over its end"); follow(todo[waiting--]) }
    }
}
function need(f, way,    i, c, of, most, deep) {
    if (!(f in deepest)) { name = f; no("is not in the library, and its stack is not known") }
    if (index(way, " " f " ")) { name = f; no("calls itself: no bound") }
    most = deepest[f]
    c = split(calls[f], of, " ")
    for (i = 1; i <= c; i++) {
        deep = calls_at[f, of[i]] - 8 + need(of[i], way f " ")
        if (deep > most) most = deep
    }
    return most
}

/^[0-9a-f]+ <.*>:$/ {
    finish()
    name = $0; sub(/^[^<]*</, "", name); sub(/>:$/, "", name)
    n = 0
    split("", depth); split("", what); split("", names); split("", line); split("", where)
    next
}
/R_X86_64_(PLT32|PC32)/ {
    # where it stands in an instruction's last four bytes it is the target of a call or a jump
    if (what[n] ~ /^(call|j)/) { names[n] = $3; sub(/^\.text\./, "", names[n]); sub(/-0x4$/, "", names[n]) }
    next
}
/^ +[0-9a-f]+:\t/ {
    where[++n] = $1; sub(/:$/, "", where[n])
    line[where[n]] = n
    what[n] = $0; sub(/^ +[0-9a-f]+:\t/, "", what[n]); sub(/ +(#.*)?$/, "", what[n])
    sub(/^(notrack|bnd|rep) /, "", what[n])
}
END {
    if (gone) exit 1
    finish()
    for (f in deepest) if (f ~ /^sign_/) print f, need(f, " ") | "sort"
}
