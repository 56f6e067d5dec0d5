# usage: awk -f stack.awk FILE.su FILE.s
# The most bytes of stack that a call of any exported function takes, and how many calls deep the deepest goes: the
# compiler's frame of each function (FILE.su) added up along the calls in its assembly (FILE.s). Some functions call
# themselves or each other, and how many calls of each are open at once is known. Any other calls in a circle, calls by
# address and frames whose size is not fixed have no bound, and are refused. What memcpy, memmove, memset and bzero of
# the C library take is not in it. WebAssembly keeps return addresses and numbers elsewhere: there it is memory alone.
BEGIN {
    times["decimals::put_decimal"] = 10 # one call for each digit of a word
    # A formula has at most 63 bytes, so 31 signs + and *, and four levels: three brackets and what is outside.
    levels = 4
    signs = 31
    times["formula_texts::formula"] = times["formula_texts::term"] = levels + signs
    times["formula_texts::factor"] = levels
    times["formula_evaluation::formula"] = times["formula_evaluation::term"] = levels
    times["formula_evaluation::factor"] = levels
    times["formula_evaluation::more_terms"] = times["formula_evaluation::more_factors"] = levels + signs
}
function fail(text) {
    print "stack.awk: " text > "/dev/stderr"
    failed = 1
    exit 1
}
function plain(name) {
    gsub(/"/, "", name)
    sub(/@.*/, "", name)
    if (!(name in frame)) sub(/^_/, "", name) # Apple's symbols begin with a line
    return name
}
# The crate, for functions that call themselves or each other: they are measured together.
function circle(name) {
    return name in times ? substr(name, 1, index(name, "::")) : name
}
# The bytes and the depth of a call of this function.
function measure(name, list, count, k, each, sum, calls, most, far) {
    if (state[name] == 2) return
    if (state[name] == 1) fail(name " is in a circle of calls")
    for (each in frame) {
        if (circle(each) != circle(name)) continue
        state[each] = 1
        count = (each in times ? times[each] : 1)
        sum += count * (frame[each] + extra[each] + pushed)
        calls += count
    }
    for (each in frame) {
        if (circle(each) != circle(name)) continue
        count = split(callees[each], list, "\n")
        for (k = 1; k <= count; k++) {
            if (list[k] == "" || (each in times && circle(list[k]) == circle(name))) continue
            measure(list[k])
            if (bytes[list[k]] > most) most = bytes[list[k]]
            if (depth[list[k]] > far) far = depth[list[k]]
        }
    }
    for (each in frame) {
        if (circle(each) != circle(name)) continue
        bytes[each] = sum + most
        depth[each] = calls + far
        state[each] = 2
    }
}
FILENAME ~ /\.su$/ {
    split($0, part, "\t")
    if (part[3] != "static") fail("the frame is not fixed: " $0)
    sub(/^[^:]*:/, "", part[1])
    frame[part[1]] = part[2]
    next
}
/^[^ \t.#;][^ \t]*:/ {
    name = $1
    sub(/:$/, "", name)
    name = plain(name)
    if (name in frame) {
        at = name
        labels++
        starts = 1
    }
    next
}
# On x86-64 a frame has the registers pushed where the function starts, and not the parameters pushed for a call.
$1 == "pushq" || ($1 == "subq" && $2 == "$8," && $3 == "%rsp" && !starts) {
    if (!starts) parameters += 8
    next
}
/^\t[a-z]/ { starts = 0 }
$1 == "callq" {
    if (parameters > extra[at]) extra[at] = parameters
    parameters = 0
}
$1 ~ /^(callq|call|bl|b|jmp)$/ {
    if ($1 == "callq") pushed = 8 # the return address
    if ($2 ~ /^\*/) {
        if ($1 == "callq") fail("a call by address in " at)
        next # a jump by a table of this function
    }
    if ($2 ~ /^\.?"?L|^\.L/) next # a jump within this function
    name = plain($2)
    if (name in frame) callees[at] = callees[at] "\n" name
    else if (name !~ /^(memcpy|memmove|memset|bzero)$/) fail("a call of " name " in " at)
    next
}
$1 ~ /^(blr|call_indirect|return_call|return_call_indirect)$/ { fail("a call by address in " at) }
END {
    if (failed) exit 1
    for (name in frame) functions++
    if (functions == 0 || functions != labels) fail(functions " frames and " labels " functions")
    for (name in frame) {
        measure(name)
        if (name ~ /^ostrubel_/) exported++
        if (name ~ /^ostrubel_/ && bytes[name] > most) most = bytes[name]
        if (name ~ /^ostrubel_/ && depth[name] > far) far = depth[name]
    }
    if (exported == 0) fail("no exported function")
    print most, far
}
