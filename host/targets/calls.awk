# usage: awk -v program=record|replay -f calls.awk ostrubel.h
# The C functions that record.c, or replay.c, needs for each call of the header. A parameter is a number (uint32_t or
# ostrubel_size), or a buffer and its length, of which `work` is a workspace; anything else is refused, and so is a
# declaration that is not understood.
function fail(text) {
    print "calls.awk: " text > "/dev/stderr"
    failed = 1
    exit 1
}
BEGIN {
    if (program != "record" && program != "replay") fail("the program is record or replay")
    print "/* Made by calls.awk from ostrubel.h. */"
}
/^uint64_t ostrubel_/ { text = ""; open = 1 }
open { text = text " " $0 }
open && /;/ {
    open = 0
    count++
    declare(text)
}
function declare(text, name, list, n, k, type, par, last) {
    gsub(/[ \t]+/, " ", text)
    if (text !~ /^ uint64_t ostrubel_[a-z_]+\([^()]*\);$/) fail("not understood: " text)
    name = text
    sub(/^ uint64_t /, "", name)
    sub(/\(.*/, "", name)
    sub(/^[^(]*\(/, "", text)
    sub(/\);$/, "", text)
    n = split(text, list, /, /)
    heads = before = args = after = makes = last = ""
    for (k = 1; k <= n; k++) {
        type = par = list[k]
        sub(/[a-z_]+$/, "", type)
        par = substr(par, length(type) + 1)
        heads = heads (k > 1 ? ", " : "") list[k]
        args = args (k > 1 ? ", " : "") par
        if (last != "") {
            if (type != "ostrubel_size " || par != last "_len") fail(name ": " last " has no length")
            buffer(last, size, written)
            last = ""
        } else if (type == "uint32_t " || type == "ostrubel_size ") {
            before = before "    put_number(" par ");\n"
            makes = makes "    const " type par " = (" substr(type, 1, length(type) - 1) ")take_number();\n"
        } else if (type ~ /^(const )?uint(32|8)_t \*$/) {
            last = par
            size = type ~ /32/ ? 4 : 1
            written = type !~ /^const/
        } else fail(name ": the parameter " list[k])
    }
    if (last != "") fail(name ": " last " has no length")
    if (program == "record") {
        printf "uint64_t plain_%s(%s);\n", name, heads
        printf "uint64_t %s(%s) {\n    put_number(%d);\n%s", name, heads, count, before
        printf "    const uint64_t answer = plain_%s(%s);\n", name, args
        printf "    put_number(answer);\n%s    return answer;\n}\n", after
    } else {
        table = table sprintf("    {\"%s\", replay_%s},\n", name, name)
        printf "static uint64_t replay_%s(void) {\n%s", name, makes
        printf "    return measured(%s(%s));\n}\n", name, args
    }
}
function buffer(par, size, written) {
    put = par == "work" ? "    put_work(%s, %s_len);\n" : "    put_buffer(%s, %s_len, %d);\n"
    take = par == "work" ? "take_work(&%s_len);\n" : "take_buffer(&%s_len, %d, %d);\n"
    before = before sprintf(put, par, par, size)
    if (written) after = after sprintf("    put_hash(%s, %s_len, %d);\n", par, par, size)
    makes = makes sprintf("    ostrubel_size %s_len;\n    %svoid *%s = ", par, written ? "" : "const ", par)
    makes = makes sprintf(take, par, size, written)
}
END {
    if (failed) exit 1
    if (count == 0 || open) fail("no declarations, or one without an end")
    if (program == "replay") {
        printf "static const struct {\n    const char *name;\n    uint64_t (*replay)(void);\n} functions[] = {\n"
        printf "%s};\n", table
        printf "enum { FUNCTIONS = %d };\n", count
    }
}
