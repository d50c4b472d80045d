# awk -f frames.awk STACK-USAGE ASSEMBLY: the deepest stack of a compiled module by its frames, and the calls that take it. The
# first file is what clang -fstack-usage writes, the second the assembly of the same run. Functions from outside are not in it.
# A call of what a register or a table names is an error: nothing here says how deep it goes.

function fail(why) {
    print "frames: " why >"/dev/stderr"
    failed = 1
    exit 1
}

# The most bytes from a function's entry on.
function depth(name,    k, most, below, list, count) {
    if (name in known) return known[name]
    if (name in open) fail(name " calls itself")
    open[name] = 1
    most = 0
    count = split(calls[name], list, "\n")
    for (k = 1; k <= count; k++) {
        below = depth(list[k])
        if (below > most) {
            most = below
            next_of[name] = list[k]
        }
    }
    delete open[name]
    return known[name] = frame[name] + most
}

# Whether an instruction jumps to where a register says, and is no return: br and ret of AArch64, jr of RISC-V, tbb, tbh and
# whatever sets pc on Arm but from the stack.
function jumps(what, to, from) {
    if (what == "br" || what == "ret") return to ~ /^x/ && what " " to != "ret x30"
    if (what ~ /^(c\.)?jr$/) return to != "ra"
    if (what ~ /^tb[bh]/) return 1
    return to == "pc," && what !~ /^(cmp|cmn|tst|teq|str)/ && from !~ /^\[sp/
}

BEGIN { register = "^(r[0-9]+|lr|ip|fp|sl|sb)$" }

FNR == 1 { file++ }

# FILE:NAME, bytes and kind, parted by tabs
file == 1 {
    split($0, part, "\t")
    sub(/^[^:]*:/, "", part[1])
    if (part[3] != "static") fail(part[1] " has a frame of no fixed size")
    frame[part[1]] = part[2]
    next
}

{ gsub(/"/, "") }

# A label, with a comment behind it
/^[^ \t.@#\/]/ {
    name = $0
    sub(/:([ \t].*)?$/, "", name)
    if (name in frame) here = name
    next
}

# Calls of Arm, AArch64, RISC-V and WebAssembly that name no function. Arm's bx is a tail's call: its switches jump otherwise.
$1 ~ /^blx/ && $2 ~ register { fail(here " calls what a register names: " $1 " " $2) }
$1 ~ /^bx/ && $2 != "lr" { fail(here " jumps to what a register names: " $1 " " $2) }
$1 ~ /^(blr|(c\.)?jalr)/ { fail(here " calls what a register names: " $1 " " $2) }
$1 ~ /^(return_)?call_(indirect|ref)$/ { fail(here " calls what a table names: " $1) }

# A switch jumps through a register too, by a table of its own, .LJTI. Each table stands for one such jump of its function.
match($0, /\.LJTI[0-9]+_[0-9]+/) {
    table = substr($0, RSTART, RLENGTH)
    if (!(table in tables)) tables[table] = ++tables_of[here]
}
jumps($1, $2, $3) { jumps_of[here]++ }

# Whatever names a function, a jump too, counts as a call of it.
/^[ \t]+[a-z]/ {
    for (k = 2; k <= NF; k++) {
        word = $k
        sub(/,$/, "", word)
        if (word in frame && index("\n" calls[here] "\n", "\n" word "\n") == 0)
            calls[here] = calls[here] (calls[here] == "" ? "" : "\n") word
    }
}

END {
    if (failed) exit 1
    for (name in jumps_of)
        if (jumps_of[name] > tables_of[name])
            fail(name " jumps to what a register names: " jumps_of[name] " times, with " 0 + tables_of[name] " tables")
    for (name in frame)
        if (name ~ /^honecerise_/ && (depth(name) > most || most == "")) {
            most = depth(name)
            deepest = name
        }
    if (most == "") fail("no function of the library")
    line = most " bytes by frames:"
    for (name = deepest; name != ""; name = next_of[name]) line = line " " name " " frame[name]
    print line
}
