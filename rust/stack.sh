#!/bin/sh
# The most stack that each exported call takes, from the archive's disassembly: every push and every `sub rsp` of a
# function, the return address, and the deepest function that it calls. A function that calls itself goes down a tree of
# four levels. Needs target/staticlib/libport.a (tools/archive).
set -eu
cd "$(dirname "$0")"
objdump -dr --no-show-raw-insn -M intel ../target/staticlib/libport.a | awk '
    function hex(s,   n, i) {
        for (i = 3; i <= length(s); i++) n = n * 16 + index("0123456789abcdef", substr(s, i, 1)) - 1
        return n
    }
    function deepest(g,   pair, part, most, n) {
        for (pair in called) {
            split(pair, part, SUBSEP)
            if (part[1] == g && part[2] != g) { n = deepest(part[2]); if (n > most) most = n }
        }
        return frame[g] * ((g, g) in called ? 4 : 1) + most
    }
    /^[0-9a-f]+ <.*>:$/ { f = $2; sub(/^</, "", f); sub(/>:$/, "", f); frame[f] = 8 }
    $2 == "push" { frame[f] += 8 }
    $2 == "sub" && $3 ~ /^rsp,0x/ { frame[f] += hex(substr($3, 5)) }
    $2 == "and" && $3 ~ /^rsp,/ { frame[f] += 64 }
    $2 == "call" && $4 ~ /^<[^+]*>$/ { to = $4; gsub(/[<>]/, "", to); called[f, to] = 1 }
    $2 ~ /^R_X86_64_/ && sub(/-0x4$/, "", $3) && $3 !~ /^[.]L/ { sub(/^[.]text[.]/, "", $3); called[f, $3] = 1 }
    END { for (g in frame) if (g ~ /^erbulonge_/) printf "%-32s %6d bytes\n", g, deepest(g) }
' | sort
