# Reads `objdump -dr` of an archive twice, and prints it without the tables of jumps that come after the code of a function. The first of
# them begins at the address that a `lea` takes of a place after itself in the same function; the linker changes no such address.
function hexadecimal(digits, value, i) {
    value = 0
    for (i = 1; i <= length(digits); i++)
        value = 16 * value + index("0123456789abcdef", substr(digits, i, 1)) - 1
    return value
}

/^[0-9a-f]+ <.*>:$/ || /file format/ {
    begin = FNR
    name = substr($0, index($0, "<") + 1)
    sub(/>:$/, "", name)
    sought = ""
}

# A relocation below a `lea` says that the linker sets its address.
FNR == NR && sought != "" {
    if ($0 !~ /R_X86_64_/ && (!(begin in table) || sought < table[begin]))
        table[begin] = sought
    sought = ""
}

FNR == NR && /\tlea .*\(%rip\),.*# [0-9a-f]+ </ {
    inside = substr($0, index($0, "# ") + 2)
    target = hexadecimal(substr(inside, 1, index(inside, " ") - 1))
    inside = substr(inside, index(inside, "<") + 1)
    address = $1
    sub(/:$/, "", address)
    if (index(inside, name "+0x") == 1 && target > hexadecimal(address))
        sought = target
    next
}

FNR < NR {
    address = $1
    if (begin in table && address ~ /^[0-9a-f]+:$/) {
        sub(/:$/, "", address)
        if (hexadecimal(address) >= table[begin])
            next
    }
    print
}
