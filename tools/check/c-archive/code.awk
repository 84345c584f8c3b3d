# Reads `objdump -dr` of an archive. Prints which functions that write SSE registers can be reached from a call that neither opens nor gives
# up an object; functions that drop are left out, since they are reached only at the end of a call that gives up. Also prints the places at
# which code that enters the system is called.
function hexadecimal(digits, value, i) {
    value = 0
    for (i = 1; i <= length(digits); i++)
        value = 16 * value + index("0123456789abcdef", substr(digits, i, 1)) - 1
    return value
}

function bare(word) {
    sub(/^</, "", word)
    sub(/>:?$/, "", word)
    sub(/\+0x[0-9a-f]+$/, "", word)
    return word
}

/^[0-9a-f]+ <.*>:$/ {
    name = bare(substr($0, index($0, "<")))
    routine = hexadecimal($1)
    names[name] = 1
    next
}

/^ *[0-9a-f]+:\t/ {
    split($0, columns, "\t")
    address = columns[1]
    gsub(/[ :]/, "", address)
    address = hexadecimal(address)
    code = columns[3]
    if (after_return) {
        routine = address
        after_return = 0
    }
    if (code ~ /^(ret|ud2|int3)/)
        after_return = 1
    if (code ~ /%[xyz]mm/)
        writes[name] = 1
    if (code ~ /^(syscall|sysenter|int )/) {
        systems++
        begins[systems] = routine
        ends[systems] = address
    }
    if (code ~ /^(call|j[a-z]+) +[0-9a-f]+ </) {
        split(code, words, " ")
        jumps++
        from[jumps] = address
        to[jumps] = hexadecimal(words[2])
        callee = bare(substr(code, index(code, "<")))
        if (callee != name)
            edges[name] = edges[name] "\n" callee
    }
}

# Goes on to what the function calls.
function reach(function_name, list, count, i) {
    if (function_name in reached || function_name ~ /drop/)
        return
    reached[function_name] = 1
    count = split(edges[function_name], list, "\n")
    for (i = 1; i <= count; i++)
        if (list[i] != "")
            reach(list[i])
}

END {
    for (each in names)
        if (each ~ /^fak_(c|channel)_/ && each !~ /_open(_bundles)?$/ && each != "fak_c_leave")
            reach(each)
    for (each in reached)
        if (each in writes)
            print "writes SSE registers: " each
    for (i = 1; i <= systems; i++)
        for (j = 1; j <= jumps; j++)
            if (to[j] >= begins[i] && to[j] <= ends[i] && (from[j] < begins[i] || from[j] > ends[i]))
                printf "enters the system: called at %x\n", from[j]
    for (each in names)
        count_of_names++
    for (each in reached)
        count_of_reached++
    if (count_of_reached == 0)
        print "no call was found"
}
