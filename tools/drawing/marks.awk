# Writes the marks of the queue's trace on standard input as a history of a queue of `size` cells.

BEGIN {
    trace_object = "queue"
}

{
    if (trace_fault == "") {
        trace_fault = read_line($0)
        trace_fault_line = NR
    }
}

END {
    if (trace_fault != "") {
        print "marks: line " trace_fault_line ": " trace_fault | "cat 1>&2"
        exit 2
    }
    printf "{\"size\":%s,\"marks\":[", size
    for (i = 1; i <= trace_length; i++) {
        if (line_name[i] == "" && line_mark[i] != "-") {
            split(line_mark[i], words, " ")
            printf "%s[%s,\"%s\"%s]", written++ ? "," : "", line_seat[i], words[1], words[2] == "" ? "" : "," words[2]
        }
    }
    print "]}"
}
