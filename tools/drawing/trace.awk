# Reads the lines of a trace of `fak replay`, one by one, and keeps of line i: line_seat[i], line_step[i], line_found[i],
# line_mark[i] (with its number), line_name[i] (a refusal's name, else empty) and line_text[i]. The first line that is no
# line of a trace, or not of this one, ends the reading: `trace_fault` says why.

BEGIN {
    trace_length = 0
    # The marks that each step may leave; '#' means a number.
    allow("room", "test", "-|no #")
    allow("room", "add", "up #|over #")
    allow("room", "back", "back #")
    allow("room", "release", "release #")
    allow("queue", "test-up", "-|no-room|closed")
    allow("queue", "add-up", "claim-in|over-in|late-in")
    allow("queue", "back-up", "back-in")
    allow("queue", "ticket-in", "put #")
    allow("queue", "turn-in", "-")
    allow("queue", "store-item", "-")
    allow("queue", "set-full", "fill #")
    allow("queue", "end-in", "end-in")
    allow("queue", "test-low", "-|no-item")
    allow("queue", "sub-low", "claim-out|over-out")
    allow("queue", "back-low", "back-out")
    allow("queue", "ticket-out", "got #")
    allow("queue", "turn-out", "-")
    allow("queue", "load-item", "-")
    allow("queue", "set-free", "take #")
    allow("queue", "end-out", "end-out")
    allow("queue", "shut", "close")
}

function allow(object, step, marks) {
    step_object[step] = object
    step_marks[step] = "|" marks "|"
}

# Reads one line; returns why it is refused, or nothing.
function read_line(text,    words, field) {
    words = split(text, field, " ")
    if (text ~ /[^ -~]/ || text ~ /^ | $|  / || words < 3 || words > 5) {
        return "a line is 'SEAT STEP FOUND MARK' or 'SEAT refused NAME'"
    }
    if (!is_whole(field[1])) {
        return "the seat '" field[1] "' is no whole number"
    }
    if (field[2] == "refused") {
        return read_refusal(text, words, field[1], field[3])
    }
    return read_step(text, words, field)
}

function is_whole(text) {
    return text ~ /^(0|[1-9][0-9]*)$/
}

function read_refusal(text, words, seat, name) {
    if (words != 3 || name !~ /^(no-such-seat|mid-call|idle-seat|not-held)$/) {
        return "unknown refusal '" substr(text, length(seat " refused ") + 1) "'"
    }
    if (name == "not-held" && !fits_object("room")) {
        return "a queue refuses nothing as 'not-held'"
    }
    keep_line(text, seat, "", "", "", name)
    return ""
}

function read_step(text, words, field,    step, mark, shape) {
    step = field[2]
    if (!(step in step_object)) {
        return "unknown step '" step "'"
    }
    if (!fits_object(step_object[step])) {
        return "'" step "' is no step of a " trace_object
    }
    if (!is_whole(field[3]) && field[3] !~ /^-[1-9][0-9]*$/) {
        return "the number found '" field[3] "' is no integer"
    }
    mark = field[4] (words == 5 ? " " field[5] : "")
    shape = field[4] (words == 5 ? (is_whole(field[5]) ? " #" : " ?") : "")
    if (words == 3 || !index(step_marks[step], "|" shape "|")) {
        return "the step '" step "' leaves no mark '" mark "'"
    }
    keep_line(text, field[1], step, field[3], mark, "")
    return ""
}

# Whether the trace may be one of this object, which its first telling line decides.
function fits_object(object) {
    if (trace_object == "") {
        trace_object = object
    }
    return trace_object == object
}

function keep_line(text, seat, step, found, mark, name) {
    trace_length++
    line_text[trace_length] = text
    line_seat[trace_length] = seat ""
    line_step[trace_length] = step
    line_found[trace_length] = found ""
    line_mark[trace_length] = mark
    line_name[trace_length] = name
}
