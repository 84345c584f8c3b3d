# An independent judge of histories of a bounded queue, written from docs/DEFINITIONS.md ("Bounded queues").

BEGIN {
    insertions = "no-room|over-in back-in|claim-in put fill end-in|closed|late-in back-in"
    deletions = "no-item|over-out back-out|claim-out got take end-out"
    split(insertions "|" deletions "|close", whole_calls, "|")
}

# The index, from 0, of the first mark with which the marks stop being a legal history of a queue of this size; -1 if
# all of them are one. The marks are seats[1..count], kinds[1..count], numbers[1..count].
function first_fault(size, seats, kinds, numbers, count,    i) {
    open_history(size)
    for (i = 1; i <= count; i++) {
        if (!may_follow(seats[i], kinds[i], numbers[i] "")) {
            return i - 1
        }
    }
    return -1
}

function open_history(size) {
    history_size = size + 0
    upper_count = lower_count = puts = gots = is_closed = 0
    split("", open_call)
    split("", call_ticket)
    split("", put_item)
    split("", is_filled)
    split("", is_taken)
}

# Whether the marks so far with this one more are legal, if those so far are; counts it in.
function may_follow(seat, kind, number) {
    if (!continues_a_call(seat, kind) || !is_fair(kind) || !is_in_order(seat, kind, number)) {
        return 0
    }
    upper_count += (kind ~ /^(claim|over|late)-in$/) - (kind == "back-in" || kind == "end-out")
    lower_count += (kind == "end-in" || kind == "back-out") - (kind ~ /^(claim|over)-out$/)
    is_closed = is_closed || kind == "close"
    return 1
}

# Whether the marks of the seat are whole calls, the last perhaps cut short.
function continues_a_call(seat, kind,    i) {
    open_call[seat] = open_call[seat] (open_call[seat] == "" ? "" : " ") kind
    for (i in whole_calls) {
        if (whole_calls[i] == open_call[seat]) {
            open_call[seat] = ""
            return 1
        }
        if (index(whole_calls[i], open_call[seat] " ") == 1) {
            return 1
        }
    }
    return 0
}

# Whether the result is fair by the counts before it.
function is_fair(kind) {
    if (kind == "no-room" || kind == "over-in") {
        return upper_count >= history_size && !is_closed
    }
    if (kind == "claim-in") {
        return upper_count < history_size && !is_closed
    }
    if (kind == "closed" || kind == "late-in") {
        return is_closed
    }
    if (kind == "no-item" || kind == "over-out") {
        return lower_count <= 0
    }
    return kind != "claim-out" || lower_count >= 1
}

# First in, first out, and the order of a cell's fills and takes.
function is_in_order(seat, kind, number,    ticket) {
    if (kind == "put") {
        call_ticket[seat] = puts
        put_item[puts++] = number
        return 1
    }
    if (kind == "got") {
        call_ticket[seat] = gots
        return gots < puts && put_item[gots++] == number
    }
    ticket = call_ticket[seat]
    if (kind == "fill") {
        is_filled[ticket] = 1
        return number == ticket "" && (ticket < history_size || (ticket - history_size) in is_taken)
    }
    if (kind == "take") {
        is_taken[ticket] = 1
        return number == ticket "" && ticket in is_filled
    }
    return 1
}
