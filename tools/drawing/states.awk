# The state after each line of a trace: the counts, the contents or the amounts held, the kind of each line, and the
# state of each seat, all by the line's number. Lanes are numbered from 1: lane_of[SEAT], lane_seat[LANE].

# Follows the whole trace; returns the fault of the line with which it is no trace, or nothing.
function follow_trace(    i, fault) {
    number_seats()
    for (i = trace_length; i >= 1; i--) {
        goes_on_with[i] = next_of[line_seat[i]]
        if (line_name[i] == "") {
            next_of[line_seat[i]] = line_step[i]
        }
    }
    value = upper = lower = held = puts = gots = 0
    for (i = 1; i <= trace_length && fault == ""; i++) {
        fault = count_mark(i, line_mark[i])
        line_kind[i] = kind_of(i)
        stand[i] = standing[line_seat[i]] = stand_after(i)
        value_after[i] = value
        held_after[i] = held
        upper_after[i] = upper (is_shut ? " shut" : "")
        lower_after[i] = lower
        puts_after[i] = puts
        gots_after[i] = gots
        if (fault != "") {
            trace_fault_line = i
        }
    }
    return fault
}

# Gives each seat of the trace a lane, in the order of their numbers.
function number_seats(    i, j, seat) {
    for (i = 1; i <= trace_length; i++) {
        seat = line_seat[i]
        if (!(seat in lane_of)) {
            lane_of[seat] = 0
            for (j = ++lanes; j > 1 && is_below(seat, lane_seat[j - 1]); j--) {
                lane_seat[j] = lane_seat[j - 1]
            }
            lane_seat[j] = seat
        }
    }
    for (j = 1; j <= lanes; j++) {
        lane_of[lane_seat[j]] = j
    }
}

# Whether one whole number is below another, however large they are.
function is_below(left, right) {
    return length(left) < length(right) || (length(left) == length(right) && ("n" left) < ("n" right))
}

# Counts a mark in; returns a fault, or nothing.
function count_mark(i, mark,    word, granted) {
    split(mark, word, " ")
    if (word[1] == "got" && (gots >= puts || items[gots] != word[2] "")) {
        return "'" mark "' is not the oldest item put"
    }
    if (word[1] == "put") {
        items[puts++] = word[2] ""
    }
    gots += word[1] == "got"
    value += (word[1] ~ /^(up|over)$/) * word[2] - (word[1] ~ /^(back|release)$/) * word[2]
    granted = (word[1] == "up") * word[2] - (word[1] == "release") * word[2]
    held += granted
    seat_held[line_seat[i]] += granted
    upper += (mark ~ /^(claim|over|late)-in$/) - (mark == "back-in" || mark == "end-out")
    is_shut = is_shut || mark == "close"
    lower += (mark == "end-in" || mark == "back-out") - (mark ~ /^(claim|over)-out$/)
    return ""
}

# The kind of a line, by which it is drawn.
function kind_of(i,    step, mark) {
    step = line_step[i]
    mark = line_mark[i]
    if (line_name[i] != "") return "event"
    if (step ~ /^turn-/) return is_waiting(i) ? "wait" : "look"
    if (mark ~ /^(no|no-room|no-item|closed)( |$)/) return "refusal"
    if (mark ~ /^(claim-in|claim-out|up)( |$)/) return "claim"
    if (mark ~ /^(over|over-in|over-out|late-in)( |$)/) return "over"
    if (mark ~ /^back/) return "withdrawal"
    if (mark ~ /^(put|got) /) return "ticket"
    if (step ~ /^(store-item|load-item|set-full|set-free)$/) return "cell"
    if (step ~ /^end-|^release$/) return "end"
    if (step == "shut") return "shut"
    return "look"
}

# Whether a look at a cell's turn found that it had not come: the seat looks again, or the turn is another side's.
function is_waiting(i,    odd) {
    if (goes_on_with[i] != "") {
        return goes_on_with[i] == line_step[i]
    }
    odd = line_found[i] ~ /[13579]$/
    return line_step[i] == "turn-in" ? odd : !odd
}

# The state of the line's seat after it: nothing, open, claimed, over or waiting.
function stand_after(i,    kind, seat) {
    kind = line_kind[i]
    seat = line_seat[i]
    if (kind == "event") return standing[seat]
    if (kind == "over") return "over"
    if (kind == "wait") return "waiting"
    if (kind == "look" && line_step[i] ~ /^test/ && !(seat_held[seat] > 0)) return "open"
    if (trace_object == "room") return seat_held[seat] > 0 ? "claimed" : ""
    return kind ~ /^(refusal|withdrawal|end|shut)$/ ? "" : "claimed"
}
