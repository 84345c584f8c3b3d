# The rules of a bounded queue, from the table of its steps in docs/FORMATS.md: what each seat's next step finds and leaves.

function open_queue(size) {
    queue_size = size + 0
    queue_upper = queue_lower = 0
    queue_draws_in = queue_draws_out = 0
    queue_is_shut = 0
    split("", queue_step)
    split("", queue_item)
    split("", queue_ticket)
    split("", queue_put)
    split("", queue_turn)
    split("", queue_content)
}

function is_queue_seat_idle(seat) {
    return !(seat in queue_step)
}

# Begins a call; returns the refusal, or nothing.
function begin_queue(seat, call, item) {
    if (!is_queue_seat_idle(seat)) {
        return "mid-call"
    }
    queue_step[seat] = call == "insert" ? "test-up" : call == "delete" ? "test-low" : "shut"
    queue_item[seat] = item
    return ""
}

# Sends the seat on to a step, or ends its call if that is no step; returns the line.
function go_on(seat, next_step, found, mark,    line) {
    line = queue_step[seat] " " found " " mark
    if (next_step == "") {
        delete queue_step[seat]
    } else {
        queue_step[seat] = next_step
    }
    return line
}

# Takes the seat's next step; returns its line without the seat, or nothing if the seat is idle.
function advance_queue(seat,    step) {
    if (is_queue_seat_idle(seat)) {
        return ""
    }
    step = queue_step[seat]
    if (step == "shut") {
        queue_is_shut = 1
        return go_on(seat, "", queue_upper, "close")
    }
    if (step ~ /up$/) {
        return claim_insertion(seat, step)
    }
    if (step ~ /low$/) {
        return claim_deletion(seat, step)
    }
    if (step ~ /^ticket/) {
        return draw_ticket(seat, step)
    }
    if (step ~ /^(turn|store|load|set)/) {
        return step_in_cell(seat, step)
    }
    if (step == "end-in") {
        return go_on(seat, "", queue_lower++, "end-in")
    }
    return go_on(seat, "", queue_upper--, "end-out")
}

function claim_insertion(seat, step,    found) {
    found = queue_upper
    if (step == "test-up") {
        if (queue_is_shut) {
            return go_on(seat, "", found, "closed")
        }
        return found < queue_size ? go_on(seat, "add-up", found, "-") : go_on(seat, "", found, "no-room")
    }
    if (step == "back-up") {
        queue_upper--
        return go_on(seat, "", found, "back-in")
    }
    queue_upper++
    if (queue_is_shut) {
        return go_on(seat, "back-up", found, "late-in")
    }
    return found < queue_size ? go_on(seat, "ticket-in", found, "claim-in") : go_on(seat, "back-up", found, "over-in")
}

function claim_deletion(seat, step,    found) {
    found = queue_lower
    if (step == "test-low") {
        return found >= 1 ? go_on(seat, "sub-low", found, "-") : go_on(seat, "", found, "no-item")
    }
    if (step == "back-low") {
        queue_lower++
        return go_on(seat, "", found, "back-out")
    }
    queue_lower--
    return found >= 1 ? go_on(seat, "ticket-out", found, "claim-out") : go_on(seat, "back-low", found, "over-out")
}

function draw_ticket(seat, step) {
    if (step == "ticket-in") {
        queue_ticket[seat] = queue_draws_in++
        queue_put[queue_ticket[seat]] = queue_item[seat]
        return go_on(seat, "turn-in", queue_ticket[seat], "put " queue_item[seat])
    }
    queue_ticket[seat] = queue_draws_out++
    return go_on(seat, "turn-out", queue_ticket[seat], "got " queue_put[queue_ticket[seat]])
}

function step_in_cell(seat, step,    ticket, cell, turn) {
    ticket = queue_ticket[seat]
    cell = ticket % queue_size
    turn = 2 * int(ticket / queue_size)
    if (step == "turn-in") {
        return go_on(seat, queue_turn[cell] + 0 == turn ? "store-item" : step, queue_turn[cell] + 0, "-")
    }
    if (step == "turn-out") {
        return go_on(seat, queue_turn[cell] + 0 == turn + 1 ? "load-item" : step, queue_turn[cell] + 0, "-")
    }
    if (step == "store-item") {
        queue_content[cell] = queue_item[seat]
        return go_on(seat, "set-full", queue_item[seat], "-")
    }
    if (step == "load-item") {
        return go_on(seat, "set-free", queue_content[cell], "-")
    }
    if (step == "set-full") {
        queue_turn[cell] = turn + 1
        return go_on(seat, "end-in", turn + 1, "fill " ticket)
    }
    queue_turn[cell] = turn + 2
    return go_on(seat, "end-out", turn + 2, "take " ticket)
}
