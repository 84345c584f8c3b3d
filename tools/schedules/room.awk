# The rules of a room, from the table of its steps in docs/FORMATS.md: what each seat's next step finds and leaves.

function open_room(bound) {
    room_bound = bound + 0
    room_value = 0
    split("", room_step)
    split("", room_amount)
    split("", room_held)
}

function is_room_seat_idle(seat) {
    return !(seat in room_step)
}

# Begins a call; returns the refusal, or nothing.
function begin_room(seat, call, amount) {
    if (!is_room_seat_idle(seat)) {
        return "mid-call"
    }
    if (call == "release" && room_held[seat] < amount) {
        return "not-held"
    }
    room_step[seat] = call == "tir" ? "test" : "release"
    room_amount[seat] = amount
    return ""
}

# Takes the seat's next step; returns its line without the seat, or nothing if the seat is idle.
function advance_room(seat,    step, amount, fits, line) {
    if (is_room_seat_idle(seat)) {
        return ""
    }
    step = room_step[seat]
    amount = room_amount[seat]
    fits = room_value + amount <= room_bound
    line = step " " room_value " "
    delete room_step[seat]
    if (step == "test") {
        if (fits) {
            room_step[seat] = "add"
        }
        return line (fits ? "-" : "no " amount)
    }
    if (step == "add") {
        room_value += amount
        if (fits) {
            room_held[seat] += amount
        } else {
            room_step[seat] = "back"
        }
        return line (fits ? "up " : "over ") amount
    }
    room_value -= amount
    if (step == "release") {
        room_held[seat] -= amount
    }
    return line step " " amount
}
