# Makes `count` random schedules of queues and of rooms: FOLDER/queue.I.json, and what `fak replay` must write of it by the
# rules of queue.awk, FOLDER/queue.I.wanted (the trace, then its status); the same for `room`.
# Variables: seed, count, folder.

BEGIN {
    large = "4294967296 4611686018427387904 9223372036854775808 18446744073709551615"
    for (number = 1; number <= count; number++) {
        begin_numbers(seed, 1, number)
        make_queue_schedule("queue." number)
        begin_numbers(seed, 2, number)
        make_room_schedule("room." number)
    }
}

function make_queue_schedule(name,    size) {
    size = happens(70) ? 1 + draw(4) : happens(60) ? 1 + draw(16) : happens(60) ? 1 + draw(200) : 1 + draw(4096)
    inserting = word_of("30 50 50 70")
    shutting = word_of("0 0 0 2 6")
    open_queue(size)
    make_schedule(name, "queue", "\"size\":" size)
}

function make_room_schedule(name,    bound) {
    bound = happens(60) ? draw(9) : happens(60) ? draw(200) : happens(70) ? draw(5000) : "4294967296"
    largest_amount = word_of("1 2 4 4 1024")
    open_room(bound)
    make_schedule(name, "room", "\"bound\":" bound)
}

# A schedule of up to 3,000 events; most seats of most schedules are few, so that they meet.
function make_schedule(name, object, extent,    seats, length_of, events, i) {
    seats = happens(85) ? 1 + draw(6) : 1 + draw(64)
    length_of = happens(5) ? 0 : happens(70) ? draw(80) : happens(80) ? draw(300) : draw(3000)
    wanted = ""
    for (i = 0; i < length_of; i++) {
        events = events (i ? "," : "") make_event(object, seats)
    }
    write_file(folder "/" name ".json", "{\"object\":\"" object "\"," extent ",\"seats\":" seats ",\"events\":[" events "]}\n")
    write_file(folder "/" name ".wanted", wanted "status 0\n")
}

# A number of 1 to 19 digits, as a text.
function any_number(    digits, i) {
    digits = 1 + draw(9)
    for (i = draw(19); i > 0; i--) {
        digits = digits draw(10)
    }
    return digits
}

function write_file(path, text) {
    printf "%s", text > path
    close(path)
}

# One event on the object: mostly a call if the seat is idle and a step if it is not, else one to be refused.
function make_event(object, seats,    seat, is_idle) {
    if (happens(2)) {
        seat = happens(50) ? seats + draw(3) : word_of(large)
        return happens(50) ? refuse_call(object, seat) : make_steps(object, seat, 0)
    }
    seat = draw(seats)
    is_idle = object == "queue" ? is_queue_seat_idle(seat) : is_room_seat_idle(seat)
    if (happens(is_idle ? 90 : 6)) {
        return object == "queue" ? call_queue(seat) : call_room(seat)
    }
    return make_steps(object, seat, 1)
}

# A call of a seat that the object does not have.
function refuse_call(object, seat) {
    wanted = wanted seat " refused no-such-seat\n"
    return "[" seat "," (object == "queue" ? "\"delete\"" : "\"tir\",1") "]"
}

function make_steps(object, seat, is_seat,    steps, i, line) {
    steps = happens(85) ? 1 : happens(96) ? 1 + draw(8) : 1 + draw(64)
    for (i = 0; i < steps; i++) {
        if (is_seat) {
            line = object == "queue" ? advance_queue(seat) : advance_room(seat)
            wanted = wanted seat " " (line == "" ? "refused idle-seat" : line) "\n"
        } else {
            wanted = wanted seat " refused no-such-seat\n"
        }
    }
    return "[" seat ",\"step\"" (steps == 1 && happens(80) ? "" : "," steps) "]"
}

function call_queue(seat,    call, item) {
    call = happens(shutting) ? "shut" : happens(inserting) ? "insert" : "delete"
    item = happens(60) ? draw(100) : happens(80) ? any_number() : word_of(large)
    note_refusal(seat, begin_queue(seat, call, item))
    return "[" seat ",\"" call "\"" (call == "insert" ? "," item : "") "]"
}

function call_room(seat,    call, amount) {
    call = happens(55) ? "tir" : "release"
    amount = 1 + draw(largest_amount)
    if (call == "release" && room_held[seat] > 0 && happens(90)) {
        amount = 1 + draw(room_held[seat] < 1024 ? room_held[seat] : 1024)
    } else if (call == "release" && happens(80)) {
        call = "tir"
    }
    note_refusal(seat, begin_room(seat, call, amount))
    return "[" seat ",\"" call "\"," amount "]"
}

function note_refusal(seat, refusal) {
    if (refusal != "") {
        wanted = wanted seat " refused " refusal "\n"
    }
}
