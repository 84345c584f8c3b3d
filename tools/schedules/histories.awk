# Turns the traces FOLDER/queue.I.found into histories FOLDER/history.I.json, and breaks each in one place:
# FOLDER/broken.I.json. Next to them is what `fak check` must say of them, by the judge of history.awk (the verdict,
# then its status). A trace's own history is to be legal, whatever the judge says.
# Variables: seed, count, folder.

BEGIN {
    most_marks = 4096
    kinds_known = "claim-in over-in back-in no-room put fill end-in close closed late-in " \
        "claim-out over-out back-out no-item got take end-out"
    for (number = 1; number <= count; number++) {
        begin_numbers(seed, 3, number)
        size = size_of(folder "/queue." number ".json")
        mark_count = read_marks(folder "/queue." number ".found")
        fault = first_fault(size, seats, kinds, numbers, mark_count)
        write_history("history." number, size, "legal\n" (fault < 0 ? "" : "by the judge: fault at " fault "\n") "status 0\n")
        fault = break_history(size)
        write_history("broken." number, size, fault < 0 ? "legal\nstatus 0\n" : "fault at " fault "\nstatus 3\n")
    }
}

function size_of(path,    line) {
    getline line < path
    close(path)
    match(line, /"size":[0-9]+/)
    return substr(line, RSTART + 7, RLENGTH - 7)
}

# Reads the marks of a trace into seats, kinds and numbers; returns how many they are.
function read_marks(path,    line, field, marks) {
    marks = 0
    while (marks < most_marks && (getline line < path) > 0) {
        if (split(line, field, " ") >= 4 && field[2] != "refused" && field[4] != "-") {
            marks++
            seats[marks] = field[1]
            kinds[marks] = field[4]
            numbers[marks] = bears_number(field[4]) ? field[5] : ""
        }
    }
    close(path)
    return marks
}

function bears_number(kind) {
    return kind ~ /^(put|got|fill|take)$/
}

function write_history(name, size, verdict,    marks, i) {
    marks = ""
    for (i = 1; i <= mark_count; i++) {
        marks = marks (i > 1 ? "," : "") "[" seats[i] ",\"" kinds[i] "\"" (numbers[i] == "" ? "" : "," numbers[i]) "]"
    }
    write_file(folder "/" name ".json", "{\"size\":" size ",\"marks\":[" marks "]}\n")
    write_file(folder "/" name ".wanted", verdict)
}

function write_file(path, text) {
    printf "%s", text > path
    close(path)
}

# Breaks the marks in one place, tried anew up to 20 times if they are legal still; returns the judge's fault, or -1.
function break_history(size,    attempt, place, fault) {
    fault = -1
    for (attempt = 0; attempt < 20 && fault < 0 && mark_count > 0; attempt++) {
        place = 1 + draw(mark_count)
        keep_marks()
        change_marks(place, word_of("drop double swap kind number seat"))
        fault = first_fault(size, seats, kinds, numbers, mark_count)
        if (fault < 0 && attempt < 19) {
            restore_marks()
        }
    }
    return fault
}

function keep_marks(    i) {
    kept_count = mark_count
    for (i = 1; i <= mark_count; i++) {
        kept_seats[i] = seats[i]
        kept_kinds[i] = kinds[i]
        kept_numbers[i] = numbers[i]
    }
}

function restore_marks(    i) {
    mark_count = kept_count
    for (i = 1; i <= mark_count; i++) {
        put_mark(i, i)
    }
}

# Puts a kept mark in a place.
function put_mark(place, kept) {
    seats[place] = kept_seats[kept]
    kinds[place] = kept_kinds[kept]
    numbers[place] = kept_numbers[kept]
}

function change_marks(place, change,    i, other) {
    if (change == "drop") {
        mark_count--
        for (i = place; i <= mark_count; i++) {
            put_mark(i, i + 1)
        }
    } else if (change == "double" && mark_count < most_marks) {
        mark_count++
        for (i = place + 1; i <= mark_count; i++) {
            put_mark(i, i - 1)
        }
    } else if (change == "swap") {
        other = happens(50) && place < mark_count ? place + 1 : 1 + draw(mark_count)
        put_mark(place, other)
        put_mark(other, place)
    } else {
        change_mark(place, change)
    }
}

# Changes the kind, the number or the seat of one mark.
function change_mark(place, change) {
    if (change == "kind") {
        kinds[place] = word_of(kinds_known)
        numbers[place] = bears_number(kinds[place]) ? (numbers[place] == "" ? draw(3) : numbers[place]) : ""
    } else if (change == "seat") {
        seats[place] = draw(64)
    } else if (numbers[place] != "") {
        numbers[place] = happens(80) ? draw(20) : "18446744073709551615"
    }
}
