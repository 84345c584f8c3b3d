# Draws the trace on standard input as an SVG: a lane for each seat, a column for each line, in rows of `most_columns`.
# The title comes by the environment, as PICTURE_TITLE, so that no character of it is an escape.

BEGIN {
    margin = 16
    label_width = 104
    column_width = 92
    lane_height = 58
    thin_lane_height = 28
    most_idle_lanes = 8
    box_height = 48
    count_height = 20
    legend_height = 32
}

{
    if (trace_fault == "") {
        trace_fault = read_line($0)
        trace_fault_line = NR
    }
}

END {
    if (trace_fault == "") {
        trace_fault = follow_trace()
    }
    if (trace_fault == "" && trace_length == 0) {
        print "picture: the trace is empty" | "cat 1>&2"
        exit 2
    }
    if (trace_fault != "") {
        print "picture: line " trace_fault_line ": " trace_fault | "cat 1>&2"
        exit 2
    }
    lay_out()
    write_head(ENVIRON["PICTURE_TITLE"])
    for (row = 1; row <= rows; row++) {
        write_row(row, (row - 1) * columns + 1, row_top[row])
    }
    write_legend(row_top[rows + 1], legend_count, legend_across, full_width - 2 * margin)
    print "</svg>"
}

# The sizes: rows of `most_columns` lines, the last perhaps shorter, wide enough for the legend.
function lay_out() {
    rows = int((trace_length + most_columns - 1) / most_columns)
    columns = rows > 1 ? most_columns : trace_length
    full_width = 2 * margin + label_width + columns * column_width
    if (full_width < 680) {
        full_width = 680
    }
    legend_count = gather_legend()
    legend_across = int((full_width - 2 * margin) / 300)
    title_lines = wrap_title(ENVIRON["PICTURE_TITLE"], int((full_width - 2 * margin) / 9))
    place_rows(44 + 22 * title_lines)
    full_height = row_top[rows + 1] + int((legend_count + legend_across - 1) / legend_across) * legend_height + 8
}

# Computes the top of each row from `top` on, and that of the legend after the last one.
function place_rows(top,    row, lane, count_rows) {
    count_rows = trace_object == "" ? 0 : trace_object == "room" ? 2 : 3
    row_top[1] = top
    for (row = 1; row <= rows; row++) {
        fit_lanes(row, (row - 1) * columns + 1)
        row_top[row + 1] = row_top[row] + 54 + count_rows * count_height
        for (lane = 1; lane <= lanes; lane++) {
            row_top[row + 1] += lane_room[row, lane]
        }
    }
}

# The height of each lane in a row: thin if its seat has no line there, and none if there are many lanes and it is in no call.
function fit_lanes(row, first,    i, lane) {
    for (lane = 1; lane <= lanes; lane++) {
        lane_room[row, lane] = lanes <= most_idle_lanes || lane_stand[lane] != "" ? thin_lane_height : 0
    }
    for (i = first; i < first + columns && i <= trace_length; i++) {
        lane = lane_of[line_seat[i]]
        lane_room[row, lane] = lane_height
        lane_stand[lane] = stand[i]
    }
}

# Breaks the title between words, into `title_line`; returns how many lines it has.
function wrap_title(title, most,    words, word, i, count) {
    words = split(title, word, " ")
    for (i = 1; i <= words; i++) {
        if (count == 0 || length(title_line[count] " " word[i]) > most) {
            title_line[++count] = word[i]
        } else {
            title_line[count] = title_line[count] " " word[i]
        }
    }
    return count + 0
}

function write_head(title,    i) {
    print "<svg xmlns=\"http://www.w3.org/2000/svg\" width=\"" full_width "\" height=\"" full_height "\" viewBox=\"0 0 " \
        full_width " " full_height "\" role=\"img\">"
    print "<title>" escaped(title == "" ? "A schedule" : title) "</title>"
    print "<style>text{font-family:'DejaVu Sans Mono',Menlo,Consolas,monospace;font-size:10px;fill:#111}" \
        ".title{font-family:'DejaVu Sans',Verdana,sans-serif;font-size:16px;font-weight:bold}" \
        ".word{font-family:'DejaVu Sans',Verdana,sans-serif;font-size:12px}" \
        ".step{font-weight:bold}.number{font-size:12px;text-anchor:middle}" \
        ".changed{font-size:12px;text-anchor:middle;font-weight:bold}.line{text-anchor:middle;fill:#444}</style>"
    write_patterns()
    write_rect(0, 0, full_width, full_height, "fill=\"#ffffff\"")
    for (i = 1; i <= title_lines; i++) {
        write_text("title", margin, 8 + 22 * i, title_line[i])
    }
    write_text("word", margin, 26 + 22 * title_lines, summary())
}

function summary() {
    if (trace_length == 0) {
        return "The trace is empty: no steps."
    }
    return counted(trace_length, "line") " of " counted(lanes, "seat") (trace_object == "" ? "" : " of a " trace_object) \
        ". Time runs to the right" (rows > 1 ? ", row by row." : ".")
}

function counted(count, noun) {
    return count " " noun (count == 1 ? "" : "s")
}

# Draws one row of lines from `first` on.
function write_row(row, first, top,    last, i, lane, bottom) {
    last = first + columns - 1 < trace_length ? first + columns - 1 : trace_length
    write_text("word", margin, top + 14, "line")
    for (i = first; i <= last; i++) {
        write_text("line", column_x(i, first) + int(column_width / 2), top + 14, i)
    }
    bottom = top + 20
    for (lane = 1; lane <= lanes; lane++) {
        lane_top[lane] = bottom
        if (lane_room[row, lane] > 0) {
            write_lane(lane, first, last, bottom + int(lane_room[row, lane] / 2))
        }
        bottom += lane_room[row, lane]
    }
    for (i = first; i <= last; i++) {
        write_step(i, column_x(i, first), lane_top[lane_of[line_seat[i]]])
    }
    write_state(first, last, bottom + 6)
}

# Draws what follows the lines of a row: the counts and the contents.
function write_state(first, last, bottom) {
    if (trace_object == "room") {
        write_counts("value", value_after, first, last, bottom)
        write_counts("held in all", held_after, first, last, bottom + count_height)
    } else if (trace_object == "queue") {
        write_counts("upper count", upper_after, first, last, bottom)
        write_counts("lower count", lower_after, first, last, bottom + count_height)
        write_contents(first, last, bottom + 2 * count_height)
    }
}

function column_x(i, first) {
    return margin + label_width + (i - first) * column_width
}

# The name of a lane, its ground line, and the bands that show the state of its seat.
function write_lane(lane, first, last, middle,    i, x, right, now) {
    x = margin + label_width
    right = x + (last - first + 1) * column_width
    write_text("word", margin, middle + 4, "seat " cut_to(lane_seat[lane], 8))
    write_rect(x, middle, right - x, 1, "fill=\"#b8b8b8\"")
    now = drawn_stand[lane]
    for (i = first; i <= last; i++) {
        if (lane_of[line_seat[i]] == lane && stand[i] != now) {
            write_stand(now, x, middle, column_x(i, first) + int(column_width / 2))
            x = column_x(i, first) + int(column_width / 2)
            now = stand[i]
        }
    }
    write_stand(now, x, middle, right)
    drawn_stand[lane] = now
}

function write_stand(now, x, middle, right) {
    if (now != "") {
        write_band(band_of(now), x, middle, right - x)
    }
}

function band_of(now) {
    return now == "over" ? "over-claimed" : now
}

# Whether the number of a step's line is the one that it wrote.
function is_store(step) {
    return step == "store-item" || step == "set-full" || step == "set-free"
}

# The box of a line: the step, the number found or written, and the mark.
function write_step(i, x, top,    y) {
    y = top + int((lane_height - box_height) / 2)
    print "<g><title>line " i ": " escaped(line_text[i]) "</title>"
    write_box(line_kind[i], x + 3, y, column_width - 6, box_height)
    if (line_name[i] != "") {
        write_text("step", x + 20, y + 20, "refused")
        write_text("", x + 20, y + 34, short_refusal(line_name[i]))
    } else {
        write_text("step", x + 20, y + 15, line_step[i])
        write_text("", x + 20, y + 28, cut_to((is_store(line_step[i]) ? "wrote " : "found ") line_found[i], 10))
        if (line_mark[i] != "-") {
            write_text("", x + 20, y + 41, cut_to(line_mark[i], 10))
        }
    }
    print "</g>"
}

function short_refusal(name) {
    return name == "no-such-seat" ? "no seat" : name
}

# A row of numbers: those that the line changed stand out.
function write_counts(label, after, first, last, top,    i, x, is_changed) {
    write_text("word", margin, top + 15, label)
    for (i = first; i <= last; i++) {
        x = column_x(i, first)
        is_changed = after[i] != (i > 1 ? after[i - 1] : 0) ""
        write_rect(x, top, column_width, count_height, "fill=\"" (is_changed ? "#dedede" : "#ffffff") "\" stroke=\"#8c8c8c\"")
        write_text(is_changed ? "changed" : "number", x + int(column_width / 2), top + 15, after[i])
    }
}

# The items of the queue, oldest first, in one cell for as long as they stay.
function write_contents(first, last, top,    i, from, x, width, tint) {
    write_text("word", margin, top + 15, "contents")
    from = first
    for (i = first; i <= last; i++) {
        if (i == last || puts_after[i + 1] != puts_after[i] || gots_after[i + 1] != gots_after[i]) {
            x = column_x(from, first)
            width = (i - from + 1) * column_width
            tint = puts_after[i] > gots_after[i] ? "#dcebf7" : "#ffffff"
            write_rect(x, top, width, count_height, "fill=\"" tint "\" stroke=\"#8c8c8c\"")
            write_text("number", x + int(width / 2), top + 15, contents_after(i, int((width - 8) / 8)))
            from = i + 1
        }
    }
}

# The items in the queue after a line, in this many characters.
function contents_after(i, most,    j, text) {
    if (puts_after[i] == gots_after[i]) {
        return cut_to("(empty)", most)
    }
    for (j = gots_after[i]; j < puts_after[i] && length(text) <= most; j++) {
        text = text (text == "" ? "" : " ") items[j]
    }
    return cut_to(text, most)
}
