# The kinds of lines and bands: what they mean, their colours, strokes, patterns and shapes. Hues are those of Okabe and
# Ito, and each kind has a shape, a stroke or a pattern of its own in addition to its hue.

BEGIN {
    # kind, object (or both), shape, tint, stroke, its width, its dashes, pattern, meaning
    add_kind("look", "", "square", "#ffffff", "#767676", 1, "", "none", "a test or look: the seat goes on")
    add_kind("claim", "", "round", "#dcebf7", "#0072b2", 2, "", "solid", "a claim granted")
    add_kind("over", "", "pointed", "#fbe3d6", "#d55e00", 2, "", "slanted", "an over-claim: its retest fails")
    add_kind("withdrawal", "", "square", "#fdf2d6", "#b07800", 2, "7 3", "upright", "an over-claim withdrawn")
    add_kind("refusal", "", "cut", "#f8e6f0", "#a3447a", 2, "", "crossed", "refused at its test")
    add_kind("ticket", "", "square", "#e2f2fb", "#2a7fb0", 1, "", "level", "a ticket drawn: an item put or got")
    add_kind("cell", "", "double", "#dcf2ea", "#00805c", 1, "", "chequered", "work in the cell")
    add_kind("wait", "", "square", "#f0f0f0", "#4d4d4d", 1, "2 3", "dotted", "a look at a turn that has not come")
    add_kind("end", "", "round", "#ededed", "#222222", 1, "", "solid", "the call ends")
    add_kind("shut", "", "double", "#ffffff", "#000000", 3, "", "solid", "the queue is shut")
    add_kind("event", "", "cut", "#ffffff", "#000000", 1, "2 2", "crossed", "an event refused: no step is made")
    add_kind("open", "band", "", "#8c8c8c", "", 0, "", "", "in a call, nothing claimed yet")
    add_kind("claimed", "band", "", "#cfe4f4", "#0072b2", 1, "", "", "holds what it claimed")
    add_kind("over-claimed", "band", "", "url(#slanted-d55e00)", "#d55e00", 1, "", "", "over-claimed, not withdrawn yet")
    add_kind("waiting", "band", "", "url(#dotted-4d4d4d)", "#4d4d4d", 1, "2 3", "", "waits for the turn of its cell")
}

function add_kind(name, sort, shape, tint, stroke, width, dashes, pattern, meaning) {
    kind_names[++kinds_known] = name
    kind_is_band[name] = sort == "band"
    kind_shape[name] = shape
    kind_tint[name] = tint
    kind_stroke[name] = stroke
    kind_width[name] = width
    kind_dashes[name] = dashes
    kind_pattern[name] = pattern
    kind_meaning[name] = meaning
}

# The text as XML allows it.
function escaped(text) {
    gsub(/&/, "\\&amp;", text)
    gsub(/</, "\\&lt;", text)
    gsub(/>/, "\\&gt;", text)
    return text
}

# The text, cut to this many characters.
function cut_to(text, most) {
    return length(text) > most ? substr(text, 1, most - 1) "\342\200\246" : text
}

function write_text(class, x, y, text) {
    print "<text class=\"" class "\" x=\"" x "\" y=\"" y "\">" escaped(text) "</text>"
}

function write_rect(x, y, width, height, paint) {
    print "<rect x=\"" x "\" y=\"" y "\" width=\"" width "\" height=\"" height "\" " paint "/>"
}

function paint_of(name) {
    return "fill=\"" kind_tint[name] "\"" stroke_of(name)
}

function stroke_of(name) {
    return " stroke=\"" kind_stroke[name] "\" stroke-width=\"" kind_width[name] "\"" \
        (kind_dashes[name] == "" ? "" : " stroke-dasharray=\"" kind_dashes[name] "\"")
}

# The box of a kind of line, with its pattern in a strip at the left.
function write_box(name, x, y, width, height,    shape) {
    shape = kind_shape[name]
    if (shape == "pointed") {
        write_polygon(name, x, y, width, height, 6, int(height / 2))
    } else if (shape == "cut") {
        write_polygon(name, x, y, width, height, 8, 8)
    } else {
        write_rect(x, y, width, height, (shape == "round" ? "rx=\"9\" " : "") paint_of(name))
    }
    if (shape == "double") {
        write_rect(x + 3, y + 3, width - 6, height - 6, "fill=\"none\" stroke=\"" kind_stroke[name] "\"")
    }
    if (kind_pattern[name] != "none") {
        write_rect(x + 7, y + 7, 7, height - 14, "fill=\"" fill_of(name) "\"")
    }
}

# An octagon whose corners are cut by this much; a hexagon if the cuts meet at half the height.
function write_polygon(name, x, y, width, height, across, down,    right, bottom) {
    right = x + width
    bottom = y + height
    print "<path d=\"M" x + across " " y "H" right - across "L" right " " y + down "V" bottom - down "L" right - across " " bottom \
        "H" x + across "L" x " " bottom - down "V" y + down "Z\" " paint_of(name) "/>"
}

# What fills the strip of a kind: its stroke's colour, in its pattern.
function fill_of(name) {
    return kind_pattern[name] == "solid" ? kind_stroke[name] : "url(#" pattern_name(name) ")"
}

function pattern_name(name) {
    return kind_pattern[name] "-" substr(kind_stroke[name], 2)
}

# A band of a lane, which shows the state of a seat between its steps.
function write_band(name, x, y, width) {
    if (width <= 0) {
        return
    }
    if (name == "open") {
        write_rect(x, y - 2, width, 4, "fill=\"" kind_tint[name] "\"")
    } else {
        write_rect(x, y - 11, width, 22, paint_of(name))
    }
}
