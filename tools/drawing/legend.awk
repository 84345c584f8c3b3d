# The legend: the kinds of lines and bands in the picture.

# Collects the kinds in the picture as `legend_names`; returns how many there are.
function gather_legend(    i, name, count) {
    for (i = 1; i <= trace_length; i++) {
        is_drawn[line_kind[i]] = 1
        is_drawn[band_of(stand[i])] = 1
    }
    for (i = 1; i <= kinds_known; i++) {
        name = kind_names[i]
        if (name in is_drawn) {
            legend_names[++count] = name
        }
    }
    return count
}

# Draws the legend below `top`, this many next to one another.
function write_legend(top, count, across, width,    i, x, y, name) {
    for (i = 1; i <= count; i++) {
        name = legend_names[i]
        x = margin + int((i - 1) % across * width / across)
        y = top + int((i - 1) / across) * legend_height
        if (kind_is_band[name]) {
            write_band(name, x, y + 12, 36)
        } else {
            write_box(name, x, y, 36, 24)
        }
        write_text("word", x + 46, y + 16, meaning_of(name))
    }
}

function meaning_of(name) {
    if (trace_object == "room" && name == "end") {
        return "an amount given back"
    }
    return kind_meaning[name]
}
