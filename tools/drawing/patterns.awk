# The patterns of the kinds of lines and bands, each in the colour of its kind.

function write_patterns(    i, name) {
    print "<defs>"
    for (i = 1; i <= kinds_known; i++) {
        name = kind_names[i]
        if (!kind_is_band[name] && kind_pattern[name] !~ /^(none|solid)$/ && !(pattern_name(name) in is_written)) {
            is_written[pattern_name(name)] = 1
            write_pattern(pattern_name(name), kind_pattern[name], kind_stroke[name])
        }
    }
    print "</defs>"
}

function write_pattern(id, pattern, colour,    line) {
    line = "stroke=\"" colour "\" stroke-width="
    print "<pattern id=\"" id "\" width=\"6\" height=\"6\" patternUnits=\"userSpaceOnUse\">"
    print "<rect width=\"6\" height=\"6\" fill=\"#ffffff\"/>"
    if (pattern == "slanted") print "<path d=\"M-1 7L7 -1M-4 4L4 -4M2 10L10 2\" " line "\"2\"/>"
    if (pattern == "upright") print "<path d=\"M1 0V6M4 0V6\" " line "\"1.5\"/>"
    if (pattern == "level") print "<path d=\"M0 1H6M0 4H6\" " line "\"1.5\"/>"
    if (pattern == "crossed") print "<path d=\"M0 0L6 6M6 0L0 6\" " line "\"1.2\"/>"
    if (pattern == "chequered") print "<path d=\"M0 0H3V3H0ZM3 3H6V6H3Z\" fill=\"" colour "\"/>"
    if (pattern == "dotted") print "<circle cx=\"3\" cy=\"3\" r=\"1.4\" fill=\"" colour "\"/>"
    print "</pattern>"
}
