# Compares FOLDER/KIND.I.found with FOLDER/KIND.I.wanted for I from 1 to count. What was tried goes to FOLDER/KIND.counts,
# the first difference to FOLDER/KIND.difference; prints how many are the same, and how many differ. What has no wanted line differs.
# Variables: seed, count, folder, kind, title.

BEGIN {
    for (number = 1; number <= count; number++) {
        compare(folder "/" kind "." number)
    }
    print title ": " count " tried, " counted() ", " differing + 0 " differ" > (folder "/" kind ".counts")
    print count - differing, differing + 0
}

function counted() {
    if (kind == "queue" || kind == "room") {
        return steps + 0 " steps, " refused + 0 " refused events"
    }
    return faulty + 0 " faulty"
}

function compare(path,    wanted, found, wanted_more, found_more, line, differs) {
    do {
        wanted_more = (getline wanted < (path ".wanted")) > 0
        found_more = (getline found < (path ".found")) > 0
        line++
        wanted = wanted_more ? wanted "" : "the end"
        found = found_more ? found "" : "the end"
        differs = wanted != found || line == 1 && !wanted_more
        count_line(wanted)
    } while (!differs && wanted_more)
    close(path ".wanted")
    close(path ".found")
    if (differs && differing++ == 0) {
        tell(path, line, wanted, found)
    }
}

function count_line(line) {
    refused += line ~ /^[0-9]+ refused /
    steps += line ~ /^[0-9]+ / && line !~ /^[0-9]+ refused /
    faulty += line ~ /^fault at /
}

# The first difference, with the input by which it can be tried again.
function tell(path, line, wanted, found,    input) {
    getline input < (path ".json")
    close(path ".json")
    printf "first difference of %s: number %d of seed %d, line %d\n  wanted: %s\n  found:  %s\n  input:  %s\n", \
        title, number, seed, line, wanted, found, input > (folder "/" kind ".difference")
}
