# Random numbers that are the same on every awk: x := 48271 x mod (2^31 - 1), by whole numbers below 2^53.

# Begins the numbers of one schedule: they depend only on the seed, the kind of schedule and its number.
function begin_numbers(seed, kind, number,    i) {
    random_state = 1 + (seed * 7919 + kind * 15485863 + number * 104729) % 2147483646
    for (i = 0; i < 8; i++) {
        draw(1)
    }
}

# A number from 0 to `limit` - 1.
function draw(limit) {
    random_state = (random_state * 48271) % 2147483647
    return random_state % limit
}

# Whether something that happens this many times in a hundred happens now.
function happens(percent) {
    return draw(100) < percent + 0
}

# One of the words of a text.
function word_of(text,    words) {
    return words[1 + draw(split(text, words, " "))]
}
