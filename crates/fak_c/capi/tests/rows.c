/* Runs the rows of the files that are its words (rows.h). A row that does not hold is printed with what was found, and ends its section.
 * The last line is 'N passed, M failed'. */
#include "rows.h"

#include <string.h>

static const uint64_t unwritten = UINT64_C(0xA5A5A5A5A5A5A5A5);
static const char *const codes[] = {"OK", "NOT_YET", "FULL", "EMPTY", "CLOSED", "WORN", "NO_SEAT", "WRONG_STATE", "BAD_LIMIT", "MEMORY",
    "PARKS", "WAKES", "BUSY", "SLEEPS", "GAVE_UP"};
static const struct {
    const char *name;
    uint64_t value;
} names[] = {{"no", 0}, {"yes", 1}, {"IDLE", FAK_C_IDLE}, {"INSERTING", FAK_C_INSERTING}, {"DELETING", FAK_C_DELETING},
    {"PARKING", FAK_C_SEM_PARKING}, {"WAKING", FAK_C_SEM_WAKING}, {"NOTHING", FAK_C_FILES_NOTHING}, {"READING", FAK_C_FILES_READING},
    {"WRITING", FAK_C_FILES_WRITING}, {"OPEN", FAK_CHANNEL_OPEN}, {"SLEEPING", FAK_CHANNEL_SLEEPING}};

#define LENGTH(list) (sizeof(list) / sizeof *(list))

static fak_c_seat handles[HANDLES];

/* ---- What calls write ---- */

static out *out_at(row *self, size_t at, int kind) {
    CHECK(at < MOST_NUMBERS);
    self->outs[at].kind = kind;
    return &self->outs[at];
}

uint64_t *word_at(row *self, size_t at) {
    return &out_at(self, at, WORD)->word;
}

int64_t *count_at(row *self, size_t at) {
    return (int64_t *)word_at(self, at);
}

uint32_t *state_at(row *self, size_t at) {
    return &out_at(self, at, STATE)->state;
}

bool *truth_at(row *self, size_t at) {
    return &out_at(self, at, TRUTH)->truth;
}

uint64_t *word_or_null_at(row *self, size_t at) {
    bool is_null = at < self->wanted_count && strcmp(self->wanted[at], "-") == 0;
    return is_null ? NULL : word_at(self, at);
}

uint64_t *items_of(row *self) {
    self->has_items = true;
    return self->items;
}

/* ---- Words of a row ---- */

/* A number by operations from left to right, or a name. */
static uint64_t number_of(const char *word) {
    const char *at = word;
    char *end;
    uint64_t number;
    for (size_t i = 0; i < LENGTH(names); i++)
        if (strcmp(word, names[i].name) == 0)
            return names[i].value;
    number = strtoull(at, &end, 10);
    for (at = end; *at != '\0'; at = end) {
        uint64_t operand = strtoull(at + 1, &end, 10), base = number;
        CHECK(end != at + 1);
        if (*at == '+')
            number += operand;
        else if (*at == '-')
            number -= operand;
        else if (*at == '*')
            number *= operand;
        else if (*at == '/')
            number /= operand;
        else if (*at == '^')
            for (number = 1; operand > 0; operand--)
                number *= base;
        else
            CHECK(false);
    }
    return number;
}

/* Whether a word names handles: the first of them, its index, and how many. */
static bool are_handles(const char *word, fak_c_seat **first, uint64_t *index, size_t *count) {
    bool is_lower = word[0] >= 'a' && word[0] <= 'z', is_upper = word[0] >= 'A' && word[0] <= 'Z';
    if ((!is_lower && !is_upper) || (word[1] != '\0' && word[1] != ':'))
        return false;
    *index = (uint64_t)(is_lower ? word[0] - 'a' : LOWER_HANDLES + word[0] - 'A');
    *first = &handles[*index];
    *count = word[1] == ':' ? number_of(word + 2) : 1;
    return true;
}

/* ---- A row ---- */

/* Whether the value of this number is what the row has. Without one it was not written. */
static bool is_wanted(const row *self, size_t at) {
    const out *found = &self->outs[at];
    bool is_written = at < self->wanted_count && strcmp(self->wanted[at], "-") != 0;
    bool is_any = is_written && strcmp(self->wanted[at], "?") == 0;
    uint64_t wanted = is_written && !is_any ? number_of(self->wanted[at]) : 0;
    switch (found->kind) {
    case WORD:
        return is_any ? found->word != unwritten : found->word == (is_written ? wanted : unwritten);
    case STATE:
        return found->state == (is_written ? (uint32_t)wanted : (uint32_t)unwritten);
    case TRUTH:
        return found->truth == (is_written ? wanted == 1 : true);
    default:
        return !is_written;
    }
}

static bool are_wanted(row *self) {
    size_t fixed = 0;
    while (fixed < MOST_NUMBERS && self->outs[fixed].kind != NOTHING)
        fixed++;
    for (size_t i = 0; self->has_items && i < MOST_NUMBERS - fixed; i++)
        *word_at(self, fixed + i) = self->items[i];
    for (size_t i = 0; i < MOST_NUMBERS; i++)
        if (!is_wanted(self, i))
            return false;
    return true;
}

/* What the call finds where it writes. A truth is the contrary of what is wanted, and true if it is not to be written. */
static void prepare(row *self) {
    for (size_t i = 0; i < MOST_NUMBERS; i++) {
        bool is_yes = i < self->wanted_count && strcmp(self->wanted[i], "yes") == 0;
        self->outs[i] = (out){NOTHING, unwritten, (uint32_t)unwritten, !is_yes};
        self->items[i] = unwritten;
    }
}

static void print_found(const row *self, int32_t code) {
    printf("  found: %s", code >= 0 && code < (int32_t)LENGTH(codes) ? codes[code] : "no code");
    for (size_t i = 0; i < MOST_NUMBERS && self->outs[i].kind != NOTHING; i++) {
        const out *found = &self->outs[i];
        printf(" %lld", found->kind == WORD ? (long long)found->word : found->kind == STATE ? (long long)found->state : found->truth);
    }
    printf("\n");
}

/* Whether the call returns this code and writes what the row has. */
static bool holds(row *self, const named_call *call, const char *code) {
    int32_t found;
    prepare(self);
    found = call->call(self);
    if (found >= 0 && found < (int32_t)LENGTH(codes) && strcmp(codes[found], code) == 0 && are_wanted(self))
        return true;
    printf("  %s\n", call->name);
    print_found(self, found);
    return false;
}

/* Whether this holds of each call of another kind of handle. */
static bool others_hold(row *self, const char *kind, const char *code) {
    const named_call *const lists[] = {calls_of_objects, calls_of_channels};
    self->in[0] = self->in[1] = 1;
    self->in_count = 1;
    for (size_t i = 0; i < LENGTH(lists); i++)
        for (const named_call *call = lists[i]; call->name != NULL; call++)
            if (strcmp(call->kind, kind) != 0 && strcmp(call->kind, "open") != 0 && strcmp(call->kind, "any") != 0
                && !holds(self, call, code))
                return false;
    return true;
}

static const named_call *call_of(const char *name) {
    const named_call *const lists[] = {calls_of_objects, calls_of_channels};
    for (size_t i = 0; i < LENGTH(lists); i++)
        for (const named_call *call = lists[i]; call->name != NULL; call++)
            if (strcmp(call->name, name) == 0)
                return call;
    printf("  there is no call %s\n", name);
    return NULL;
}

/* Whether the row of these words holds: handles, a call, its arguments, `=`, a code and values. */
static bool row_holds(char **words, size_t count) {
    row self = {0};
    const named_call *call;
    size_t at = 2, called;
    CHECK(count >= 4 && count <= MOST_NUMBERS && are_handles(words[0], &self.seat, &self.index, &self.count));
    if (strcmp(words[1], "calls_except") == 0) {
        CHECK(count == 5 && strcmp(words[3], "=") == 0);
        return others_hold(&self, words[2], words[4]);
    }
    for (; at < count && strcmp(words[at], "=") != 0; at++)
        if (!are_handles(words[at], &self.other, &self.other_index, &self.other_count))
            self.in[self.in_count++] = number_of(words[at]);
    CHECK(at + 1 < count);
    for (size_t i = at + 2; i < count; i++)
        self.wanted[self.wanted_count++] = words[i];
    call = call_of(words[1]);
    called = call == NULL || strcmp(call->kind, "open") == 0 ? 1 : self.count;
    for (size_t i = 0; call != NULL && i < called; i++, self.seat++, self.index++)
        if (!holds(&self, call, words[at + 1]))
            return false;
    return call != NULL;
}

/* ---- Files ---- */

static size_t passed, failed;

/* All handles leave: no call is open, and nothing is held. One that can't leave is abandoned. */
static bool all_leave(void) {
    bool have_left = others_leave();
    for (size_t i = 0; i < HANDLES; i++) {
        have_left = (handles[i].at == NULL || fak_c_leave(&handles[i]) == FAK_C_OK) && have_left;
        handles[i] = (fak_c_seat){0};
    }
    return have_left;
}

/* Splits a line into its words, and counts them. */
static size_t split(char *line, char **words) {
    size_t count = 0;
    for (char *word = strtok(line, " \n"); word != NULL; word = strtok(NULL, " \n")) {
        CHECK(count < MOST_NUMBERS);
        words[count++] = word;
    }
    return count;
}

/* Runs the rows of a file. After one that does not hold, the rest of its section is left out. */
static void run_file(const char *path) {
    char line[512], copy[512], *words[MOST_NUMBERS];
    FILE *file = fopen(path, "r");
    bool skips = false, is_read = true;
    CHECK(file != NULL);
    for (size_t number = 1; is_read; number++) {
        size_t count;
        bool is_held;
        is_read = fgets(line, sizeof line, file) != NULL;
        if (is_read && line[0] == '#') {
            skips = skips || (!is_for_c && strncmp(line, "# (C)", 5) == 0);
            continue;
        }
        strcpy(copy, is_read ? line : "");
        count = split(copy, words);
        if (count > 0 && skips)
            continue;
        is_held = count == 0 ? all_leave() : row_holds(words, count);
        passed += count > 0 && is_held;
        failed += !is_held;
        skips = count > 0 && !is_held;
        if (!is_held)
            printf("%s:%zu: does not hold: %s", path, number, count > 0 ? line : "the end of the section\n");
    }
    fclose(file);
}

int main(int count, char **words) {
    for (int i = 1; i < count; i++)
        run_file(words[i]);
    printf("%zu passed, %zu failed\n", passed, failed);
    return failed > 0 || passed == 0;
}
