/* Tests as tables of rows, the files of the folder `rows`. rows.c reads them for C and C++, which bring a list of calls each; Rust has a
 * driver of its own. README.md of fak_c says how to add a row.
 *
 * A row is a call: `a insert 5 = OK 0` is fak_c_insert of the handle a with the item 5. It returns FAK_C_OK and writes 0, the ticket. What
 * has no value, or the value `-`, is not written. An empty line ends a section, whose handles begin empty; then all of them leave.
 *
 * - `a` to `z` are handles, and `A` to `Z` others, for bundles. `a:3` are three, from a on: an opening gets all of them, and any other call
 *   is made with each.
 * - A number is `7`, `-1`, or operations from left to right: `2^50/3+1`. A truth is `yes` or `no`. States have their names in the header.
 *   The value `?` is any that was written.
 * - A burst of insertions has its items as arguments. One of deletions has the number of places, and its items are the last values. The
 *   words of a channel's item are the last arguments, or the last values.
 * - A line after `#` is a comment. One after `# (C)` begins a section for C alone: the types of the others exclude it. */
#ifndef FAK_C_ROWS_H
#define FAK_C_ROWS_H

#include "check.h"
#include "fak_channel.h"

#ifdef __cplusplus
extern "C" {
#endif

/* The handles from `a` on, those from `A` on after them, and the words of a row. */
enum { LOWER_HANDLES = FAK_C_MOST_SEATS + 1, HANDLES = LOWER_HANDLES + 128, MOST_NUMBERS = 20 };

/* What a call writes by one of its pointers. */
typedef struct {
    enum { NOTHING, WORD, STATE, TRUTH } kind;
    uint64_t word;
    uint32_t state;
    bool truth;
} out;

/* A row that is run. */
typedef struct {
    uint64_t index;            /* of the handle that is called */
    fak_c_seat *seat;          /* that handle */
    size_t count;              /* how many an opening gets */
    fak_c_seat *other;         /* a further handle among the arguments, its index, and how many from it on */
    uint64_t other_index;
    size_t other_count;
    uint64_t in[MOST_NUMBERS]; /* the numbers among the arguments, and how many these are */
    size_t in_count;
    const char *wanted[MOST_NUMBERS]; /* the values */
    size_t wanted_count;
    out outs[MOST_NUMBERS];
    uint64_t items[MOST_NUMBERS]; /* what a burst of deletions writes, or a receive */
    bool has_items;
} row;

/* What a call writes as its value of this number, for the pointer's type. */
uint64_t *word_at(row *self, size_t at);
int64_t *count_at(row *self, size_t at);
uint32_t *state_at(row *self, size_t at);
bool *truth_at(row *self, size_t at);

/* As `word_at`, and null if the row has `-` there. */
uint64_t *word_or_null_at(row *self, size_t at);

/* The places of a burst of deletions, or of the words of a channel's item: the values after the others. */
uint64_t *items_of(row *self);

/* A call: which kind of handle it is for; its name, and the call itself. The kinds `open` and `any` are no handle's own. */
typedef struct {
    const char *kind, *name;
    int32_t (*call)(row *self);
} named_call;

/* A row of a list of calls as a function, and as a call with its name. */
#define DEFINE_CALL(kind, name, expression) \
    static int32_t call_##name(row *self) { \
        return expression; \
    }
#define LIST_CALL(kind, name, expression) {#kind, #name, call_##name},

/* The calls of fak_c.h, and those of fak_channel.h. A call without a name is the last. */
extern const named_call calls_of_objects[], calls_of_channels[];

/* Whether sections for C alone are run. */
extern const bool is_for_c;

/* What has a seat besides the handles leaves: ends and shared channels. False if one can't. */
bool others_leave(void);

#ifdef __cplusplus
}
#endif

#endif
