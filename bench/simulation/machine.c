/* The machine: processors that go on in the order of their clocks, and lines that move between them. */
#define _GNU_SOURCE
#include <stdlib.h>
#include <ucontext.h>
#include "model.h"
#define NEVER INT64_MAX
enum { STACK = 64 * 1024, LONGEST_PAUSE = 6, WARM = 1 };

struct processor {
    ucontext_t context;
    char *stack;
    int wants_change;         /* what it asked for */
    struct processor *behind; /* the next one that asked for the same line */
    struct line *watched;     /* the line whose change it waits for */
};

static struct processor processors[MOST_PROCESSORS], *running;
static picos clocks[MOST_PROCESSORS];
static ucontext_t outside;
static int processor_count;
static enum machine kind;
static uint64_t random_state;
static long items_counted, items_wanted, transfers, failures;
static picos first_item, last_item;

int this_processor(void) { return (int)(running - processors); }
int processors_in_all(void) { return processor_count; }

static picos *clock_of(const struct processor *processor) { return &clocks[processor - processors]; }
static picos now(void) { return *clock_of(running); }
void spend(picos time) { *clock_of(running) += time; }

/* Lets the others go on until the running processor is the earliest. */
static void let_earlier_run(void) {
    struct processor *before = running;
    int earliest = 0;
    for (int i = 1; i < processor_count; i++)
        if (clocks[i] < clocks[earliest]) earliest = i;
    if (clocks[earliest] == NEVER) abort();
    running = &processors[earliest];
    if (running != before) swapcontext(&before->context, &running->context);
}

static picos later(picos a, picos b) { return a > b ? a : b; }

static uint64_t own_copy(void) { return UINT64_C(1) << this_processor(); }

/* Whether the running processor needs no transfer for the access. */
static int is_at_hand(const struct line *line, int changes) {
    if (!(line->holders & own_copy()) || (changes && line->holders != own_copy())) return 0;
    if (!line->first || (!changes && !line->first->wants_change)) return 1;
    return now() < line->taken;
}

static uint64_t next_random(void) {
    random_state ^= random_state << 13;
    random_state ^= random_state >> 7;
    random_state ^= random_state << 17;
    return random_state;
}

/* The time, up to a quarter shorter or longer. */
static picos about(picos time) { return time - time / 4 + (picos)(next_random() % (uint64_t)(time / 2 + 1)); }

/* The line sets out for the first processor that asked for it. */
static void begin_transfer(struct line *line) {
    picos start = later(now(), line->used_until);
    line->taken = start + costs.held;
    *clock_of(line->first) = start + about(costs.transfer);
    transfers++;
}

/* Asks for the line and waits until it is there. */
static void fetch(struct line *line, int changes) {
    struct processor *self = running;
    self->wants_change = changes;
    self->behind = NULL;
    if (line->first) {
        line->last->behind = self;
        line->last = self;
        *clock_of(self) = NEVER;
    } else {
        line->first = line->last = self;
        begin_transfer(line);
    }
    let_earlier_run();
    line->holders = changes ? own_copy() : line->holders | own_copy();
    line->used_until = now();
    line->first = self->behind;
    if (line->first) begin_transfer(line);
}

/* Those that watch the line go on: another processor changes it now. */
static void wake_watchers(struct line *line) {
    for (int i = 0; i < processor_count; i++) {
        if (processors[i].watched != line) continue;
        processors[i].watched = NULL;
        clocks[i] = now();
    }
}

static void access_by_transfer(struct line *line, int changes, picos at_hand) {
    if (is_at_hand(line, changes)) {
        spend(at_hand);
        line->used_until = now();
        return;
    }
    fetch(line, changes);
    if (changes) wake_watchers(line);
}

static picos serve(struct line *line, picos arrival) {
    line->used_until = later(arrival, line->used_until) + costs.memory;
    return line->used_until;
}

/* The request goes through a switch for each doubling of the processors. If it finds one that waits in a switch, it
   goes on with that one. In the last switch a request waits until the memory is free. Returns when it is served. */
static picos serve_combined(struct line *line, picos arrival) {
    struct stage *passed[MOST_PROCESSORS], *last = NULL;
    int count = 0, place = MOST_PROCESSORS + this_processor();
    for (int width = 1; width < processor_count; width *= 2) {
        place /= 2;
        last = &line->stages[place];
        if (arrival < last->leaves) break;
        arrival = last->leaves = arrival + costs.stage;
        passed[count++] = last;
        last = NULL;
    }
    if (!last && count) passed[count - 1]->leaves = arrival = later(arrival, line->used_until);
    picos served = last ? last->served : serve(line, arrival);
    while (count) passed[--count]->served = served;
    return served;
}

static void access_in_memory(struct line *line) {
    picos trip = costs.transfer / 2, back = trip;
    if (kind == BY_COMBINING)
        for (int width = 1; width < processor_count; width *= 2) back += costs.stage;
    picos arrival = now() + trip;
    *clock_of(running) = (kind == BY_COMBINING ? serve_combined(line, arrival) : serve(line, arrival)) + back;
}

static void access_line(struct line *line, int changes, picos at_hand) {
    let_earlier_run();
    if (kind == BY_TRANSFER) access_by_transfer(line, changes, at_hand);
    else access_in_memory(line);
}

void load_line(struct line *line) { access_line(line, 0, costs.load); }
void store_line(struct line *line) { access_line(line, 1, costs.load); }
void change_line(struct line *line) { access_line(line, 1, costs.change); }

void await_change(struct line *line) {
    running->watched = line;
    *clock_of(running) = NEVER;
    let_earlier_run();
}

void work_aside(void) { spend((picos)(next_random() % (uint64_t)(2 * costs.work + 1))); }

void pause_for(int round) { spend(costs.pause << (round < LONGEST_PAUSE ? round : LONGEST_PAUSE)); }

void count_failure(void) { failures++; }

void count_item(void) {
    items_counted++;
    if (items_counted == items_wanted / WARM) {
        first_item = now();
        transfers = failures = 0;
    }
    if (items_counted == items_wanted / WARM + items_wanted) {
        last_item = now();
        setcontext(&outside);
    }
}

static void begin_processor(struct processor *processor, void (*body)(void)) {
    if (!processor->stack) processor->stack = malloc(STACK);
    if (!processor->stack) exit(1);
    getcontext(&processor->context);
    processor->context.uc_stack.ss_sp = processor->stack;
    processor->context.uc_stack.ss_size = STACK;
    processor->context.uc_link = NULL;
    *clock_of(processor) = (picos)(next_random() % (uint64_t)(costs.transfer + 1));
    processor->watched = NULL;
    makecontext(&processor->context, body, 0);
}

struct tally simulate(int count, enum machine machine, long items, uint64_t seed, void (*body)(void)) {
    processor_count = count;
    kind = machine;
    random_state = seed * 2 + 1;
    items_wanted = items;
    items_counted = transfers = failures = 0;
    for (int i = 0; i < count; i++) begin_processor(&processors[i], body);
    running = &processors[0];
    swapcontext(&outside, &running->context);
    double wanted = (double)items;
    return (struct tally){ (double)(last_item - first_item) / 1000 / wanted, (double)transfers / wanted, (double)failures / wanted };
}
