/* The model of what an item costs: a machine of processors and cache lines, the queues on it, and what is printed. */
#ifndef MODEL_H
#define MODEL_H
#include <stdint.h>
#include <stdio.h>

enum { MOST_PROCESSORS = 64, SIZES = 7, QUEUES = 7 };

/* Times are whole picoseconds, so that every machine computes the same. */
typedef int64_t picos;

struct costs {
    picos change;   /* a locked instruction on a line at hand */
    picos load;     /* a load or a plain store of a line at hand */
    picos transfer; /* a line comes from another processor; a request goes to the memory and back */
    picos held;     /* how long a processor can use a line that others have asked for */
    picos memory;   /* the memory serves one request for a line */
    picos stage;    /* a switch of the network passes a request on */
    picos work;     /* what a call does in addition to its accesses, on average */
    picos pause;    /* one pause of a processor that waits */
    picos seat_pause; /* a seat leaves the queue to others for this long */
};

extern struct costs costs;
extern int cells, tickets_for_a_pause;

/* How an access to a line is made that is not at hand: the line moves to the processor; or lines stay in the memory,
   which serves their requests one at a time, or those that meet in a switch as one. */
enum machine { BY_TRANSFER, BY_MEMORY, BY_COMBINING };

/* A switch of the network: when the last request leaves it, and when the memory has served that request. */
struct stage { picos leaves, served; };

/* 64 bytes that move together. */
struct line {
    uint64_t holders;                     /* the processors that have a copy; a single one may change it */
    struct processor *first, *last;       /* those that asked for it, in the order of arrival */
    picos used_until;                     /* when the last access to it ends */
    picos taken;                          /* when its holders lose it to the first that asked */
    struct stage stages[MOST_PROCESSORS]; /* the switches on the ways to its home, as a binary tree */
};

/* Accesses of the running processor. What it does up to the next one happens at the moment at which this one ends. */
void load_line(struct line *line);
void store_line(struct line *line);
void change_line(struct line *line);

/* Waits until another processor changes the line, of which the running one has just loaded a copy. */
void await_change(struct line *line);

/* Lets time pass: this much; about the work of a call; a pause, which doubles with the round up to 64. */
void spend(picos time);
void work_aside(void);
void pause_for(int round);

int this_processor(void);
int processors_in_all(void);
void count_item(void);
void count_failure(void);

/* What a run took for an item: nanoseconds, transfers of lines, and failed changes. */
struct tally { double nanos, transfers, failures; };

/* Runs `body` on each processor until this many items are counted, after as many that are not. */
struct tally simulate(int processors, enum machine machine, long items, uint64_t seed, void (*body)(void));

/* A queue: `open` empties it, `put` and `get` wait for room and for an item. */
struct queue {
    const char *name;
    enum machine machine;
    int pauses;
    void (*open)(void), (*put)(void), (*get)(void);
};

extern const struct queue queues[QUEUES];
struct tally measure(const struct queue *queue, int processors, long items, uint64_t seed);

void write_picture(FILE *file, const int sizes[SIZES], struct tally tallies[SIZES][QUEUES]);

/* What this machine takes for single accesses, and for an item by the same queues. */
void calibrate(void);
void measure_here(void);
#endif
