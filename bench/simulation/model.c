/* Prints what an item costs by the model; bench/model builds and runs it. */
#include <stdlib.h>
#include <string.h>
#include "model.h"

struct costs costs = { 6500, 500, 52000, 13000, 10000, 2000, 3000, 6000, 37000000 };
int cells = 1024, tickets_for_a_pause = 112;
static int items = 20000, seed = 1;
static const int sizes[SIZES] = { 1, 2, 4, 8, 16, 32, 64 };
static struct tally tallies[SIZES][QUEUES];

/* The options that take a number: times in nanoseconds, and whole numbers. */
static const struct { const char *name; picos *time; const char *meaning; } times[] = {
    { "--change", &costs.change, "a locked instruction on a line at hand" },
    { "--load", &costs.load, "a load or a plain store of a line at hand" },
    { "--transfer", &costs.transfer, "a line comes from another processor; a request goes to the memory and back" },
    { "--held", &costs.held, "how long a line that was asked for stays usable where it is" },
    { "--memory", &costs.memory, "the memory serves one request for a line" },
    { "--stage", &costs.stage, "a switch of the network passes a request on" },
    { "--work", &costs.work, "what a call does besides its accesses, on average" },
    { "--pause", &costs.pause, "one pause of a processor that waits" },
    { "--seat-pause", &costs.seat_pause, "a seat leaves the queue to others" },
};
static const struct { const char *name; int *number, least, most; const char *meaning; } numbers[] = {
    { "--tickets", &tickets_for_a_pause, 1, 4096, "tickets that a seat draws for a pause" },
    { "--cells", &cells, 2, 4096, "cells of each queue" },
    { "--items", &items, 1, 1000000, "items of each run" },
    { "--seed", &seed, 1, 1000000, "begins the random numbers" },
};
enum { TIMES = sizeof times / sizeof *times, NUMBERS = sizeof numbers / sizeof *numbers };

static void print_usage(void) {
    printf("usage: bench/model [--calibrate] [--counts] [--picture FILE] [OPTION NUMBER]..\n\nnanoseconds, 0.1 to 1000000:\n");
    for (int i = 0; i < TIMES; i++)
        printf("  %-11s %6g  %s\n", times[i].name, (double)*times[i].time / 1000, times[i].meaning);
    printf("whole numbers:\n");
    for (int i = 0; i < NUMBERS; i++)
        printf("  %-11s %6d  %s, %d to %d\n", numbers[i].name, *numbers[i].number, numbers[i].meaning, numbers[i].least, numbers[i].most);
}

/* Sets the option of this name; returns whether there is one and the value is in its range. */
static int set_option(const char *name, const char *text) {
    char *end;
    double value = strtod(text, &end);
    if (*end || end == text) return 0;
    for (int i = 0; i < TIMES; i++) {
        if (strcmp(times[i].name, name)) continue;
        if (!(value >= 0.1 && value <= 1e6)) return 0;
        *times[i].time = (picos)(value * 1000 + 0.5);
        return 1;
    }
    for (int i = 0; i < NUMBERS; i++) {
        if (strcmp(numbers[i].name, name)) continue;
        if (!(value >= numbers[i].least && value <= numbers[i].most) || value != (int)value) return 0;
        *numbers[i].number = (int)value;
        return 1;
    }
    return 0;
}

static int fail(const char *what, const char *which) {
    fprintf(stderr, "model: %s%s; --help lists the options\n", what, which);
    return 2;
}

static double nanos_of(struct tally tally) { return tally.nanos; }
static double transfers_of(struct tally tally) { return tally.transfers; }
static double failures_of(struct tally tally) { return tally.failures; }

static void print_table(const char *title, double (*cell_of)(struct tally), int digits) {
    printf("%-26s", title);
    for (int s = 0; s < SIZES; s++) printf(" | %6d", sizes[s]);
    printf("\n");
    for (int q = 0; q < QUEUES; q++) {
        printf("%-26s", queues[q].name);
        for (int s = 0; s < SIZES; s++) printf(" | %6.*f", digits, cell_of(tallies[s][q]));
        printf("\n");
    }
}

static int draw(const char *path) {
    FILE *file = fopen(path, "w");
    if (!file) {
        perror(path);
        return 1;
    }
    write_picture(file, sizes, tallies);
    if (fclose(file)) {
        perror(path);
        return 1;
    }
    return 0;
}

static void print_tables(int counts) {
    for (int s = 0; s < SIZES; s++)
        for (int q = 0; q < QUEUES; q++) tallies[s][q] = measure(&queues[q], sizes[s], items, (uint64_t)seed);
    print_table("nanoseconds, processors", nanos_of, 0);
    if (counts) print_table("transfers for an item", transfers_of, 1);
    if (counts) print_table("changes that fail", failures_of, 1);
}

int main(int count, char **arguments) {
    const char *picture = NULL;
    int counts = 0, here = 0;
    for (int i = 1; i < count; i++) {
        const char *name = arguments[i];
        if (!strcmp(name, "--help")) {
            print_usage();
            return 0;
        }
        if (!strcmp(name, "--calibrate")) here = 1;
        else if (!strcmp(name, "--counts")) counts = 1;
        else if (i + 1 == count) return fail("no such option, or no value: ", name);
        else if (!strcmp(name, "--picture")) picture = arguments[++i];
        else if (!set_option(name, arguments[++i])) return fail("no such option, or no value in its range: ", name);
    }
    if (here) {
        calibrate();
        measure_here();
        return 0;
    }
    print_tables(counts);
    return picture ? draw(picture) : 0;
}
