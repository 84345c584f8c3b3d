/* Threads that begin together, each on a processor of its own, and how long they take. */
#ifndef THREADS_H
#define THREADS_H
#include <stdatomic.h>
#if defined(__x86_64__)
#define MOMENT() __builtin_ia32_pause()
#else
#define MOMENT() ((void)0)
#endif
enum { MOST_THREADS = 4, ALONE_IN_A_LINE = 128 };

struct spread { double best, median, worst; };

/* Called first by each thread: takes the processor of this number, and waits for the others. */
void begin_as(int number);

/* The nanoseconds of a round of this many threads, over several rounds. `open` comes before each. */
struct spread time_of(void (*open)(void), void *(*work)(void *), int threads);
#endif
