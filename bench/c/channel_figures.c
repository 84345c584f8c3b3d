/* Prints what an item costs in nanoseconds, sent and received: by ends of a channel, by a shared channel, and by a ring under a mutex with
 * two conditions. The workloads are one thread, pairs of threads, and a hand-over to another thread and back. Each figure is the median of
 * several runs, with the best and the worst. */
#include "fak_channel.h"
#include "figures.h"

#include <pthread.h>

enum { ITEMS = 40000, MOST_PAIRS = 32, MOST_CELLS = 1024, RUNS = 7, KINDS = 3, LENT = 8 };

typedef struct {
    const char *name;
    void (*open)(uint64_t size);
    void (*send)(int channel, int thread, const fak_channel_item *item);
    void (*receive)(int channel, int thread, fak_channel_item *item);
    void (*leave)(void);
} kind;

/* ---- ends of two channels: the second one brings items back */

static fak_channel_end ends[2][2 * MOST_PAIRS];

static void open_ends(uint64_t size) {
    for (int i = 0; i < 2; i++)
        must(fak_channel_open_ends(ends[i], 2 * MOST_PAIRS, size, LONG_STINT) == FAK_C_OK);
}

static void send_by_end(int channel, int thread, const fak_channel_item *item) {
    must(fak_channel_send(&ends[channel][thread], item) == FAK_C_OK);
}

static void receive_by_end(int channel, int thread, fak_channel_item *item) {
    must(fak_channel_receive(&ends[channel][thread], item) == FAK_C_OK);
}

static void leave_ends(void) {
    for (int i = 0; i < 4 * MOST_PAIRS; i++)
        must(fak_channel_leave(&ends[i % 2][i / 2]) == FAK_C_OK);
}

/* ---- a shared channel */

static fak_channel_shared shared[2];
static fak_channel_end lent[2][FAK_CHANNEL_SHARED_ENDS(LENT, LENT)];

static void open_shared(uint64_t size) {
    for (int i = 0; i < 2; i++)
        must(fak_channel_shared_open(&shared[i], lent[i], LENT, LENT, size, LONG_STINT) == FAK_C_OK);
}

static void send_shared(int channel, int thread, const fak_channel_item *item) {
    (void)thread;
    must(fak_channel_shared_send(&shared[channel], item) == FAK_C_OK);
}

static void receive_shared(int channel, int thread, fak_channel_item *item) {
    (void)thread;
    must(fak_channel_shared_receive(&shared[channel], item) == FAK_C_OK);
}

static void leave_shared(void) {
    for (int i = 0; i < 2; i++)
        must(fak_channel_shared_leave(&shared[i]) == FAK_C_OK);
}

/* ---- a ring under a mutex with two conditions */

static struct {
    pthread_mutex_t lock;
    pthread_cond_t has_item, has_cell;
    fak_channel_item cells[MOST_CELLS];
    uint64_t size, sent, received;
} rings[2] = {{.lock = PTHREAD_MUTEX_INITIALIZER, .has_item = PTHREAD_COND_INITIALIZER, .has_cell = PTHREAD_COND_INITIALIZER},
    {.lock = PTHREAD_MUTEX_INITIALIZER, .has_item = PTHREAD_COND_INITIALIZER, .has_cell = PTHREAD_COND_INITIALIZER}};

static void open_rings(uint64_t size) {
    for (int i = 0; i < 2; i++)
        rings[i].size = size;
}

static void send_by_ring(int channel, int thread, const fak_channel_item *item) {
    (void)thread;
    pthread_mutex_lock(&rings[channel].lock);
    while (rings[channel].sent - rings[channel].received == rings[channel].size)
        pthread_cond_wait(&rings[channel].has_cell, &rings[channel].lock);
    rings[channel].cells[rings[channel].sent++ % rings[channel].size] = *item;
    pthread_cond_signal(&rings[channel].has_item);
    pthread_mutex_unlock(&rings[channel].lock);
}

static void receive_by_ring(int channel, int thread, fak_channel_item *item) {
    (void)thread;
    pthread_mutex_lock(&rings[channel].lock);
    while (rings[channel].sent == rings[channel].received)
        pthread_cond_wait(&rings[channel].has_item, &rings[channel].lock);
    *item = rings[channel].cells[rings[channel].received++ % rings[channel].size];
    pthread_cond_signal(&rings[channel].has_cell);
    pthread_mutex_unlock(&rings[channel].lock);
}

static void leave_rings(void) {}

/* ---- measuring */

static const kind *measured;
static uint64_t items; /* of each pair */
static pthread_barrier_t start;

static void *send_all(void *thread) {
    pthread_barrier_wait(&start);
    for (uint64_t i = 0; i < items; i++) {
        fak_channel_item item = fak_channel_of_word(i);
        measured->send(0, (int)(intptr_t)thread, &item);
    }
    return NULL;
}

static void *receive_all(void *thread) {
    fak_channel_item item;
    pthread_barrier_wait(&start);
    for (uint64_t i = 0; i < items; i++)
        measured->receive(0, (int)(intptr_t)thread, &item);
    return NULL;
}

/* Sends back what it receives. */
static void *bring_back(void *thread) {
    fak_channel_item item;
    pthread_barrier_wait(&start);
    for (uint64_t i = 0; i < items; i++) {
        measured->receive(0, (int)(intptr_t)thread, &item);
        measured->send(1, (int)(intptr_t)thread, &item);
    }
    return NULL;
}

/* One thread sends an item and receives it, over and over. */
static double by_one_thread(void) {
    double begun = nanoseconds();
    for (uint64_t i = 0; i < items; i++) {
        fak_channel_item item = fak_channel_of_word(i);
        measured->send(0, 0, &item);
        measured->receive(0, 0, &item);
        must(item.word[0] == i);
    }
    return (nanoseconds() - begun) / (double)items;
}

static double by_pairs(int pairs) {
    pthread_t threads[2 * MOST_PAIRS];
    double begun;
    pthread_barrier_init(&start, NULL, (unsigned)(2 * pairs + 1));
    for (int i = 0; i < 2 * pairs; i++)
        pthread_create(&threads[i], NULL, i < pairs ? send_all : receive_all, (void *)(intptr_t)i);
    pthread_barrier_wait(&start);
    begun = nanoseconds();
    for (int i = 0; i < 2 * pairs; i++)
        pthread_join(threads[i], NULL);
    pthread_barrier_destroy(&start);
    return (nanoseconds() - begun) / ((double)pairs * (double)items);
}

static double there_and_back(void) {
    pthread_t other;
    fak_channel_item item = fak_channel_of_word(1);
    double begun;
    pthread_barrier_init(&start, NULL, 2);
    pthread_create(&other, NULL, bring_back, (void *)(intptr_t)1);
    pthread_barrier_wait(&start);
    begun = nanoseconds();
    for (uint64_t i = 0; i < items; i++) {
        measured->send(0, 0, &item);
        measured->receive(1, 0, &item);
    }
    pthread_join(other, NULL);
    pthread_barrier_destroy(&start);
    return (nanoseconds() - begun) / (double)items;
}

int main(void) {
    static const kind kinds[] = {{"ends", open_ends, send_by_end, receive_by_end, leave_ends},
        {"a shared channel", open_shared, send_shared, receive_shared, leave_shared},
        {"a mutex with two conditions", open_rings, send_by_ring, receive_by_ring, leave_rings}};
    static const struct {
        const char *name;
        int pairs;
        uint64_t cells, items;
    } rows[] = {{"one thread", 0, 1024, ITEMS}, {"1 pair", 1, 1024, ITEMS}, {"4 pairs", 4, 1024, ITEMS / 4},
        {"32 pairs", 32, 8, ITEMS / 64}, {"to another thread and back", -1, 1, ITEMS / 8}};
    for (size_t row = 0; row < sizeof rows / sizeof *rows; row++) {
        for (int k = 0; k < KINDS; k++) {
            char name[80];
            double runs[RUNS];
            measured = &kinds[k];
            items = rows[row].items;
            measured->open(rows[row].cells);
            for (int i = 0; i < RUNS; i++)
                runs[i] = rows[row].pairs < 0 ? there_and_back() : rows[row].pairs == 0 ? by_one_thread() : by_pairs(rows[row].pairs);
            measured->leave();
            snprintf(name, sizeof name, "%s, %s", rows[row].name, measured->name);
            print_runs(name, runs, RUNS);
        }
    }
    return 0;
}
