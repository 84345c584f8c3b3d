/* Threads that share a channel: each item comes once, and in its sender's order to each receiver; a close wakes both sides, and one of
 * several that race makes it; and a sleeping thread uses no processor time. */
#include "channel_lot.h"
#include "channel_tests.h"

#include <pthread.h>
#include <sched.h>
#include <stdatomic.h>
#include <time.h>
#include <unistd.h>

enum { MOST_THREADS = 1000, CELLS = 5, LOOK_CELLS = 2, CLOSERS = 4 };

/* The threads of a storm: 9 and 7, and on large machines more than processors. */
static int senders = 9, receivers = 7, threads = 16;

/* What threads call: an end of their own, or a shared channel. */
typedef struct {
    fak_channel_end *end;
    fak_channel_shared *shared;
} caller;

/* What one thread works with. */
typedef struct {
    pthread_t thread;
    caller channel;
    uint64_t number;
    uint64_t random;
    uint64_t items;
    uint64_t taken; /* by the channel, of the items of a sender */
    uint64_t *last; /* of each sender, in the storm of a receiver */
} worker;

static atomic_uchar *received[MOST_THREADS]; /* how often each item came */
static atomic_ullong refusals, timeouts, passed;

static void count_threads(void) {
    long processors = sysconf(_SC_NPROCESSORS_ONLN);
    CHECK(processors >= 1);
    if (processors >= threads) {
        threads = processors < MOST_THREADS ? (int)processors + 1 : MOST_THREADS;
        senders = threads * 9 / 16;
        receivers = threads - senders;
    }
}

static uint64_t random_of(worker *self) {
    self->random = self->random * UINT64_C(6364136223846793005) + UINT64_C(1442695040888963407);
    return self->random >> 33;
}

/* ---- Each call, by an end or shared ---- */

static int32_t send_item(caller by, const fak_channel_item *item) {
    return by.end != NULL ? fak_channel_send(by.end, item) : fak_channel_shared_send(by.shared, item);
}

static int32_t try_send(caller by, const fak_channel_item *item) {
    return by.end != NULL ? fak_channel_try_send(by.end, item) : fak_channel_shared_try_send(by.shared, item);
}

static int32_t send_until(caller by, const fak_channel_item *item, uint64_t deadline) {
    return by.end != NULL ? fak_channel_send_until(by.end, item, deadline) : fak_channel_shared_send_until(by.shared, item, deadline);
}

static int32_t receive_item(caller by, fak_channel_item *item) {
    return by.end != NULL ? fak_channel_receive(by.end, item) : fak_channel_shared_receive(by.shared, item);
}

static int32_t try_receive(caller by, fak_channel_item *item) {
    return by.end != NULL ? fak_channel_try_receive(by.end, item) : fak_channel_shared_try_receive(by.shared, item);
}

static int32_t receive_until(caller by, fak_channel_item *item, uint64_t deadline) {
    return by.end != NULL ? fak_channel_receive_until(by.end, item, deadline)
                          : fak_channel_shared_receive_until(by.shared, item, deadline);
}

/* A thread with an end of its own gives it up as soon as it has made its last call. */
static void leave_own(caller by) {
    CHECK(by.end == NULL || fak_channel_leave(by.end) == FAK_C_OK);
}

static int32_t close_it(caller by) {
    return by.end != NULL ? fak_channel_close(by.end) : fak_channel_shared_close(by.shared);
}

static uint64_t length(caller by) {
    uint64_t items = 0;
    CHECK((by.end != NULL ? fak_channel_len(&by.end->seat, &items) : fak_channel_shared_len(by.shared, &items)) == FAK_C_OK);
    return items;
}

/* ---- Storms ---- */

/* Counts a refusal, of which there are these kinds. */
static void count_refusal(int32_t code, int32_t of_try) {
    CHECK(code == of_try || code == FAK_C_GAVE_UP || code == FAK_C_BUSY);
    atomic_fetch_add(code == FAK_C_GAVE_UP ? &timeouts : &refusals, 1);
    if (code == FAK_C_BUSY)
        sched_yield();
}

/* Sends one item, by a call of a random kind, until the channel takes it. False if it was closed. */
static bool send_one(worker *self, const fak_channel_item *item) {
    for (;;) {
        uint64_t how = random_of(self) % 4;
        int32_t code = how == 0 ? try_send(self->channel, item)
            : how == 1          ? send_until(self->channel, item, fak_channel_deadline(random_of(self) % 100000))
                                : send_item(self->channel, item);
        if (code == FAK_C_OK || code == FAK_C_CLOSED)
            return code == FAK_C_OK;
        count_refusal(code, FAK_C_FULL);
    }
}

/* Receives one item likewise. False if the channel is closed and drained. */
static bool receive_one(worker *self, fak_channel_item *item) {
    for (;;) {
        uint64_t how = random_of(self) % 4;
        int32_t code = how == 0 ? try_receive(self->channel, item)
            : how == 1          ? receive_until(self->channel, item, fak_channel_deadline(random_of(self) % 100000))
                                : receive_item(self->channel, item);
        if (code == FAK_C_OK || code == FAK_C_CLOSED)
            return code == FAK_C_OK;
        count_refusal(code, FAK_C_EMPTY);
    }
}

static void *send_all(void *argument) {
    worker *self = argument;
    for (uint64_t i = 0; i < self->items; i++) {
        uint64_t *cargo = malloc(sizeof *cargo);
        fak_channel_item item = {{self->number, i, (uintptr_t)cargo, ~i}};
        CHECK(cargo != NULL);
        *cargo = i;
        if (!send_one(self, &item)) {
            free(cargo);
            break;
        }
        self->taken++;
    }
    leave_own(self->channel);
    return NULL;
}

static void *receive_all(void *argument) {
    worker *self = argument;
    fak_channel_item item = {{0}};
    while (receive_one(self, &item)) {
        uint64_t sender = item.word[0], i = item.word[1], *cargo = (uint64_t *)(uintptr_t)item.word[2];
        CHECK(sender < (uint64_t)senders && i < self->items && item.word[3] == ~i && *cargo == i);
        CHECK(i >= self->last[sender]);
        self->last[sender] = i + 1;
        free(cargo);
        CHECK(atomic_fetch_add(&received[sender][i], 1) == 0);
        self->taken++;
        atomic_fetch_add(&passed, 1);
        CHECK(length(self->channel) <= CELLS);
    }
    leave_own(self->channel);
    return NULL;
}

/* Closes the channel once this many items have come. */
static void close_after(caller by, uint64_t items) {
    while (atomic_load(&passed) < items)
        sched_yield();
    CHECK(close_it(by) == FAK_C_OK && close_it(by) == FAK_C_CLOSED);
}

/* All senders and receivers of a storm. The caller closes the channel before all was sent. */
static void storm(const caller *callers, caller closer, uint64_t items) {
    static worker workers[MOST_THREADS];
    uint64_t sent = 0, taken = 0, enough = (uint64_t)senders * items * 9 / 10;
    atomic_store(&passed, 0);
    for (int i = 0; i < senders; i++)
        CHECK((received[i] = calloc(items, sizeof *received[i])) != NULL);
    for (int i = 0; i < threads; i++) {
        uint64_t number = (uint64_t)i;
        workers[i] = (worker){.channel = callers[i], .number = number, .random = number + 1, .items = items};
        CHECK((workers[i].last = calloc((size_t)senders, sizeof *workers[i].last)) != NULL);
        CHECK(pthread_create(&workers[i].thread, NULL, i < senders ? send_all : receive_all, &workers[i]) == 0);
    }
    close_after(closer, enough);
    for (int i = 0; i < threads; i++) {
        CHECK(pthread_join(workers[i].thread, NULL) == 0);
        *(i < senders ? &sent : &taken) += workers[i].taken;
        free(workers[i].last);
    }
    CHECK(sent == taken && taken >= enough && length(closer) == 0);
    for (int i = 0; i < senders; i++) {
        for (uint64_t item = 0; item < items; item++)
            CHECK(atomic_load(&received[i][item]) == (item < workers[i].taken));
        free(received[i]);
    }
}

void ends_storm(uint64_t items) {
    static fak_channel_end ends[MOST_THREADS + 1];
    caller callers[MOST_THREADS + 1] = {0};
    count_threads();
    CHECK(fak_channel_open_ends(ends, (size_t)threads + 1, CELLS, LONG_STINT) == FAK_C_OK);
    for (int i = 0; i <= threads; i++)
        callers[i].end = &ends[i];
    storm(callers, callers[threads], items);
    CHECK(fak_channel_leave(&ends[threads]) == FAK_C_OK);
    printf("%llu refusals, %llu timeouts\n", atomic_load(&refusals), atomic_load(&timeouts));
}

void a_shared_channel_storms(uint64_t items) {
    count_threads();
    for (size_t few = 1; few <= 4; few += 3) {
        static fak_channel_end ends[FAK_CHANNEL_SHARED_ENDS(4, 4)];
        fak_channel_shared shared = {0};
        caller callers[MOST_THREADS] = {0};
        CHECK(fak_channel_shared_open(&shared, ends, few, few, CELLS, LONG_STINT) == FAK_C_OK);
        for (int i = 0; i < threads; i++)
            callers[i].shared = &shared;
        storm(callers, callers[0], items);
        CHECK(fak_channel_shared_leave(&shared) == FAK_C_OK);
    }
}

/* ---- Closes that race ---- */

static atomic_int closed, closing;
static pthread_barrier_t all_ready;

/* Closes at the same time as the others. */
static void *close_once(void *argument) {
    int32_t code;
    pthread_barrier_wait(&all_ready);
    code = close_it(*(caller *)argument);
    CHECK(code == FAK_C_OK || code == FAK_C_CLOSED);
    atomic_fetch_add(&closed, code == FAK_C_OK);
    return NULL;
}

/* Sends until the channel is closed. */
static void *send_until_closed(void *argument) {
    caller by = *(caller *)argument;
    fak_channel_item item = {{0}};
    int32_t code;
    while ((code = send_item(by, &item)) == FAK_C_OK)
        atomic_store(&closing, 1);
    CHECK(code == FAK_C_CLOSED);
    return NULL;
}

/* One of these callers makes the close, while the last one sleeps in the full channel. */
static void race(caller *callers) {
    pthread_t running[CLOSERS + 1];
    atomic_store(&closed, 0);
    atomic_store(&closing, 0);
    CHECK(pthread_barrier_init(&all_ready, NULL, CLOSERS) == 0);
    CHECK(pthread_create(&running[CLOSERS], NULL, send_until_closed, &callers[CLOSERS]) == 0);
    while (atomic_load(&closing) == 0)
        sched_yield();
    for (int i = 0; i < CLOSERS; i++)
        CHECK(pthread_create(&running[i], NULL, close_once, &callers[i]) == 0);
    for (int i = 0; i <= CLOSERS; i++)
        CHECK(pthread_join(running[i], NULL) == 0);
    CHECK(atomic_load(&closed) == 1 && pthread_barrier_destroy(&all_ready) == 0);
}

void closes_race(uint64_t rounds) {
    for (uint64_t round = 0; round < rounds; round++) {
        static fak_channel_end ends[CLOSERS + 1];
        fak_channel_shared shared = {0};
        caller callers[CLOSERS + 1] = {0};
        CHECK(fak_channel_open_ends(ends, CLOSERS + 1, LOOK_CELLS, LONG_STINT) == FAK_C_OK);
        for (int i = 0; i <= CLOSERS; i++)
            callers[i].end = &ends[i];
        race(callers);
        for (int i = 0; i <= CLOSERS; i++)
            CHECK(fak_channel_leave(&ends[i]) == FAK_C_OK);
        CHECK(fak_channel_shared_open(&shared, ends, 1, 1, LOOK_CELLS, LONG_STINT) == FAK_C_OK);
        for (int i = 0; i <= CLOSERS; i++)
            callers[i] = (caller){NULL, &shared};
        race(callers);
        CHECK(fak_channel_shared_leave(&shared) == FAK_C_OK);
    }
}

/* ---- Functions of the tests that park ---- */

/* Every end of the channel, then those of a shared channel, wait so. */
void own_parks_storm(uint64_t items) {
    static fak_channel_end ends[MOST_THREADS + 1];
    lot self;
    fak_channel_waiting waiting;
    fak_channel_shared shared = {0};
    caller callers[MOST_THREADS + 1] = {0};
    count_threads();
    make_lot(&self, (size_t)threads + 1);
    open_in(&self, &waiting, ends, (size_t)threads + 1, CELLS);
    for (int i = 0; i <= threads; i++)
        callers[i].end = &ends[i];
    storm(callers, callers[threads], items);
    CHECK(self.parks > 0 && self.unparks > 0 && fak_channel_leave(&ends[threads]) == FAK_C_OK && waiting.ends == 0);

    open_in(&self, &waiting, ends, FAK_CHANNEL_SHARED_ENDS(1, 2), CELLS);
    waiting.pause = NULL;
    CHECK(fak_channel_shared_over(&shared, ends, 1, 2) == FAK_C_OK);
    for (int i = 0; i < threads; i++)
        callers[i] = (caller){NULL, &shared};
    storm(callers, callers[0], items / 2);
    CHECK(fak_channel_shared_leave(&shared) == FAK_C_OK && waiting.ends == 0);
    free_lot(&self);
}

/* ---- Many sleepers ---- */

/* What one sleeper did: the code and the item of its call, and the processor time that the call took. */
typedef struct {
    pthread_t thread;
    fak_channel_end *end;
    bool sends;
    int32_t code;
    fak_channel_item item;
    uint64_t time;
} sleeper;

static void *call_once(void *argument) {
    sleeper *self = argument;
    uint64_t before = processor_time();
    self->code = self->sends ? fak_channel_send(self->end, &self->item) : fak_channel_receive(self->end, &self->item);
    self->time = processor_time() - before;
    return NULL;
}

static void start(sleeper *sleepers, fak_channel_end *ends, size_t count, bool sends) {
    for (size_t i = 0; i < count; i++) {
        sleepers[i] = (sleeper){.end = &ends[i], .sends = sends, .item = {{sends ? i + 1 : 0, 0, 0, 0}}};
        CHECK(pthread_create(&sleepers[i].thread, NULL, call_once, &sleepers[i]) == 0);
    }
    CHECK(nanosleep(&(struct timespec){0, 5 * A_WHILE}, NULL) == 0);
}

/* Every call returned this code, and took little processor time while it slept: a millisecond at most on average, so sleepers don't wake
 * each other in turn. The sum of the items. */
static uint64_t joined(sleeper *sleepers, size_t count, int32_t code) {
    uint64_t sum = 0, time = 0;
    for (size_t i = 0; i < count; i++) {
        CHECK(pthread_join(sleepers[i].thread, NULL) == 0);
        CHECK(sleepers[i].code == code && sleepers[i].time < 50000000);
        sum += sleepers[i].item.word[0];
        time += sleepers[i].time;
    }
    CHECK(time <= count * 1000000);
    return sum;
}

void sleepers_wake(size_t count) {
    fak_channel_end *ends = calloc(count + 1, sizeof *ends);
    sleeper *sleepers = calloc(count, sizeof *sleepers);
    fak_channel_item item = {{0}};
    uint64_t sum = 0, all = count * (count + 1) / 2;
    CHECK(count >= 1 && count < FAK_C_MOST_SEATS && ends != NULL && sleepers != NULL);
    for (int round = 0; round < 2; round++) {
        CHECK(fak_channel_open_ends(ends, count + 1, LOOK_CELLS, LONG_STINT) == FAK_C_OK);
        start(sleepers, ends, count, false);
        if (round == 0) {
            for (uint64_t word = 1; word <= count; word++) {
                item = fak_channel_of_word(word);
                CHECK(fak_channel_send(&ends[count], &item) == FAK_C_OK);
            }
            CHECK(joined(sleepers, count, FAK_C_OK) == all);
            start(sleepers, ends, count, true);
            for (sum = 0; sum < all; sum += item.word[0])
                CHECK(fak_channel_receive(&ends[count], &item) == FAK_C_OK);
            CHECK(sum == all && joined(sleepers, count, FAK_C_OK) == all);
        } else {
            CHECK(fak_channel_close(&ends[count]) == FAK_C_OK && joined(sleepers, count, FAK_C_CLOSED) == 0);
        }
        for (size_t i = 0; i <= count; i++)
            CHECK(fak_channel_leave(&ends[i]) == FAK_C_OK);
    }
    CHECK(fak_channel_open_ends(ends, count + 1, 1, LONG_STINT) == FAK_C_OK && fak_channel_send(&ends[count], &item) == FAK_C_OK);
    start(sleepers, ends, count, true);
    CHECK(fak_channel_close(&ends[count]) == FAK_C_OK && joined(sleepers, count, FAK_C_CLOSED) == all);
    CHECK(fak_channel_receive(&ends[count], &item) == FAK_C_OK && fak_channel_receive(&ends[count], &item) == FAK_C_CLOSED);
    for (size_t i = 0; i <= count; i++)
        CHECK(fak_channel_leave(&ends[i]) == FAK_C_OK);
    free(sleepers);
    free(ends);
}
