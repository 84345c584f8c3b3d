/* Tests of the pool: each job runs once, whatever is added, tried, joined and resized at once. Runs `calls`, or `stress JOBS`. */
#include "fak_pool.h"
#include "tests.h"

#include <pthread.h>
#include <sched.h>
#include <stdatomic.h>
#include <string.h>
#include <time.h>
#include <unistd.h>

/* ---- Calls ---- */

static atomic_ulong done;
static atomic_bool may_go;
static unsigned long order[100];

static void count_one(void *argument) {
    (void)argument;
    atomic_fetch_add(&done, 1);
}

static void note(void *argument) {
    order[atomic_fetch_add(&done, 1)] = (unsigned long)(size_t)argument;
}

static void rest(void) {
    CHECK(nanosleep(&(struct timespec){0, 1000000}, NULL) == 0);
}

/* Runs until it may go. */
static void stay(void *argument) {
    (void)argument;
    atomic_fetch_add(&done, 1);
    while (!atomic_load(&may_go))
        rest();
}

static void wait_for(unsigned long jobs) {
    while (atomic_load(&done) != jobs)
        rest();
}

static fak_pool *fresh(size_t workers, size_t waiting) {
    fak_pool *made = fak_pool_create(workers, waiting);
    CHECK(made != NULL);
    atomic_store(&done, 0);
    atomic_store(&may_go, false);
    return made;
}

static void numbers_are_refused(void) {
    fak_pool *made = fresh(1, 1);
    CHECK(fak_pool_create(0, 1) == NULL && fak_pool_create(FAK_POOL_MOST_WORKERS + 1, 1) == NULL);
    CHECK(fak_pool_create(1, (size_t)FAK_POOL_MOST_WAITING + 1) == NULL);
    CHECK(!fak_pool_resize(made, 0) && !fak_pool_resize(made, FAK_POOL_MOST_WORKERS + 1) && fak_pool_bytes(made) > 0);
    fak_pool_free(made);
    fak_pool_free(NULL);
    fak_pool_free(fresh(FAK_POOL_MOST_WORKERS, 0));
}

/* One worker runs jobs in the order in which they were added. */
static void jobs_run_in_order(void) {
    fak_pool *made = fresh(1, 3);
    for (size_t i = 0; i < 100; i++)
        CHECK(fak_pool_add(made, note, (void *)i));
    fak_pool_join(made);
    for (size_t i = 0; i < 100; i++)
        CHECK(order[i] == i);
    fak_pool_free(made);
}

/* Jobs beyond the workers and the queue are refused, until a worker is free. With a queue and without one. */
static void a_full_queue_refuses(size_t workers, size_t waiting) {
    fak_pool *made = fresh(workers, waiting);
    for (size_t i = 0; i < workers; i++)
        CHECK(fak_pool_add(made, stay, NULL));
    wait_for(workers);
    for (size_t i = 0; i < waiting; i++)
        CHECK(fak_pool_try_add(made, count_one, NULL));
    CHECK(!fak_pool_try_add(made, count_one, NULL) && !fak_pool_try_add(made, count_one, NULL));
    atomic_store(&may_go, true);
    CHECK(fak_pool_add(made, count_one, NULL));
    fak_pool_join(made);
    CHECK(atomic_load(&done) == workers + waiting + 1);
    fak_pool_free(made);
}

/* More workers run more jobs at once; fewer leave the jobs that run. */
static void resizes_take_effect(size_t waiting) {
    fak_pool *made = fresh(1, waiting);
    CHECK(fak_pool_resize(made, 4));
    for (int i = 0; i < 4; i++)
        CHECK(fak_pool_add(made, stay, NULL));
    wait_for(4);
    CHECK(fak_pool_resize(made, 2) && fak_pool_resize(made, 3) && fak_pool_resize(made, 1));
    atomic_store(&may_go, true);
    fak_pool_join(made);
    rest();
    atomic_store(&may_go, false);
    CHECK(fak_pool_add(made, stay, NULL));
    wait_for(5);
    CHECK(waiting != 0 || !fak_pool_try_add(made, count_one, NULL));
    CHECK(waiting == 0 || fak_pool_try_add(made, count_one, NULL));
    for (int i = 0; i < 20; i++)
        rest();
    CHECK(atomic_load(&done) == 5);
    atomic_store(&may_go, true);
    fak_pool_free(made);
    CHECK(atomic_load(&done) == (waiting == 0 ? 5 : 6));
}

/* Shrinks of busy workers, however many, take no place of the queue: a job is added to it from outside. */
static void a_shrink_leaves_the_queue(void) {
    fak_pool *made = fresh(2, 1);
    CHECK(fak_pool_add(made, stay, NULL) && fak_pool_add(made, stay, NULL));
    wait_for(2);
    CHECK(fak_pool_resize(made, 1));
    CHECK(fak_pool_try_add(made, count_one, NULL) && !fak_pool_try_add(made, count_one, NULL));
    for (int i = 0; i < 2 * FAK_POOL_MOST_WORKERS; i++)
        CHECK(fak_pool_resize(made, 2) && fak_pool_resize(made, 1));
    atomic_store(&may_go, true);
    fak_pool_free(made);
    CHECK(atomic_load(&done) == 3);
}

static void add_later(void *argument) {
    stay(NULL);
    for (int i = 0; i < 20; i++)
        rest();
    CHECK(fak_pool_add(argument, count_one, NULL));
}

/* The same by a job of the last worker, once the other one has stopped. */
static void a_shrink_leaves_the_queue_to_jobs(void) {
    fak_pool *made = fresh(2, 1);
    CHECK(fak_pool_add(made, add_later, made) && fak_pool_add(made, stay, NULL));
    wait_for(2);
    CHECK(fak_pool_resize(made, 1));
    atomic_store(&may_go, true);
    fak_pool_free(made);
    CHECK(atomic_load(&done) == 3);
}

static atomic_ulong running, most;

/* Notes how many of these jobs run at once. */
static void overlap(void *argument) {
    unsigned long now = atomic_fetch_add(&running, 1) + 1, before = atomic_load(&most);
    (void)argument;
    while (now > before && !atomic_compare_exchange_weak(&most, &before, now))
        continue;
    rest();
    rest();
    atomic_fetch_sub(&running, 1);
}

/* How many of a few jobs run at once. */
static unsigned long overlaps(fak_pool *pool) {
    atomic_store(&most, 0);
    for (int i = 0; i < 12; i++)
        CHECK(fak_pool_add(pool, overlap, NULL));
    fak_pool_join(pool);
    return atomic_load(&most);
}

/* Workers that sleep stop, too: once asleep, and again right after they were started. */
static void a_shrink_stops_idle_workers(size_t waiting) {
    fak_pool *made = fresh(8, waiting);
    for (int round = 0; round < 3; round++) {
        for (int i = 0; i < 20; i++)
            rest();
        CHECK(fak_pool_resize(made, 1) && overlaps(made) == 1);
        CHECK(fak_pool_resize(made, 8) && fak_pool_resize(made, 3) && fak_pool_resize(made, 1) && overlaps(made) == 1);
        CHECK(fak_pool_resize(made, 8) && fak_pool_resize(made, 1) && fak_pool_resize(made, 8));
        atomic_store(&done, 0);
        atomic_store(&may_go, false);
        for (int i = 0; i < 8; i++)
            CHECK(fak_pool_add(made, stay, NULL));
        wait_for(8);
        atomic_store(&may_go, true);
        fak_pool_join(made);
    }
    fak_pool_free(made);
}

static void add_and_resize(void *argument) {
    CHECK(fak_pool_add(argument, count_one, NULL) && fak_pool_resize(argument, 5));
}

static void jobs_may_call(void) {
    fak_pool *made = fresh(3, 9);
    for (int i = 0; i < 4; i++)
        CHECK(fak_pool_add(made, add_and_resize, made));
    fak_pool_free(made);
    CHECK(atomic_load(&done) == 4);
}

/* A job that is null is added by no call, and no join waits for it. */
static void no_job_is_null(size_t waiting) {
    fak_pool *made = fresh(1, waiting);
    for (int i = 0; i < 3; i++)
        CHECK(!fak_pool_add(made, NULL, made) && !fak_pool_try_add(made, NULL, made));
    fak_pool_join(made);
    CHECK(fak_pool_add(made, count_one, NULL));
    fak_pool_free(made);
    CHECK(atomic_load(&done) == 1);
}

static void *join_it(void *pool) {
    fak_pool_join(pool);
    CHECK(atomic_load(&done) == 2);
    return NULL;
}

static void count_after_a_while(void *argument) {
    stay(argument);
    rest();
    atomic_fetch_add(&done, 1);
}

/* All callers that join return once the last job is done. */
static void all_joins_return(void) {
    enum { JOINERS = 3 };
    fak_pool *made = fresh(1, 4);
    pthread_t joiners[JOINERS];
    CHECK(fak_pool_add(made, count_after_a_while, NULL));
    for (int i = 0; i < JOINERS; i++)
        CHECK(pthread_create(&joiners[i], NULL, join_it, made) == 0);
    for (int i = 0; i < 20; i++)
        rest();
    atomic_store(&may_go, true);
    for (int i = 0; i < JOINERS; i++)
        CHECK(pthread_join(joiners[i], NULL) == 0);
    fak_pool_free(made);
}

static void *add_one(void *pool) {
    CHECK(fak_pool_add(pool, count_one, NULL));
    return NULL;
}

/* A caller sleeps, since the only worker is busy. A resize starts another worker for it. */
static void a_resize_wakes_a_caller(void) {
    fak_pool *made = fresh(1, 0);
    pthread_t adder;
    CHECK(fak_pool_add(made, stay, NULL));
    wait_for(1);
    CHECK(pthread_create(&adder, NULL, add_one, made) == 0);
    for (int i = 0; i < 20; i++)
        rest();
    CHECK(atomic_load(&done) == 1 && fak_pool_resize(made, 2) && pthread_join(adder, NULL) == 0);
    wait_for(2);
    atomic_store(&may_go, true);
    fak_pool_free(made);
}

static void each_call_is_made(void) {
    numbers_are_refused();
    no_job_is_null(3);
    no_job_is_null(0);
    all_joins_return();
    a_resize_wakes_a_caller();
    jobs_run_in_order();
    a_full_queue_refuses(2, 2);
    a_full_queue_refuses(2, 0);
    a_shrink_leaves_the_queue();
    resizes_take_effect(2);
    resizes_take_effect(0);
    a_shrink_leaves_the_queue_to_jobs();
    a_shrink_stops_idle_workers(0);
    a_shrink_stops_idle_workers(1);
    a_shrink_stops_idle_workers(64);
    jobs_may_call();
}

/* ---- Stress ---- */

enum { ADDERS = 6, MOST_WORKERS = 40 };

typedef struct {
    pthread_t thread;
    fak_pool *of;
    unsigned long jobs;
    unsigned random;
    atomic_uchar *runs;
} adder;

static atomic_bool ends;
static atomic_ulong refused;

static void run_once(void *argument) {
    CHECK(atomic_fetch_add((atomic_uchar *)argument, 1) == 0);
}

static unsigned random_of(unsigned *seed) {
    *seed = *seed * 1103515245u + 12345u;
    return *seed >> 16;
}

static void *add_all(void *argument) {
    adder *self = argument;
    for (unsigned long i = 0; i < self->jobs; i++) {
        if (random_of(&self->random) % 2 == 0)
            CHECK(fak_pool_add(self->of, run_once, &self->runs[i]));
        else
            while (!fak_pool_try_add(self->of, run_once, &self->runs[i])) {
                atomic_fetch_add(&refused, 1);
                CHECK(sched_yield() == 0);
            }
    }
    return NULL;
}

static void *resize_often(void *argument) {
    unsigned seed = 7;
    while (!atomic_load(&ends)) {
        CHECK(fak_pool_resize(argument, 1 + random_of(&seed) % MOST_WORKERS));
        rest();
    }
    return NULL;
}

static void *join_often(void *pool) {
    while (!atomic_load(&ends))
        fak_pool_join(pool);
    return NULL;
}

static atomic_ulong joins;

static void *count_joins(void *pool) {
    while (!atomic_load(&ends)) {
        fak_pool_join(pool);
        atomic_fetch_add(&joins, 1);
        CHECK(sched_yield() == 0);
    }
    return NULL;
}

/* Waits until this count is reached. Fails after half a minute. */
static void wait_for_count(atomic_ulong *count, unsigned long wanted) {
    time_t late = time(NULL) + 30;
    while (atomic_load(count) < wanted)
        CHECK(sched_yield() == 0 && time(NULL) < late);
}

/* One job at a time. A caller that adds it and joins finds it done. Another caller, which joins all the time, doesn't sleep on. */
static void joins_take_turns(size_t waiting, unsigned long rounds) {
    fak_pool *made = fresh(2, waiting);
    pthread_t joiner;
    atomic_store(&ends, false);
    CHECK(pthread_create(&joiner, NULL, count_joins, made) == 0);
    for (unsigned long round = 1; round <= rounds; round++) {
        CHECK(fak_pool_add(made, count_one, NULL));
        if (round % 2 == 0)
            fak_pool_join(made);
        else
            wait_for_count(&done, round);
        CHECK(atomic_load(&done) == round);
        wait_for_count(&joins, atomic_load(&joins) + 2);
    }
    atomic_store(&ends, true);
    CHECK(pthread_join(joiner, NULL) == 0);
    fak_pool_free(made);
}

static void stress(size_t waiting, unsigned long jobs) {
    adder adders[ADDERS];
    pthread_t resizer, joiners[2];
    fak_pool *made = fresh(2, waiting);
    atomic_store(&ends, false);
    CHECK(pthread_create(&resizer, NULL, resize_often, made) == 0);
    for (int i = 0; i < 2; i++)
        CHECK(pthread_create(&joiners[i], NULL, join_often, made) == 0);
    for (unsigned i = 0; i < ADDERS; i++) {
        adders[i] = (adder){.of = made, .jobs = jobs, .random = i, .runs = calloc(jobs, 1)};
        CHECK(adders[i].runs != NULL && pthread_create(&adders[i].thread, NULL, add_all, &adders[i]) == 0);
    }
    for (int i = 0; i < ADDERS; i++)
        CHECK(pthread_join(adders[i].thread, NULL) == 0);
    fak_pool_join(made);
    for (int i = 0; i < ADDERS; i++)
        for (unsigned long job = 0; job < jobs; job++)
            CHECK(atomic_load(&adders[i].runs[job]) == 1);
    atomic_store(&ends, true);
    for (int i = 0; i < 2; i++)
        CHECK(pthread_join(joiners[i], NULL) == 0);
    CHECK(pthread_join(resizer, NULL) == 0 && fak_pool_resize(made, 2) && overlaps(made) <= 2);
    fak_pool_free(made);
    for (int i = 0; i < ADDERS; i++)
        free(adders[i].runs);
}

int main(int count, char **words) {
    alarm(280); /* what hangs fails */
    if (count == 2 && strcmp(words[1], "calls") == 0) {
        each_call_is_made();
    } else if (count == 3 && strcmp(words[1], "stress") == 0) {
        joins_take_turns(0, strtoul(words[2], NULL, 10));
        joins_take_turns(4, 4 * strtoul(words[2], NULL, 10));
        for (size_t waiting = 0; waiting <= 64; waiting += waiting == 0 ? 1 : 63)
            stress(waiting, strtoul(words[2], NULL, 10));
    } else {
        return 2;
    }
    return 0;
}
