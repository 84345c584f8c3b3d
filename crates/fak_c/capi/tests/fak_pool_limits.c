/* The pool without memory, without threads, at the end of its stint, and while all ends are lent. This program has a pool of its own, with
 * few calls, and sees its inside. The linker's --wrap sends each allocation and each start of a thread here. */
#define FAK_POOL_CALLS 13000
#include "../fak_pool.c"
#include "failing_heap.h"
#include "tests.h"

#include <errno.h>
#include <time.h>
#include <unistd.h>

/* ---- What fails in turn ---- */

int __real_pthread_create(pthread_t *thread, const pthread_attr_t *how, void *(*run)(void *), void *argument);
int __wrap_pthread_create(pthread_t *thread, const pthread_attr_t *how, void *(*run)(void *), void *argument);

int __wrap_pthread_create(pthread_t *thread, const pthread_attr_t *how, void *(*run)(void *), void *argument) {
    return is_made() ? __real_pthread_create(thread, how, run, argument) : EAGAIN;
}

/* Lets the call of this number fail, from now on. */
static void fail(long number) {
    failing = number;
    made = 0;
}

/* ---- A send that comes late ---- */

int32_t __real_fak_channel_shared_send(fak_channel_shared *shared, const fak_channel_item *item);
int32_t __wrap_fak_channel_shared_send(fak_channel_shared *shared, const fak_channel_item *item);

/* The channel whose next send waits, and whether it does. */
static _Atomic(fak_channel_shared *) held;
static atomic_bool is_held;

int32_t __wrap_fak_channel_shared_send(fak_channel_shared *shared, const fak_channel_item *item) {
    fak_channel_shared *wanted = shared;
    if (atomic_compare_exchange_strong(&held, &wanted, NULL)) {
        atomic_store(&is_held, true);
        while (atomic_load(&is_held))
            sched_yield();
    }
    return __real_fak_channel_shared_send(shared, item);
}

/* ---- Jobs ---- */

static atomic_ulong done;
static atomic_bool may_go;

static void rest(void) {
    CHECK(nanosleep(&(struct timespec){0, 1000000}, NULL) == 0);
}

static void count_one(void *argument) {
    (void)argument;
    atomic_fetch_add(&done, 1);
}

static void stay(void *argument) {
    count_one(argument);
    while (!atomic_load(&may_go))
        rest();
}

/* Whether `wanted` jobs run at once, and no more, if more are added. */
static bool run_at_once(fak_pool *pool, unsigned long wanted) {
    atomic_store(&done, 0);
    atomic_store(&may_go, false);
    for (unsigned long i = 0; i < wanted; i++)
        CHECK(fak_pool_add(pool, stay, NULL));
    for (int rests = 0; atomic_load(&done) != wanted; rests++) {
        CHECK(rests < 20000); /* above 20 seconds */
        rest();
    }
    CHECK(pool->has_queue == fak_pool_try_add(pool, stay, NULL));
    for (int i = 0; i < 5; i++)
        rest();
    wanted -= atomic_load(&done);
    atomic_store(&may_go, true);
    fak_pool_join(pool);
    return wanted == 0;
}

/* ---- Tests ---- */

static void creations_fail_in_turn(size_t waiting) {
    fak_pool *pool;
    long number = 0;
    do {
        fail(++number);
        pool = fak_pool_create(3, waiting);
        CHECK(pool != NULL || live == 0);
    } while (pool == NULL);
    fail(0);
    /* The pool, the parts of its channels, and for each worker its own and a thread. */
    CHECK(number > 1 + 6 + 6 && run_at_once(pool, 3));
    fak_pool_free(pool);
    CHECK(live == 0);
}

/* A resize that finds no memory or no thread keeps the workers that it has started. Each needs both. */
static void resizes_fail_in_turn(size_t waiting) {
    for (long number = 1; number <= 7; number++) {
        fak_pool *pool = fak_pool_create(2, waiting);
        CHECK(pool != NULL);
        fail(number);
        CHECK(fak_pool_resize(pool, 5) == (number == 7));
        fail(0);
        CHECK(run_at_once(pool, 2 + (unsigned long)(number - 1) / 2));
        CHECK(fak_pool_resize(pool, 1) && run_at_once(pool, 1) && fak_pool_resize(pool, 4) && run_at_once(pool, 4));
        fak_pool_free(pool);
        CHECK(live == 0);
    }
}

/* More than permits. */
enum { ADDERS = 16 };

/* Adds jobs until one is refused. Returns how many were added. */
static void *add_until_worn(void *pool) {
    size_t added = 0;
    while (fak_pool_add(pool, count_one, NULL))
        added++;
    return (void *)added;
}

/* At the end of its stint a pool refuses jobs, and runs those that it has. No caller sleeps on. */
static void a_used_up_stint_refuses(size_t workers, size_t waiting) {
    fak_pool *pool = fak_pool_create(workers, waiting);
    pthread_t adders[ADDERS];
    unsigned long added = 0;
    CHECK(pool != NULL);
    atomic_store(&done, 0);
    for (int i = 0; i < ADDERS; i++)
        CHECK(pthread_create(&adders[i], NULL, add_until_worn, pool) == 0);
    for (int i = 0; i < ADDERS; i++) {
        void *of_one;
        CHECK(pthread_join(adders[i], &of_one) == 0);
        added += (size_t)of_one;
    }
    CHECK(!fak_pool_try_add(pool, count_one, NULL) && !fak_pool_add(pool, count_one, NULL));
    fak_pool_free(pool);
    CHECK(added > FAK_POOL_CALLS / 200 && atomic_load(&done) == added);
}

/* Borrows all ends of a lender, or gives them back. No caller waits. */
static void lend_all(fak_channel_lender *lender, bool borrows) {
    uint64_t number = 0;
    bool wakes = false;
    while (__atomic_exchange_n(&lender->lock, 1, __ATOMIC_ACQUIRE) != 0)
        continue;
    CHECK(lender->lending.waiting == 0);
    for (uint64_t i = 0; i < lender->lending.count; i++)
        CHECK((borrows ? fak_channel_lending_borrow(&lender->lending, false, &number)
                       : fak_channel_lending_give_back(&lender->lending, i, &wakes)) == FAK_C_OK && !wakes);
    __atomic_store_n(&lender->lock, 0, __ATOMIC_RELEASE);
}

/* Gives the ends back that no caller had, unless one sleeps meanwhile. */
static void *give_ends_back(void *argument) {
    for (int i = 0; i < 20; i++)
        rest();
    lend_all(&((fak_pool *)argument)->jobs.shared.senders, false);
    return NULL;
}

/* A try doesn't sleep while others have all ends of the channel of jobs. */
static void a_try_never_sleeps(size_t waiting) {
    fak_pool *pool = fak_pool_create(2, waiting);
    pthread_t thread;
    CHECK(pool != NULL);
    atomic_store(&done, 0);
    lend_all(&pool->jobs.shared.senders, true);
    CHECK(pthread_create(&thread, NULL, give_ends_back, pool) == 0);
    CHECK(fak_pool_try_add(pool, count_one, NULL) && pthread_join(thread, NULL) == 0);
    fak_pool_free(pool);
    CHECK(atomic_load(&done) == 1);
}

static void await(atomic_bool *flag) {
    for (int rests = 0; !atomic_load(flag); rests++) {
        CHECK(rests < 20000); /* above 20 seconds */
        rest();
    }
}

static void stay_until(void *flag) {
    await(flag);
}

/* Without a queue no job waits, although a resize comes while a worker that has ended its job gives its permit back. */
static void a_late_permit_is_taken_away(void) {
    fak_pool *pool = fak_pool_create(2, 0);
    atomic_bool may_end[2] = {false, false};
    uint64_t permits = 0;
    CHECK(pool != NULL);
    for (int i = 0; i < 2; i++)
        CHECK(fak_pool_add(pool, stay_until, &may_end[i]));
    atomic_store(&held, &pool->permits.shared);
    atomic_store(&may_end[0], true);
    await(&is_held);
    CHECK(fak_pool_resize(pool, 1));
    atomic_store(&is_held, false);
    while (fak_channel_shared_len(&pool->permits.shared, &permits) == FAK_C_OK && permits == 0)
        rest();
    CHECK(permits == 1 && !fak_pool_try_add(pool, count_one, NULL));
    atomic_store(&may_end[1], true);
    fak_pool_join(pool);
    CHECK(run_at_once(pool, 1) && fak_pool_resize(pool, 2) && run_at_once(pool, 2));
    fak_pool_free(pool);
    CHECK(live == 0);
}

int main(void) {
    alarm(280); /* what hangs fails */
    a_late_permit_is_taken_away();
    for (size_t waiting = 0; waiting <= 9; waiting += 9) {
        creations_fail_in_turn(waiting);
        resizes_fail_in_turn(waiting);
        a_used_up_stint_refuses(1, waiting);
        a_used_up_stint_refuses(3, waiting);
        a_used_up_stint_refuses(70, waiting);
        a_try_never_sleeps(waiting);
    }
    a_used_up_stint_refuses(1, 1);
    return 0;
}
