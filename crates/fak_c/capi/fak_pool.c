/* The pool of fak_pool.h. Jobs wait in a channel. Workers sleep while it is empty.
 *
 * A second channel has permits: a caller takes one before it adds a job, and sleeps while there is none. With a queue there is a permit for
 * each job that may wait, and the worker gives it back when it takes the job. Without a queue there is one for each worker, which gives it
 * back when the job is done. So the channel of jobs has a cell for each job, and as many more as there may be wake-ups of a resize: no send
 * finds it full, and no wake-up takes the cell of a job.
 *
 * Workers and permits are counted next to their limit in one word, so that a count and a limit that change at once never disagree. */
#include "fak_pool.h"

#include "fak_channel.h"

#include <pthread.h>
#include <sched.h>
#include <stdatomic.h>
#include <stdint.h>
#include <stdlib.h>

/* How many callers may add at the same time without waiting for one another, and how many workers may sleep in the channel itself.
 *
 * The ends of workers are more than those of callers with the one of a resize. So the stints of callers run out first: an addition is
 * refused, and each job that was added still runs. */
enum { CALLERS = 4, FEWEST_ENDS = CALLERS + 2, SLEEPERS = 64 };

/* The calls of all ends of a channel. A test has fewer. */
#ifndef FAK_POOL_CALLS
#define FAK_POOL_CALLS FAK_C_MOST_CALLS
#endif

/* A worker, whose thread is joined once it has ended. */
struct worker {
    pthread_t thread;
    fak_pool *of;
    atomic_bool has_ended;
    struct worker *next;
};

/* A channel that callers share. Its last end belongs to resizes. */
struct channel {
    fak_channel_shared shared;
    fak_channel_end *ends;
    size_t count;
};

struct fak_pool {
    struct channel jobs, permits;
    bool has_queue;
    atomic_ullong worker_count, permit_count; /* the limit in the upper half, the count in the lower */
    atomic_size_t wakes;                      /* sent by resizes, and not received */
    atomic_size_t unfinished;                 /* jobs that were added and are not done */
    pthread_mutex_t lock;                     /* for callers that join */
    pthread_cond_t is_done;
    pthread_mutex_t resizing;                 /* its holder changes the list of workers */
    struct worker *workers;
};

/* ---- Counts with a limit ---- */

static size_t limit_of(unsigned long long word) {
    return (size_t)(word >> 32);
}

static size_t count_of(unsigned long long word) {
    return (size_t)(word & UINT32_MAX);
}

/* The exchange keeps the count that it has read: count and limit change together. */
static void set_limit(atomic_ullong *word, size_t limit) {
    unsigned long long now = atomic_load(word);
    while (!atomic_compare_exchange_weak(word, &now, (unsigned long long)limit << 32 | count_of(now)))
        continue;
}

/* Counts one more, if the limit allows it. Returns whether it did. The exchange fails if the count or the limit has changed since. */
static bool count_up(atomic_ullong *word) {
    unsigned long long now = atomic_load(word);
    while (count_of(now) < limit_of(now))
        if (atomic_compare_exchange_weak(word, &now, now + 1))
            return true;
    return false;
}

/* Counts one less, if there are more than the limit. Returns whether it did. */
static bool count_down(atomic_ullong *word) {
    unsigned long long now = atomic_load(word);
    while (count_of(now) > limit_of(now))
        if (atomic_compare_exchange_weak(word, &now, now - 1))
            return true;
    return false;
}

/* ---- Workers ---- */

static fak_channel_item item_of(fak_pool_function *run, void *argument) {
    fak_channel_item item = {{(uintptr_t)run, (uintptr_t)argument, 0, 0}};
    return item;
}

/* A job is done, or was not added after all. The subtraction must follow the job: at 0 a caller that joins returns. */
static void finish(fak_pool *self) {
    if (atomic_fetch_sub(&self->unfinished, 1) != 1)
        return;
    /* A caller that joins has the lock from its look at the count until it sleeps. So the broadcast must follow the lock. */
    pthread_mutex_lock(&self->lock);
    pthread_cond_broadcast(&self->is_done);
    pthread_mutex_unlock(&self->lock);
}

/* Takes a permit that was not made before, or one that was given back. A caller that sleeps finds all made: a resize that allows more makes
 * these itself. */
static bool take_permit(fak_pool *self, bool tries) {
    fak_channel_item item;
    int32_t code;
    do {
        if (count_up(&self->permit_count))
            return true;
        code = tries ? fak_channel_shared_try_receive(&self->permits.shared, &item)
                     : fak_channel_shared_receive(&self->permits.shared, &item);
        /* A resize misses a permit that a worker is giving back. So this must follow the receive: such a permit is taken away here. */
    } while (code == FAK_C_OK && count_down(&self->permit_count));
    return code == FAK_C_OK;
}

/* Gives a permit back, unless there are too many. The channel has a cell for each. */
static void give_permit(fak_pool *self) {
    fak_channel_item item = item_of(NULL, NULL);
    if (!count_down(&self->permit_count))
        fak_channel_shared_send(&self->permits.shared, &item);
}

static void run_job(fak_pool *self, const fak_channel_item *item) {
    fak_pool_function *run = (fak_pool_function *)(uintptr_t)item->word[0];
    if (run == NULL) {
        /* A wake-up. This must come before the worker's look at the limit: a resize that still counts this wake-up counts on the look. */
        atomic_fetch_sub(&self->wakes, 1);
        return;
    }
    if (self->has_queue)
        give_permit(self);
    run((void *)(uintptr_t)item->word[1]);
    if (!self->has_queue)
        give_permit(self);
    finish(self);
}

/* Runs jobs until there are too many workers, or the channel is closed and has no job left. */
static void *work(void *argument) {
    struct worker *me = argument;
    fak_pool *self = me->of;
    fak_channel_item item;
    while (!count_down(&self->worker_count) && fak_channel_shared_receive(&self->jobs.shared, &item) == FAK_C_OK)
        run_job(self, &item);
    /* The last step of the thread: a resize that reads it joins without waiting. */
    atomic_store(&me->has_ended, true);
    return NULL;
}

/* Starts a worker, which was counted. */
static bool start(fak_pool *self) {
    struct worker *worker = malloc(sizeof *worker);
    if (worker == NULL)
        return false;
    worker->of = self;
    atomic_init(&worker->has_ended, false);
    if (pthread_create(&worker->thread, NULL, work, worker) != 0) {
        free(worker);
        return false;
    }
    worker->next = self->workers;
    self->workers = worker;
    return true;
}

/* Joins the workers that have ended, or all. */
static void join_workers(fak_pool *self, bool all) {
    struct worker **at = &self->workers;
    while (*at != NULL) {
        struct worker *worker = *at;
        if (all || atomic_load(&worker->has_ended)) {
            pthread_join(worker->thread, NULL);
            *at = worker->next;
            free(worker);
        } else {
            at = &worker->next;
        }
    }
}

/* ---- Opening ---- */

static bool open_channel(struct channel *channel, size_t senders, size_t receivers, size_t size) {
    size_t count = FAK_CHANNEL_SHARED_ENDS(senders, receivers) + 1;
    channel->ends = calloc(count, sizeof *channel->ends);
    if (channel->ends == NULL)
        return false;
    if (fak_channel_open_ends(channel->ends, count, size, FAK_POOL_CALLS / count) != FAK_C_OK) {
        free(channel->ends);
        return false;
    }
    channel->count = count;
    return fak_channel_shared_over(&channel->shared, channel->ends, senders, receivers) == FAK_C_OK;
}

/* The end of resizes, whose calls have the lock `resizing`. */
static fak_channel_end *own_end(struct channel *channel) {
    return &channel->ends[channel->count - 1];
}

static void leave_channel(struct channel *channel) {
    if (channel->count == 0)
        return;
    fak_channel_leave(own_end(channel));
    fak_channel_shared_leave(&channel->shared);
    free(channel->ends);
}

static bool open_channels(fak_pool *self, size_t workers, size_t waiting) {
    size_t of_workers = workers < FEWEST_ENDS ? FEWEST_ENDS : workers < SLEEPERS ? workers : SLEEPERS;
    size_t permits = self->has_queue ? waiting : FAK_POOL_MOST_WORKERS;
    return open_channel(&self->jobs, CALLERS, of_workers, permits + FAK_POOL_MOST_WORKERS)
        && open_channel(&self->permits, of_workers, CALLERS, permits);
}

static void free_all(fak_pool *self) {
    leave_channel(&self->jobs);
    leave_channel(&self->permits);
    pthread_mutex_destroy(&self->lock);
    pthread_mutex_destroy(&self->resizing);
    pthread_cond_destroy(&self->is_done);
    free(self);
}

fak_pool *fak_pool_create(size_t workers, size_t waiting) {
    fak_pool *self;
    if (workers < 1 || workers > FAK_POOL_MOST_WORKERS || waiting > FAK_POOL_MOST_WAITING)
        return NULL;
    self = calloc(1, sizeof *self);
    if (self == NULL)
        return NULL;
    self->has_queue = waiting != 0;
    set_limit(&self->permit_count, waiting);
    pthread_mutex_init(&self->lock, NULL);
    pthread_mutex_init(&self->resizing, NULL);
    pthread_cond_init(&self->is_done, NULL);
    if (!open_channels(self, workers, waiting)) {
        free_all(self);
        return NULL;
    }
    if (!fak_pool_resize(self, workers)) {
        fak_pool_free(self);
        return NULL;
    }
    return self;
}

void fak_pool_free(fak_pool *self) {
    if (self == NULL)
        return;
    fak_pool_join(self);
    fak_channel_shared_close(&self->jobs.shared);
    join_workers(self, true);
    free_all(self);
}

/* ---- Calls ---- */

/* Sends the job by a permit. If all ends are lent, a try yields: no send of this channel sleeps, so one soon comes back. */
static bool send_job(fak_pool *self, const fak_channel_item *item, bool tries) {
    int32_t code;
    /* It must come before the send: a worker may finish the job at once. */
    atomic_fetch_add(&self->unfinished, 1);
    do
        code = tries ? fak_channel_shared_try_send(&self->jobs.shared, item) : fak_channel_shared_send(&self->jobs.shared, item);
    while (code == FAK_C_BUSY && sched_yield() == 0);
    if (code != FAK_C_OK) {
        give_permit(self);
        finish(self);
    }
    return code == FAK_C_OK;
}

bool fak_pool_add(fak_pool *self, fak_pool_function *run, void *argument) {
    fak_channel_item item = item_of(run, argument);
    /* An item without a function is a wake-up. */
    return run != NULL && take_permit(self, false) && send_job(self, &item, false);
}

bool fak_pool_try_add(fak_pool *self, fak_pool_function *run, void *argument) {
    fak_channel_item item = item_of(run, argument);
    return run != NULL && take_permit(self, true) && send_job(self, &item, true);
}

void fak_pool_join(fak_pool *self) {
    pthread_mutex_lock(&self->lock);
    while (atomic_load(&self->unfinished) != 0)
        pthread_cond_wait(&self->is_done, &self->lock);
    pthread_mutex_unlock(&self->lock);
}

/* Makes as many permits as workers. Those that belong to jobs are taken away when they are given back. */
static void resize_permits(fak_pool *self, size_t workers) {
    fak_channel_item item = item_of(NULL, NULL);
    set_limit(&self->permit_count, workers);
    while (count_up(&self->permit_count))
        fak_channel_shared_send(&self->permits.shared, &item);
    while (count_of(atomic_load(&self->permit_count)) > workers && fak_channel_try_receive(own_end(&self->permits), &item) == FAK_C_OK)
        give_permit(self);
}

/* Wakes workers that sleep although they have to stop: with earlier wake-ups that nobody has received yet, as many as have to. This must
 * follow the new limit: a worker looks at it after each wake-up. One that was busy may stop without a wake-up, which another gets then. */
static void wake_surplus(fak_pool *self, size_t workers) {
    fak_channel_item item = item_of(NULL, NULL);
    size_t sent = atomic_load(&self->wakes), count = count_of(atomic_load(&self->worker_count));
    for (; workers + sent < count; sent++) {
        /* It must come before the send: a worker may receive the wake-up at once. */
        atomic_fetch_add(&self->wakes, 1);
        if (fak_channel_send(own_end(&self->jobs), &item) != FAK_C_OK)
            atomic_fetch_sub(&self->wakes, 1);
    }
}

/* Starts workers up to the limit. If one can't be started, those that run are the limit. */
static bool start_workers(fak_pool *self) {
    while (count_up(&self->worker_count)) {
        if (!start(self)) {
            unsigned long long now = atomic_fetch_sub(&self->worker_count, 1) - 1;
            set_limit(&self->worker_count, count_of(now) > 0 ? count_of(now) : 1);
            return false;
        }
    }
    return true;
}

bool fak_pool_resize(fak_pool *self, size_t workers) {
    bool is_done;
    if (workers < 1 || workers > FAK_POOL_MOST_WORKERS)
        return false;
    pthread_mutex_lock(&self->resizing);
    join_workers(self, false);
    set_limit(&self->worker_count, workers);
    is_done = start_workers(self);
    wake_surplus(self, workers);
    if (!self->has_queue)
        resize_permits(self, is_done ? workers : limit_of(atomic_load(&self->worker_count)));
    pthread_mutex_unlock(&self->resizing);
    return is_done;
}

size_t fak_pool_bytes(const fak_pool *self) {
    size_t ends = self->jobs.count + self->permits.count;
    return sizeof *self + ends * sizeof *self->jobs.ends + limit_of(atomic_load(&self->worker_count)) * sizeof(struct worker);
}
