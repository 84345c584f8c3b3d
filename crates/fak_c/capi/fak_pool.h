/* A pool of threads that run jobs: an example of a program over the channel (fak_channel.h), to be copied and changed. Any thread may call
 * it. A job may too, except that it neither joins nor frees its own pool. A job that adds to a full queue of its own pool sleeps until
 * another worker takes a job. Each job runs once. Workers take jobs in the order in which they were added, but of two jobs that were taken
 * the later one may start first. */
#ifndef FAK_POOL_H
#define FAK_POOL_H

#include <stdbool.h>
#include <stddef.h>

#ifdef __cplusplus
extern "C" {
#endif

#define FAK_POOL_MOST_WORKERS 256
#define FAK_POOL_MOST_WAITING 16776960 /* 2^24 - 256 */

typedef struct fak_pool fak_pool;
typedef void fak_pool_function(void *argument);

/* Creates a pool of `workers` threads (1 to FAK_POOL_MOST_WORKERS) with a queue of `waiting` jobs (at most FAK_POOL_MOST_WAITING). With a
 * queue of 0 no job waits: it is added when a worker is free for it. NULL if a number is out of range, or there is no memory or no
 * thread. */
fak_pool *fak_pool_create(size_t workers, size_t waiting);

/* Adds a job, and sleeps while the queue is full. False if `run` is null, or if the pool has used up its stint, which is above 10^12 calls.
 * Each job that was added still runs. */
bool fak_pool_add(fak_pool *self, fak_pool_function *run, void *argument);

/* Adds a job without sleeping. False if the queue was full, or other callers had all ends of its channel at this moment; or if `run` is
 * null, or the pool has used up its stint. */
bool fak_pool_try_add(fak_pool *self, fak_pool_function *run, void *argument);

/* Sleeps until each job that was added is done. */
void fak_pool_join(fak_pool *self);

/* From now on `workers` threads run jobs. It doesn't wait for those that have to stop: they end their jobs first. False if the number is
 * out of range, and nothing changes; or if there is no memory or no thread. Then there are at least as many workers as before, and at most
 * as many as asked for. */
bool fak_pool_resize(fak_pool *self, size_t workers);

/* Frees the pool once each job that was added is done. Meanwhile only its jobs may call it, and afterwards nobody. NULL is allowed. */
void fak_pool_free(fak_pool *self);

/* The bytes of the pool itself. Its two channels (fak_channel.h) keep 96 for each job that may wait, and below 250,000 more. */
size_t fak_pool_bytes(const fak_pool *self);

#ifdef __cplusplus
}
#endif

#endif
