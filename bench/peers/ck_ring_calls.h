/* Concurrency Kit's ring through calls in C, since its header does not compile as C++. */
#ifndef CK_RING_CALLS_H
#define CK_RING_CALLS_H

#include <stdbool.h>
#include <stdint.h>

#ifdef __cplusplus
extern "C" {
#endif

typedef struct ck_queue ck_queue;

ck_queue *ck_queue_open(unsigned size);
void ck_queue_close(ck_queue *queue);
bool ck_queue_put(ck_queue *queue, uint64_t item);
bool ck_queue_get(ck_queue *queue, uint64_t *item);

/* The two halves of a put. `number` goes from the first to the second. */
bool ck_queue_claim(ck_queue *queue, uint64_t item, unsigned *number);
void ck_queue_fill(ck_queue *queue, unsigned number);

#ifdef __cplusplus
}
#endif

#endif
