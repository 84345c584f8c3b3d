#include "ck_ring_calls.h"

#include <ck_ring.h>
#include <stdlib.h>

struct ck_queue {
    ck_ring_t ring;
    ck_ring_buffer_t cells[];
};

ck_queue *ck_queue_open(unsigned size) {
    size_t bytes = sizeof(ck_queue) + size * sizeof(ck_ring_buffer_t);
    ck_queue *queue = aligned_alloc(128, (bytes + 127) / 128 * 128);
    if (queue == NULL)
        return NULL;
    ck_ring_init(&queue->ring, size);
    for (unsigned i = 0; i < size; i++)
        queue->cells[i].value = NULL;
    return queue;
}

void ck_queue_close(ck_queue *queue) {
    free(queue);
}

bool ck_queue_put(ck_queue *queue, uint64_t item) {
    return ck_ring_enqueue_mpmc(&queue->ring, queue->cells, (void *)(uintptr_t)item);
}

bool ck_queue_get(ck_queue *queue, uint64_t *item) {
    void *found = NULL;
    if (!ck_ring_dequeue_mpmc(&queue->ring, queue->cells, &found))
        return false;
    *item = (uintptr_t)found;
    return true;
}

bool ck_queue_claim(ck_queue *queue, uint64_t item, unsigned *number) {
    void **cell = ck_ring_enqueue_reserve_mpmc(&queue->ring, queue->cells, number);
    if (cell == NULL)
        return false;
    *cell = (void *)(uintptr_t)item;
    return true;
}

void ck_queue_fill(ck_queue *queue, unsigned number) {
    ck_ring_enqueue_commit_mpmc(&queue->ring, number);
}
