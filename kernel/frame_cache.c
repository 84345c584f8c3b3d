/* A cache of page frames for each processor, in front of the list that all share. A thread takes a frame from its processor's cache and
 * gives one back to it without an atomic step. An empty cache is refilled from the list by one burst, and a full one is drained by one.
 *
 * A cache has room for two bursts, and after a refill or a drain it holds one. So at least BURST frames come or go before the next burst.
 * No handler uses a cache, and a thread runs on until it stops, so a cache needs no guard. */
#include "kernel.h"

enum { CACHE = 2 * BURST };

typedef struct {
    uint64_t frames[CACHE] __attribute__((aligned(64)));
    uint64_t count;
} frame_cache;

static frame_cache caches[PROCESSORS];

static void refill(frame_cache *cache, uint32_t number) {
    processor_state *state = &processor_states[number];
    cache->count = get_some(&frame_bundles[number], cache->frames, BURST);
    state->refills++;
    state->refilled += cache->count;
}

/* The frames that were given back last stay: their lines may still be in the processor's own cache. */
static void drain(frame_cache *cache, uint32_t number) {
    processor_state *state = &processor_states[number];
    put_all(&frame_bundles[number], cache->frames, BURST);
    cache->count -= BURST;
    for (uint64_t i = 0; i < cache->count; i++)
        cache->frames[i] = cache->frames[BURST + i];
    state->drains++;
    state->drained += BURST;
}

void *take_frame(void) {
    uint32_t number = processor();
    frame_cache *cache = &caches[number];
    if (cache->count == 0)
        refill(cache, number);
    if (cache->count == 0)
        return NULL;
    processor_states[number].taken++;
    return (void *)(uintptr_t)cache->frames[--cache->count];
}

void give_frame(void *frame) {
    uint32_t number = processor();
    frame_cache *cache = &caches[number];
    if (cache->count == CACHE)
        drain(cache, number);
    processor_states[number].given++;
    cache->frames[cache->count++] = (uintptr_t)frame;
}

/* Checks that each cache holds what came in and did not go out, and that its bursts were no more than the frames that came and went need.
 * Few frames need more, since a refill then finds less than a burst. Then gives its frames back to the list. */
void empty_caches(uint32_t n) {
    for (uint32_t i = 0; i < n; i++) {
        const processor_state *s = &processor_states[i];
        frame_cache *cache = &caches[i];
        if (s->refilled + s->given != s->taken + s->drained + cache->count)
            fail("frames were lost, or came from nowhere, in the cache of processor", i);
        if ((FEW_FRAMES == 0 && s->refills > s->taken / BURST + 1) || s->drains > s->given / BURST)
            fail("too many bursts of the cache of processor", i);
        put_all(&frame_bundles[i], cache->frames, cache->count);
        cache->count = 0;
    }
}
