/* A free list of pages with a cache for each thread. A thread takes a page from its own cache and gives it back there, without an atomic
 * step. An empty cache is refilled from the list by one burst, and a full one is drained by one. At the end each page is free once. */
#include "fak_c.h"

#include <pthread.h>
#include <sched.h>
#include <stdio.h>
#include <stdlib.h>

/* A cache has room for two bursts, and after a refill or a drain it holds one. So BURST pages come or go before the next burst. */
enum { PAGES = 1024, PAGE = 4096, THREADS = 4, BURST = 16, CACHE = 2 * BURST, HELD = 64, ROUNDS = 100000 };

typedef struct {
    fak_c_seat list; /* a bundle of BURST seats of the list */
    uint64_t number, count;
    uint64_t pages[CACHE];
} cache;

static unsigned char memory[PAGES][PAGE];
static fak_c_seat looks, bundles[THREADS];
static cache caches[THREADS];

static void expect(bool holds, const char *text) {
    if (!holds) {
        fprintf(stderr, "it does not hold that %s\n", text);
        exit(1);
    }
}

/* Tells ThreadSanitizer that these pages go to other threads, and that they came from others. */
static void tell_gives(const uint64_t *pages, uint64_t n) {
    for (uint64_t i = 0; i < n; i++)
        FAK_C_GIVES((void *)(uintptr_t)pages[i]);
}

static void tell_gets(const uint64_t *pages, uint64_t n) {
    for (uint64_t i = 0; i < n; i++)
        FAK_C_GETS((void *)(uintptr_t)pages[i]);
}

/* Inserts n pages. The list has a cell for each page, so it is never full. */
static void put(fak_c_seat *list, const uint64_t *pages, uint64_t n) {
    uint64_t ticket = 0, count = 0, left = 0;
    tell_gives(pages, n);
    for (; n > 0; pages += count, n -= count) {
        int32_t code = fak_c_insert_burst(list, pages, n, &ticket, &count);
        while (code == FAK_C_NOT_YET) {
            sched_yield();
            code = fak_c_try_fill_burst(list, &left);
        }
        expect(code == FAK_C_OK, "the burst is inserted");
    }
}

/* Takes up to n pages by one burst. Returns how many: 0 if the list is empty, or refuses while another thread takes its claim back. */
static uint64_t get(fak_c_seat *list, uint64_t *pages, uint64_t n) {
    uint64_t ticket = 0, count = 0, taken = 0, more = 0, left = 0;
    int32_t code = fak_c_delete_burst(list, pages, n, &ticket, &count, &taken);
    if (code == FAK_C_EMPTY)
        return 0;
    for (; code == FAK_C_NOT_YET; taken += more) {
        sched_yield();
        code = fak_c_try_take_burst(list, pages + taken, n - taken, &more, &left);
    }
    expect(code == FAK_C_OK, "the burst is deleted");
    tell_gets(pages, count);
    return count;
}

/* Takes a page. NULL if the cache has none, and the list gives none. */
static uint64_t *take_page(cache *own) {
    if (own->count == 0)
        own->count = get(&own->list, own->pages, BURST);
    return own->count == 0 ? NULL : (uint64_t *)(uintptr_t)own->pages[--own->count];
}

/* Gives a page back. The pages that came last stay in the cache: their lines may still be in the processor's. */
static void give_page(cache *own, uint64_t *page) {
    if (own->count == CACHE) {
        put(&own->list, own->pages, BURST);
        own->count -= BURST;
        for (uint64_t i = 0; i < own->count; i++)
            own->pages[i] = own->pages[BURST + i];
    }
    own->pages[own->count++] = (uintptr_t)page;
}

/* Takes and gives back pages at random, up to HELD at a time, and writes its number into each that it has. */
static void *work(void *argument) {
    cache *own = (cache *)argument;
    uint64_t *held[HELD], count = 0, random = own->number;
    for (int round = 0; round < ROUNDS; round++) {
        random = random * UINT64_C(6364136223846793005) + 1442695040888963407;
        if (random >> 63 != 0 && count < HELD) {
            uint64_t *page = take_page(own);
            if (page != NULL) {
                *page = own->number;
                held[count++] = page;
            }
        } else if (count > 0) {
            expect(*held[--count] == own->number, "no other thread has the page");
            give_page(own, held[count]);
        }
    }
    while (count > 0)
        give_page(own, held[--count]);
    put(&own->list, own->pages, own->count);
    return NULL;
}

/* Opens the list with a bundle for each cache, and fills it. */
static void open_list(void) {
    int32_t code = fak_c_open_bundles(&looks, 1, bundles, THREADS, BURST, PAGES, FAK_C_MOST_CALLS / (1 + THREADS * BURST));
    expect(code == FAK_C_OK, "the list is opened");
    for (uint64_t i = 0; i < THREADS; i++) {
        fak_c_move(&bundles[i], &caches[i].list);
        caches[i].number = i + 1;
    }
    for (uint64_t i = 0; i < PAGES; i++) {
        uint64_t page = (uintptr_t)memory[i];
        put(&caches[0].list, &page, 1);
    }
}

/* Takes all pages out of the list, and checks that it had each once. */
static void expect_all_pages(void) {
    static bool is_free[PAGES];
    int64_t items = 0;
    fak_c_count(&looks, &items);
    expect(items == PAGES, "each page is in the list");
    for (uint64_t i = 0; i < PAGES; i++) {
        uint64_t page = 0;
        expect(get(&caches[0].list, &page, 1) == 1, "the list has a page");
        size_t number = (page - (uintptr_t)memory) / PAGE;
        expect(number < PAGES && !is_free[number], "a page is in the list once");
        is_free[number] = true;
    }
}

int main(void) {
    pthread_t threads[THREADS];
    open_list();
    for (int i = 0; i < THREADS; i++)
        expect(pthread_create(&threads[i], NULL, work, &caches[i]) == 0, "a thread starts");
    for (int i = 0; i < THREADS; i++)
        pthread_join(threads[i], NULL);
    expect_all_pages();
    for (int i = 0; i < THREADS; i++)
        fak_c_leave(&caches[i].list);
    fak_c_leave(&looks);
    printf("each of %d pages is free once\n", PAGES);
    return 0;
}
