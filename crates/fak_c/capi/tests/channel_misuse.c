/* Two threads use one end of a channel, and nothing orders them: ThreadSanitizer has to report it, if fak_channel.c is compiled with it. In
 * fact the second call comes after the first, so nothing breaks. Runs `apart`, where each has an end of its own, or `send`, `receive`,
 * `close`, `leave` or `move`, which is the first call. */
#include "fak_channel.h"
#include "tests.h"

#include <pthread.h>
#include <sched.h>
#include <stdatomic.h>
#include <string.h>

static fak_channel_end ends[3];
static const char *call;
static atomic_int is_made;

static void *call_first(void *argument) {
    fak_channel_item item = fak_channel_of_word(1);
    fak_channel_end *end = argument;
    int32_t code;
    if (strcmp(call, "receive") == 0)
        code = fak_channel_try_receive(end, &item);
    else if (strcmp(call, "close") == 0)
        code = fak_channel_close(end);
    else if (strcmp(call, "leave") == 0)
        code = fak_channel_leave(end);
    else if (strcmp(call, "move") == 0)
        code = fak_channel_move(end, &ends[2]);
    else
        code = fak_channel_send(end, &item);
    CHECK(code == FAK_C_OK);
    /* It orders nothing. */
    atomic_store_explicit(&is_made, 1, memory_order_relaxed);
    return NULL;
}

static void *call_second(void *end) {
    fak_channel_item item = fak_channel_of_word(1);
    while (atomic_load_explicit(&is_made, memory_order_relaxed) == 0)
        sched_yield();
    fak_channel_try_send(end, &item);
    return NULL;
}

int main(int count, char **words) {
    fak_channel_item item = fak_channel_of_word(1);
    pthread_t threads[2];
    CHECK(count == 2);
    call = words[1];
    CHECK(fak_channel_open_ends(ends, 2, 9, 100) == FAK_C_OK && fak_channel_send(&ends[1], &item) == FAK_C_OK);
    CHECK(pthread_create(&threads[0], NULL, call_first, &ends[0]) == 0);
    CHECK(pthread_create(&threads[1], NULL, call_second, &ends[strcmp(call, "apart") == 0]) == 0);
    for (int i = 0; i < 2; i++)
        CHECK(pthread_join(threads[i], NULL) == 0);
    for (int i = 0; i < 3; i++)
        fak_channel_leave(&ends[i]);
    return 0;
}
