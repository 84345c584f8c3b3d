/* What a close hands over, and a send by steps: ThreadSanitizer is told that a thread reads what another has written before. */
#include "channel_tests.h"

#include <pthread.h>
#include <sched.h>

enum { CALLS = 7 };

static int written;

/* Writes, and closes while the others sleep. */
static void *write_and_close(void *end) {
    rest_a_while();
    written = 7;
    CHECK(fak_channel_close(end) == FAK_C_OK);
    return NULL;
}

static bool is_closed(fak_channel_end *end) {
    bool found = false;
    CHECK(fak_channel_is_closed(&end->seat, &found) == FAK_C_OK);
    return found;
}

/* Finds the channel closed by this call. It is empty for calls that receive, and full for calls that send. */
static int32_t find_closed(fak_channel_end *end, int call) {
    fak_channel_item item = fak_channel_of_word(1);
    while (call >= 4 && !is_closed(end))
        sched_yield();
    switch (call) {
    case 0:
        return fak_channel_receive(end, &item);
    case 1:
        return fak_channel_receive_until(end, &item, FAK_CHANNEL_NEVER - 1);
    case 2:
        return fak_channel_send(end, &item);
    case 3:
        return fak_channel_send_until(end, &item, FAK_CHANNEL_NEVER - 1);
    case 4:
        return fak_channel_try_receive(end, &item);
    case 5:
        return fak_channel_try_send(end, &item);
    default:
        return fak_channel_close(end);
    }
}

/* Writes, and sends by steps. */
static void *write_and_send(void *argument) {
    fak_channel_end *end = argument;
    fak_channel_item item = fak_channel_of_word(1);
    uint64_t number = 0;
    int32_t code;
    written = 7;
    FAK_C_GIVES(end->waiting);
    CHECK(fak_channel_begin_send(&end->seat, &item) == FAK_C_OK);
    while ((code = fak_channel_step(&end->seat, &item, &number)) != FAK_C_OK)
        if (code == FAK_C_WAKES)
            end->waiting->unpark(end->waiting->context, number);
    return NULL;
}

/* What is sent by steps is received by an end. */
static void a_send_by_steps_hands_over(void) {
    fak_channel_end ends[2] = {0};
    fak_channel_item item = {{0}};
    pthread_t sender;
    CHECK(fak_channel_open_ends(ends, 2, 1, 100) == FAK_C_OK);
    written = 0;
    CHECK(pthread_create(&sender, NULL, write_and_send, &ends[0]) == 0);
    CHECK(fak_channel_receive(&ends[1], &item) == FAK_C_OK && item.word[0] == 1 && written == 7);
    CHECK(pthread_join(sender, NULL) == 0);
    for (int i = 0; i < 2; i++)
        CHECK(fak_channel_leave(&ends[i]) == FAK_C_OK);
}

static void a_close_hands_over(void) {
    for (int call = 0; call < CALLS; call++) {
        fak_channel_end ends[2] = {0};
        fak_channel_item item = fak_channel_of_word(1);
        pthread_t closer;
        CHECK(fak_channel_open_ends(ends, 2, 1, 100) == FAK_C_OK);
        CHECK((call != 2 && call != 3) || fak_channel_send(&ends[1], &item) == FAK_C_OK);
        written = 0;
        CHECK(pthread_create(&closer, NULL, write_and_close, &ends[0]) == 0);
        CHECK(find_closed(&ends[1], call) == FAK_C_CLOSED && written == 7);
        CHECK(pthread_join(closer, NULL) == 0);
        for (int i = 0; i < 2; i++)
            CHECK(fak_channel_leave(&ends[i]) == FAK_C_OK);
    }
}

void what_is_written_is_handed_over(void) {
    a_send_by_steps_hands_over();
    a_close_hands_over();
}
