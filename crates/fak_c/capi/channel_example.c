/* One thread sends the numbers from 1 to 1,000 to another, through a channel of 16 cells, and closes it. The other adds them up. Each
 * sleeps while it has to wait. */
#include "fak_channel.h"

#include <pthread.h>
#include <stdio.h>

static void *send_all(void *argument) {
    fak_channel_end *end = argument;
    for (uint64_t word = 1; word <= 1000; word++) {
        fak_channel_item item = fak_channel_of_word(word);
        if (fak_channel_send(end, &item) != FAK_C_OK)
            break;
    }
    fak_channel_close(end);
    return NULL;
}

int main(void) {
    fak_channel_end ends[2] = {0};
    fak_channel_item item;
    pthread_t sender;
    uint64_t sum = 0;
    if (fak_channel_open_ends(ends, 2, 16, FAK_C_MOST_CALLS / 2) != FAK_C_OK)
        return 1;
    if (pthread_create(&sender, NULL, send_all, &ends[0]) != 0)
        return 1;
    while (fak_channel_receive(&ends[1], &item) == FAK_C_OK)
        sum += item.word[0];
    pthread_join(sender, NULL);
    fak_channel_leave(&ends[0]);
    fak_channel_leave(&ends[1]);
    printf("the sum is %llu\n", (unsigned long long)sum);
    return 0;
}
