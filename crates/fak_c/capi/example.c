/* One thread sends the numbers from 1 to 1,000 to another, through a queue of 16 cells, and shuts it. The other adds them up. */
#include "fak_c.h"

#include <pthread.h>
#include <sched.h>
#include <stdio.h>

/* Inserts the item. False if the queue is shut, or the seat's stint is used up. */
static bool insert(fak_c_seat *seat, uint64_t item) {
    uint64_t ticket = 0;
    int32_t answer;
    while ((answer = fak_c_claim_insert(seat, item, &ticket)) == FAK_C_FULL)
        sched_yield();
    if (answer != FAK_C_OK)
        return false;
    while (fak_c_try_fill(seat) == FAK_C_NOT_YET)
        sched_yield();
    return true;
}

/* Deletes the oldest item, if there is one. */
static bool delete_one(fak_c_seat *seat, uint64_t *item) {
    uint64_t ticket = 0;
    if (fak_c_claim_delete(seat, &ticket) != FAK_C_OK)
        return false;
    while (fak_c_try_take(seat, item) == FAK_C_NOT_YET)
        sched_yield();
    return true;
}

static void *send_all(void *argument) {
    fak_c_seat *seat = argument;
    bool was_open = false;
    for (uint64_t item = 1; item <= 1000; item++)
        insert(seat, item);
    fak_c_shut(seat, &was_open);
    return NULL;
}

int main(void) {
    fak_c_seat seats[2] = {0};
    pthread_t sender;
    uint64_t sum = 0, item = 0;
    if (fak_c_open(seats, 2, 16, 10000) != FAK_C_OK || pthread_create(&sender, NULL, send_all, &seats[0]) != 0)
        return 1;
    for (int taken = 0; taken < 1000;) {
        if (delete_one(&seats[1], &item)) {
            sum += item;
            taken++;
        } else {
            sched_yield();
        }
    }
    pthread_join(sender, NULL);
    fak_c_leave(&seats[0]);
    fak_c_leave(&seats[1]);
    printf("the sum is %llu\n", (unsigned long long)sum);
    return 0;
}
