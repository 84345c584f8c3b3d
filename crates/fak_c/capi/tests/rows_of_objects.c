/* The calls of fak_c.h by their names in rows: a line for each. */
#include "rows.h"

#define CALLS(CALL) \
    CALL(any, leave, fak_c_leave(self->seat)) \
    CALL(any, move, fak_c_move(self->seat, self->other)) \
    CALL(open, open, fak_c_open(self->seat, self->count, self->in[0], self->in[1])) \
    CALL(queue, claim_insert, fak_c_claim_insert(self->seat, self->in[0], word_at(self, 0))) \
    CALL(queue, try_fill, fak_c_try_fill(self->seat)) \
    CALL(queue, claim_delete, fak_c_claim_delete(self->seat, word_at(self, 0))) \
    CALL(queue, try_take, fak_c_try_take(self->seat, word_at(self, 0))) \
    CALL(queue, insert, fak_c_insert(self->seat, self->in[0], word_at(self, 0))) \
    CALL(queue, delete, fak_c_delete(self->seat, word_at(self, 0), word_at(self, 1))) \
    CALL(queue, put, fak_c_put(self->seat, self->in[0], word_or_null_at(self, 0))) \
    CALL(queue, get, fak_c_get(self->seat, word_or_null_at(self, 0), word_at(self, 1))) \
    CALL(queue, pause, fak_c_pause(self->seat)) \
    CALL(queue, shut, fak_c_shut(self->seat, truth_at(self, 0))) \
    CALL(queue, state, fak_c_state(self->seat, state_at(self, 0), word_at(self, 1), word_at(self, 2))) \
    CALL(queue, count, fak_c_count(self->seat, count_at(self, 0))) \
    CALL(queue, in_use, fak_c_in_use(self->seat, count_at(self, 0), truth_at(self, 1))) \
    CALL(queue, drained, fak_c_drained(self->seat, truth_at(self, 0))) \
    CALL(open, open_bundles, fak_c_open_bundles(self->seat, self->count, self->other, self->other_count, self->in[0], self->in[1], \
        self->in[2])) \
    CALL(bundle, insert_burst, fak_c_insert_burst(self->seat, self->in, self->in_count, word_at(self, 0), word_at(self, 1))) \
    CALL(bundle, try_fill_burst, fak_c_try_fill_burst(self->seat, word_at(self, 0))) \
    CALL(bundle, delete_burst, fak_c_delete_burst(self->seat, items_of(self), self->in[0], word_at(self, 0), word_at(self, 1), \
        word_at(self, 2))) \
    CALL(bundle, try_take_burst, fak_c_try_take_burst(self->seat, items_of(self), self->in[0], word_at(self, 0), word_at(self, 1))) \
    CALL(bundle, bundle_state, fak_c_bundle_state(self->seat, state_at(self, 0), word_at(self, 1), word_at(self, 2), word_at(self, 3), \
        word_at(self, 4))) \
    CALL(open, sem_open, fak_c_sem_open(self->seat, self->count, self->in[0], self->in[1], self->in[2])) \
    CALL(semaphore, sem_claim_down, fak_c_sem_claim_down(self->seat, self->in[0])) \
    CALL(semaphore, sem_try_park, fak_c_sem_try_park(self->seat)) \
    CALL(semaphore, sem_claim_up, fak_c_sem_claim_up(self->seat)) \
    CALL(semaphore, sem_try_wake, fak_c_sem_try_wake(self->seat, word_at(self, 0))) \
    CALL(semaphore, sem_state, fak_c_sem_state(self->seat, state_at(self, 0), word_at(self, 1))) \
    CALL(open, room_open, fak_c_room_open(self->seat, self->count, self->in[0], self->in[1])) \
    CALL(room, room_tir, fak_c_room_tir(self->seat, self->in[0], count_at(self, 0))) \
    CALL(room, room_release, fak_c_room_release(self->seat, self->in[0], count_at(self, 0))) \
    CALL(room, room_state, fak_c_room_state(self->seat, word_at(self, 0), word_at(self, 1))) \
    CALL(open, credit_open, fak_c_credit_open(self->seat, self->count, self->in[0], self->in[1])) \
    CALL(credit, credit_debit, fak_c_credit_debit(self->seat, count_at(self, 0))) \
    CALL(credit, credit_credit, fak_c_credit_credit(self->seat, count_at(self, 0))) \
    CALL(credit, credit_value, fak_c_credit_value(self->seat, count_at(self, 0), word_at(self, 1))) \
    CALL(open, files_open, fak_c_files_open(self->seat, self->count, self->in[0], self->in[1])) \
    CALL(files, files_try_read, fak_c_files_try_read(self->seat, count_at(self, 0))) \
    CALL(files, files_try_write, fak_c_files_try_write(self->seat, count_at(self, 0))) \
    CALL(files, files_get, fak_c_files_get(self->seat, self->in[0], word_at(self, 0), word_at(self, 1))) \
    CALL(files, files_set_inode, fak_c_files_set_inode(self->seat, self->in[0], self->in[1])) \
    CALL(files, files_set_uses, fak_c_files_set_uses(self->seat, self->in[0], self->in[1])) \
    CALL(files, files_end, fak_c_files_end(self->seat)) \
    CALL(files, files_hold, fak_c_files_hold(self->seat, state_at(self, 0)))

CALLS(DEFINE_CALL)

const named_call calls_of_objects[] = {CALLS(LIST_CALL){NULL, NULL, NULL}};
