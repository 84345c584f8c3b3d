/* Runs one group of the tests: `limits`, `pauses llvm` or `pauses rattle` by which the archive was built, `memory`,
 * `threads PAIRS ITEMS`, `drain ITEMS`, `objects ROUNDS` or `pointers ITEMS`; of bundles `bursts`, `burst-threads PAIRS ITEMS`,
 * `burst-drain ITEMS`, `burst-stops` or `burst-pointers ITEMS`. */
#include "tests.h"

#include <string.h>

int main(int count, char **words) {
    if (count == 2 && strcmp(words[1], "limits") == 0)
        each_limit_is_named();
    else if (count == 3 && strcmp(words[1], "pauses") == 0 && strcmp(words[2], "llvm") == 0)
        pauses_have_their_length(true);
    else if (count == 3 && strcmp(words[1], "pauses") == 0 && strcmp(words[2], "rattle") == 0)
        pauses_have_their_length(false);
    else if (count == 2 && strcmp(words[1], "memory") == 0)
        each_allocation_fails_in_turn();
    else if (count == 4 && strcmp(words[1], "threads") == 0)
        threads_share_a_queue(atoi(words[2]), strtoull(words[3], NULL, 10));
    else if (count == 3 && strcmp(words[1], "drain") == 0)
        a_shut_queue_is_drained(strtoull(words[2], NULL, 10));
    else if (count == 3 && strcmp(words[1], "objects") == 0)
        threads_share_objects(strtoull(words[2], NULL, 10));
    else if (count == 3 && strcmp(words[1], "pointers") == 0)
        memory_is_handed_over(strtoull(words[2], NULL, 10));
    else if (count == 2 && strcmp(words[1], "bursts") == 0)
        bursts_are_those_of_a_list();
    else if (count == 4 && strcmp(words[1], "burst-threads") == 0)
        threads_share_a_queue_by_bursts(atoi(words[2]), strtoull(words[3], NULL, 10));
    else if (count == 3 && strcmp(words[1], "burst-drain") == 0)
        a_shut_queue_is_drained_by_bursts(strtoull(words[2], NULL, 10));
    else if (count == 2 && strcmp(words[1], "burst-stops") == 0)
        a_waiting_burst_stops_nobody();
    else if (count == 3 && strcmp(words[1], "burst-pointers") == 0)
        memory_is_handed_over_by_bursts(strtoull(words[2], NULL, 10));
    else
        return 2;
    return 0;
}
