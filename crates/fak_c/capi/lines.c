/* Counts the lines of files, a file a job of a pool of threads. Prints the sum, and how many files could not be read. */
#include "fak_pool.h"

#include <stdatomic.h>
#include <stdio.h>

static atomic_ulong lines, unread;

static void count(void *name) {
    unsigned long counted = 0;
    FILE *file = fopen((const char *)name, "r");
    if (file == NULL) {
        atomic_fetch_add(&unread, 1);
        return;
    }
    for (int letter; (letter = getc(file)) != EOF;)
        counted += letter == '\n';
    fclose(file);
    atomic_fetch_add(&lines, counted);
}

int main(int words, char **word) {
    fak_pool *pool = fak_pool_create(4, 16);
    if (pool == NULL)
        return 1;
    for (int i = 1; i < words; i++)
        if (!fak_pool_add(pool, count, word[i]))
            return 1;
    fak_pool_free(pool);
    printf("%lu lines, %lu files not read\n", lines, unread);
    return unread != 0;
}
