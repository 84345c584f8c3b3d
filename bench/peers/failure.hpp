/* The end of a program that found a queue wrong, or the system out of means. */
#pragma once

#include <cstdio>
#include <unistd.h>

/* Ends the process at once: other threads may still be inside their calls. */
[[noreturn]] inline void fail(const char *why) {
    std::fprintf(stderr, "ERROR: %s\n", why);
    _exit(2);
}
