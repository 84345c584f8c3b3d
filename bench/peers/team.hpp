/* Threads that start together. */
#pragma once

#include <functional>

/* Runs `work` with each number below `threads`, each in a thread of its own, from one start. Returns the nanoseconds from the first
 * that begins to the last that ends. */
double run_team(unsigned threads, const std::function<void(unsigned)> &work);
