/* A stop of a thread, wherever it is, by a signal whose handler sleeps. One thread at a time is stopped. */
#pragma once

#include <cstdint>
#include <pthread.h>

/* Sends the signal, and waits until the thread has stopped. It stops for this long. Returns the ticks at which it stopped. */
std::uint64_t begin_stop(pthread_t thread, double milliseconds);

void wait_for_end_of_stop();
