/* The measures of this program. Each prints its tables. */
#pragma once

#include "options.hpp"

void measure_throughput(const Options &options);
void measure_bursts(const Options &options);
void measure_tails(const Options &options);
void measure_stops(const Options &options);
void measure_fairness(const Options &options);
void measure_channels(const Options &options);
