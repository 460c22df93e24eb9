/* The sound table with the most runs that are known: a chain of 16 partitions, made by hand and not by calls. */
#ifndef MOST_RUNS_H
#define MOST_RUNS_H

#include "kernel.h"

enum { MOST_RUNS = 324 };

void make_most_runs(second_table *t);

#endif
