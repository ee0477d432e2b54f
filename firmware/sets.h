/* Boards' flash, as their makers would write it. */
#ifndef SETS_H
#define SETS_H

#include "device.h"

#ifdef __cplusplus
extern "C" {
#endif

/* The bench set S of document 01: one interrupt endpoint, no strings, no serial block. */
extern const hk_board bench_board;

/* A titrator: two interfaces with alternate settings, a serial port, strings in two languages and a serial number. */
extern const hk_board titrator_board;

/* The second titrator of a double instrument: the same set, and a serial number of its own. */
extern const hk_board second_titrator_board;

/* The same titrator with a high-speed peripheral: a set for each speed. */
extern const hk_board titrator_pair_board;

#ifdef __cplusplus
}
#endif

#endif
