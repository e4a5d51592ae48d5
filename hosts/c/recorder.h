/* Writes a host's calls as a journal, which the program `fuse` replays to the same verdicts.
 *
 * The settings come first, once the library has accepted them; then each reset and each tick. A width is no call: it is for the program `proximity`.
 * New settings need a new file, and a file a new run state (disklorva_new): a replay begins with no nonce spent.
 * Each function answers 0, or -1 where writing failed.
 * A file whose writing failed is cut within a record, and all before it is good. */
#ifndef RECORDER_H
#define RECORDER_H

#include "disklorva.h"

#include <stdio.h>

int record_settings(FILE *to, const disklorva_settings *settings);

/* Once at most, after the settings and before the first reset and tick; finite and not below zero. */
int record_width(FILE *to, double w);

int record_reset(FILE *to);

/* Takes what disklorva_tick is given.
 * What the library does not look at is not written, and a flag is written as it is taken.
 * A list that is too long for a journal is cut so that the tick is the same fault. */
int record_tick(FILE *to, const disklorva_input *input, const disklorva_outcome *outcome, const double *pos, size_t pos_n, const double *vel, size_t vel_n,
                const double *aux, size_t aux_n, const double *ext, size_t ext_n, const double *chunk, size_t chunk_n);

#endif
