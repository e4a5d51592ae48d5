/* A journal's records, for the example host: the reader of the bytes, and the causes by which a record is refused. */
#ifndef JOURNAL_H
#define JOURNAL_H

#include "disklorva.h"

#include <stdio.h>

enum { CHUNK, POS, VEL, AUX, EXT, LISTS, ROOM = 512 };

/* What was collected for the next tick, and the host's own parts: one settings record and the run state that is lent. */
typedef struct {
    disklorva_settings settings;
    disklorva_run_state rt;
    int has_settings;
    int width_late; /* a width, a reset or a tick came: no width may come any more */
    disklorva_input input;
    disklorva_outcome outcome;
    int has_outcome;
    double list[LISTS][ROOM];
    size_t count[LISTS];
    FILE *record;      /* where the calls are recorded, or NULL */
    int record_failed; /* a record was not written */
} host;

/* All bytes of a file, or NULL where there is no memory; the caller frees them. */
uint8_t *journal_bytes(FILE *in, size_t *n);

/* Takes the record that starts at bytes, of which n are left. Gives 0, or the number of a refusal; *used is the record's length, *ticked says whether
 * *verdict was made. */
int host_record(host *h, const uint8_t *bytes, size_t n, size_t *used, int *ticked, disklorva_verdict *verdict);

#endif
