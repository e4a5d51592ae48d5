#include "recorder.h"

#include <string.h>

enum { SETTINGS = 1, RESET, ACK, CHUNK_HEAD, VALUE, OUTCOME, TICK, WIDTH };

/* The most that one call writes: acknowledgement, chunk head, values, outcome and tick. */
enum { MOST = 15 + 15 + (512 + 4 * 16) * 10 + 258 + 10 };

typedef struct {
    size_t n;
    unsigned char bytes[MOST];
} page;

/* ---- little-endian numbers */

static void put(page *p, uint64_t x, int bytes) {
    for (int i = 0; i < bytes; i++) {
        p->bytes[p->n++] = (unsigned char)(x >> (8 * i));
    }
}

static void put_float(page *p, double x) {
    uint64_t bits;
    memcpy(&bits, &x, sizeof bits);
    put(p, bits, 8);
}

static void put_floats(page *p, const double *x, int n) {
    for (int i = 0; i < n; i++) {
        put_float(p, x[i]);
    }
}

static int write_out(FILE *to, const page *p) { return fwrite(p->bytes, 1, p->n, to) == p->n ? 0 : -1; }

/* ---- records */

int record_settings(FILE *to, const disklorva_settings *s) {
    page p = {.n = 0};
    const uint8_t codes[] = {SETTINGS, s->mode, s->kind, s->clamp, s->rearm, s->dim, s->pos_dim, s->k, s->clear_ticks, s->clamp_streak_to_brake,
                             s->stop_confirm_ticks, s->watchdog_ticks, s->max_rearms};
    for (size_t i = 0; i < sizeof codes; i++) {
        put(&p, codes[i], 1);
    }
    const uint16_t limits[] = {s->horizon, s->exec, s->max_clamps_per_episode, s->brake_timeout_ticks, s->rearm_hold, s->escalate_after_hold_ticks};
    for (size_t i = 0; i < sizeof limits / sizeof limits[0]; i++) {
        put(&p, limits[i], 2);
    }
    put(&p, s->handoff_timeout_ticks, 4);
    put(&p, s->tier0_enabled, 4);
    put(&p, s->calib_mask, 4);
    put(&p, s->window_mask, 8);
    const double floats[] = {s->dt, s->inv_dt, s->a_max, s->v_stop_eps, s->warn_margin, s->tau};
    put_floats(&p, floats, 6);
    put_floats(&p, s->box_lo, 8);
    put_floats(&p, s->box_hi, 8);
    return write_out(to, &p);
}

int record_width(FILE *to, double w) {
    page p = {.n = 0};
    put(&p, WIDTH, 1);
    put_float(&p, w);
    return write_out(to, &p);
}

int record_reset(FILE *to) {
    page p = {.n = 0};
    put(&p, RESET, 1);
    return write_out(to, &p);
}

static int finite(double x) { return x - x == 0; }

static void put_value(page *p, int list, double x) {
    put(p, VALUE, 1);
    put(p, (uint64_t)list, 1);
    put_float(p, x);
}

/* A journal has room for 16 values of a list, and for 512 of the chunk.
 * A longer list is a fault by its length, and perhaps by a value that is not finite.
 * So its first values are kept, and one of the others: one that is not finite, if there is any.
 * 511 values are the length of no chunk: a horizon is at most 64 and a dim at most 8. */
static void put_list(page *p, int list, const double *x, size_t n) {
    size_t room = list == 0 ? 512 : 16;
    size_t first = n <= room ? n : list == 0 ? 510 : 15;
    for (size_t i = 0; i < first; i++) {
        put_value(p, list, x[i]);
    }
    if (first < n) {
        size_t one = first;
        while (one + 1 < n && finite(x[one])) {
            one++;
        }
        put_value(p, list, x[one]);
    }
}

static void put_outcome(page *p, const disklorva_outcome *o) {
    put(p, OUTCOME, 1);
    put(p, o->trips, 4);
    put(p, o->clamped_dims, 4);
    put(p, o->feasible == 1, 1);
    put_float(p, o->margin);
    put_float(p, o->s);
    put(p, o->valid, 4);
    put(p, o->fired, 4);
    put_floats(p, o->z, 12);
    put_floats(p, o->policy, 8);
    put_floats(p, o->clamped, 8);
}

int record_tick(FILE *to, const disklorva_input *in, const disklorva_outcome *outcome, const double *pos, size_t pos_n, const double *vel, size_t vel_n,
                const double *aux, size_t aux_n, const double *ext, size_t ext_n, const double *chunk, size_t chunk_n) {
    page p = {.n = 0};
    if (in->has_ack == 1 && in->ack.decision <= 2) {
        put(&p, ACK, 1);
        put(&p, in->ack.decision, 1);
        put(&p, in->ack.operator_slot, 1);
        put(&p, in->ack.nonce, 8);
        put(&p, in->ack.handoff_seq, 4);
    }
    if (in->has_chunk) {
        put(&p, CHUNK_HEAD, 1);
        put(&p, in->chunk.seq, 4);
        put(&p, in->chunk.t_emit, 4);
        put(&p, in->chunk.horizon, 2);
        put(&p, in->chunk.dim, 2);
        put(&p, in->chunk.exec_steps, 2);
        put_list(&p, 0, chunk, chunk_n);
    }
    put_list(&p, 1, pos, pos_n);
    if (in->has_vel) {
        put_list(&p, 2, vel, vel_n);
    }
    put_list(&p, 3, aux, aux_n);
    put_list(&p, 4, ext, ext_n);
    put_outcome(&p, outcome);
    put(&p, TICK, 1);
    put(&p, in->t, 4);
    put(&p, in->idx, 2);
    put(&p, in->missed_ticks, 1);
    put(&p, in->schema_fault != 0, 1);
    put(&p, in->has_vel != 0, 1);
    return write_out(to, &p);
}
