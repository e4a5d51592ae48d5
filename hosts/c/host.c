/* An example host in C: takes the ticks of a journal and prints what the fuse says.
 *
 *     host [--trace] [--record FILE] [JOURNAL]       from standard input where no file is named
 *
 * Prints the lines of the program `fuse`.
 * With --trace, after each tick, every field of the verdict and of the lent run state but the tally's stop_actions, which is in the last line.
 * With --record the calls are written to FILE as a journal (recorder.h).
 * The exit status is 2 where reading, printing or recording failed.
 * A controller has its sensors where this host has a journal; journal.c calls the library. */
#include "journal.h"

#include <inttypes.h>
#include <stdio.h>
#include <stdlib.h>
#include <string.h>

/* ---- lines */

static uint64_t bits(double x) {
    uint64_t b;
    memcpy(&b, &x, sizeof b);
    return b;
}

/* The margin in whole millimetres, an exact half to the even one, worked out in whole numbers. */
static void print_margin(double x) {
    uint64_t b = bits(x), mantissa = b & 0xfffffffffffff;
    int exponent = (int)(b >> 52 & 0x7ff);
    const char *sign = b >> 63 ? "-" : "";
    const char *far = b >> 63 ? "-far" : "+far";
    if (x != x) {
        printf("none");
        return;
    }
    mantissa |= exponent ? (uint64_t)1 << 52 : 0;
    int shift = 1075 - (exponent ? exponent : 1); /* |x| = mantissa / 2^shift */
    uint64_t millimetres = 0;
    if (shift <= 32) { /* from 2^20 metres on, and the infinities */
        printf("%s", far);
        return;
    }
    if (shift < 64) {
        uint64_t n = mantissa * 1000, half = (uint64_t)1 << (shift - 1), rest = n & (2 * half - 1);
        millimetres = n >> shift;
        millimetres += rest > half || (rest == half && millimetres % 2 == 1);
    }
    if (millimetres > 999999) {
        printf("%s", far);
    } else {
        printf("%s%" PRIu64, millimetres ? sign : "", millimetres);
    }
}

static void print_tick(const disklorva_verdict *v) {
    printf("tick %" PRIu32 " %" PRIu32 " %d %d %" PRIu32 " %d ", v->seq, v->t, v->state, v->reason, v->trips, v->action_src);
    print_margin(v->brake_margin);
    printf("\n");
}

static void print_end(const disklorva_tally *t) {
    printf("end %" PRIu32 " %" PRIu32 "\n", t->ticks, t->stop_actions);
}

/* ---- the trace */

static void number(const char *name, uint64_t x) { printf("%s=%" PRIu64 "\n", name, x); }

static void optional(const char *name, int set, uint64_t x) {
    if (set) {
        number(name, x);
    } else {
        printf("%s=none\n", name);
    }
}

static void floats(const char *name, const double *x, int n) {
    printf("%s", name);
    for (int i = 0; i < n; i++) {
        printf(i ? "," : "=");
        if (x[i] != x[i]) {
            printf("nan");
        } else {
            printf("%016" PRIx64, bits(x[i]));
        }
    }
    printf("\n");
}

static void counts(const char *name, const uint32_t *x, int n) {
    printf("%s", name);
    for (int i = 0; i < n; i++) {
        printf("%s%" PRIu32, i ? "," : "=", x[i]);
    }
    printf("\n");
}

static void nonces(const char *name, const uint64_t *x) {
    printf("%s", name);
    for (int i = 0; i < 8; i++) {
        printf("%s%" PRIu64, i ? "," : "=", x[i]);
    }
    printf("\n");
}

static void trace_verdict(const disklorva_verdict *v) {
    number("v.seq", v->seq);
    number("v.t", v->t);
    number("v.status", v->status);
    number("v.state", v->state);
    number("v.prev_state", v->prev_state);
    number("v.trips", v->trips);
    floats("v.action", v->action, 8);
    number("v.action_dim", v->action_dim);
    number("v.action_src", v->action_src);
    number("v.substituted", v->substituted);
    number("v.clamped_dims", v->clamped_dims);
    floats("v.z", v->z, 12);
    floats("v.s", &v->s, 1);
    number("v.valid", v->valid);
    number("v.fired", v->fired);
    floats("v.tau", &v->tau, 1);
    number("v.window", v->window);
    number("v.window_hits", v->window_hits);
    floats("v.brake_margin", &v->brake_margin, 1);
    number("v.reason", v->reason);
    optional("v.handoff_seq", v->handoff_set, v->handoff_seq);
    number("v.ack_consumed", v->ack_consumed);
    number("v.violation_reached_env", v->violation_reached_env);
}

static void trace_run_state(const disklorva_control *c, const disklorva_motion *m, const disklorva_clock *k) {
    number("rt.filled", k->filled);
    number("rt.window", c->window);
    number("rt.state", c->state);
    number("rt.seq", k->seq);
    number("rt.last_t", k->last_t);
    number("rt.next_chunk_seq", k->next_chunk_seq);
    floats("rt.pos", m->pos, 8);
    floats("rt.prev_pos", m->prev_pos, 8);
    floats("rt.vel", m->vel, 8);
    number("rt.have_prev_pos", m->have_prev_pos);
    floats("rt.last_cmd", m->last_cmd, 8);
    floats("rt.hold", c->hold, 8);
    number("rt.clean_run", c->clean_run);
    number("rt.clamp_streak", c->clamp_streak);
    number("rt.clamps", c->clamps);
    number("rt.brake_ticks", c->brake_ticks);
    number("rt.stopped_ticks", c->stopped_ticks);
    number("rt.held_ticks", c->held_ticks);
    number("rt.held_clean", c->held_clean);
    number("rt.escalated_ticks", c->escalated_ticks);
    number("rt.rearms", c->rearms);
    number("rt.handoff_seq", c->handoff_seq);
    number("rt.handoff_pending", c->handoff_pending);
    number("rt.chunk_ok_this_tick", k->chunk_ok_this_tick);
    nonces("rt.last_nonce", c->last_nonce);
}

static void trace_tally(const disklorva_tally *t) {
    number("tally.ticks", t->ticks);
    number("tally.nominal", t->nominal);
    number("tally.watching", t->watching);
    number("tally.clamped", t->clamped);
    number("tally.braking", t->braking);
    number("tally.held", t->held);
    number("tally.escalated", t->escalated);
    number("tally.fault", t->fault);
    number("tally.terminated", t->terminated);
    number("tally.substituted", t->substituted);
    number("tally.chunks_seen", t->chunks_seen);
    number("tally.chunks_rejected", t->chunks_rejected);
    number("tally.clamps", t->clamps);
    number("tally.holds", t->holds);
    number("tally.rearms", t->rearms);
    number("tally.escalations", t->escalations);
    counts("tally.trips_by_bit", t->trips_by_bit, 16);
    counts("tally.fired_by_feat", t->fired_by_feat, 12);
    optional("tally.first_trip_tick", t->first_trip_tick.set, t->first_trip_tick.at);
    optional("tally.first_trip_reason", t->first_trip_reason.set, t->first_trip_reason.reason);
    optional("tally.first_stop_tick", t->first_stop_tick.set, t->first_stop_tick.at);
    optional("tally.handoff_tick", t->handoff_tick.set, t->handoff_tick.at);
    number("tally.violations_reached_env", t->violations_reached_env);
    floats("tally.max_s", &t->max_s, 1);
    floats("tally.max_z", t->max_z, 12);
    number("tally.terminal_state", t->terminal_state);
}

/* ---- the journal */

static void run(host *h, const uint8_t *bytes, size_t n, int trace) {
    for (size_t at = 0, used; at < n; at += used) {
        int ticked;
        disklorva_verdict v;
        int refused = host_record(h, bytes + at, n - at, &used, &ticked, &v);
        if (refused) {
            printf("refused %d %zu\n", refused, at);
            return;
        }
        if (ticked) {
            print_tick(&v);
        }
        if (ticked && trace) {
            trace_verdict(&v);
            trace_run_state(&h->rt.control, &h->rt.motion, &h->rt.clock);
            trace_tally(&h->rt.tally);
        }
    }
    print_end(&h->rt.tally);
}

/* Closes a file that was written; what was still to be written may fail only here. */
static int closed(FILE *file, int failed) {
    failed |= ferror(file);
    return fclose(file) || failed;
}

int main(int argc, char **argv) {
    static host h; /* zero: no settings yet, nothing collected */
    int trace = 0;
    const char *name = NULL, *record = NULL;
    for (int i = 1; i < argc; i++) {
        if (strcmp(argv[i], "--trace") == 0) {
            trace = 1;
        } else if (strcmp(argv[i], "--record") == 0 && i + 1 < argc) {
            record = argv[++i];
        } else {
            name = argv[i];
        }
    }
    FILE *in = name ? fopen(name, "rb") : stdin;
    size_t n;
    uint8_t *bytes = in ? journal_bytes(in, &n) : NULL;
    if (!bytes || ferror(in)) {
        perror(name ? name : "standard input");
        return 2;
    }
    if (name) {
        fclose(in);
    }
    h.record = record ? fopen(record, "wb") : NULL;
    if (record && !h.record) {
        perror(record);
        return 2;
    }
    run(&h, bytes, n, trace);
    free(bytes);
    int failed = 0;
    if (h.record && closed(h.record, h.record_failed)) {
        perror(record);
        failed = 1;
    }
    if (closed(stdout, 0)) {
        perror("standard output");
        failed = 1;
    }
    return failed ? 2 : 0;
}
