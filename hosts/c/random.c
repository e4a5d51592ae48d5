/* A host for the test of the recorder: calls the fuse with whatever comes, and records its calls.
 *
 *     random SEED TICKS RECORD
 *
 * Prints the lines of `fuse` without the margin.
 * Settings are random and accepted; most ticks are clean, and any field may be wrong.
 * There are flags of any number, lists too long for a journal and values that are not finite.
 * hosts/rust/examples/random.rs makes the same calls. */
#include "recorder.h"

#include <inttypes.h>
#include <math.h>
#include <stdlib.h>
#include <string.h>

static uint64_t state;

static uint64_t any(void) {
    state ^= state << 13;
    state ^= state >> 7;
    state ^= state << 17;
    return state;
}

static uint64_t below(uint64_t n) { return (any() >> 11) % n; }

static int one_in(uint64_t n) { return below(n) == 0; }

static double value(void) {
    static const double odd[] = {NAN, INFINITY, -INFINITY, 0, -0.0, 1e300};
    return one_in(400) ? odd[below(6)] : ((double)below(4001) - 2000) / 1000;
}

static uint8_t flag(uint8_t usual) { return one_in(300) ? (uint8_t)any() : usual; }

enum { ROOM = 600 };

typedef struct {
    double x[ROOM];
    size_t n;
} list;

static void fill(list *l, size_t n) {
    l->n = one_in(100) ? n + 1 + below(20) : one_in(150) ? below(ROOM) : one_in(150) ? below(20) : n;
    for (size_t i = 0; i < l->n; i++) {
        l->x[i] = value();
    }
}

static disklorva_settings settings(void) {
    disklorva_settings s;
    memset(&s, 0, sizeof s);
    s.mode = one_in(4) ? 0 : 1;
    s.kind = (uint8_t)below(5);
    s.clamp = one_in(4) ? 0 : 1;
    s.rearm = (uint8_t)below(2);
    s.dim = (uint8_t)(one_in(3) ? 8 : 1 + below(8));
    s.pos_dim = (uint8_t)(1 + below(8));
    s.k = (uint8_t)(1 + below(4));
    s.clear_ticks = (uint8_t)below(4);
    s.clamp_streak_to_brake = (uint8_t)(1 + below(4));
    s.stop_confirm_ticks = (uint8_t)below(3);
    s.watchdog_ticks = (uint8_t)below(3);
    s.max_rearms = (uint8_t)below(4);
    s.horizon = (uint16_t)(one_in(3) ? 64 : 1 + below(64));
    s.exec = s.horizon;
    s.max_clamps_per_episode = (uint16_t)below(20);
    s.brake_timeout_ticks = (uint16_t)(1 + below(6));
    s.rearm_hold = (uint16_t)below(4);
    s.escalate_after_hold_ticks = (uint16_t)below(6);
    s.handoff_timeout_ticks = (uint32_t)below(8);
    s.tier0_enabled = 0xffff;
    s.calib_mask = (uint32_t)any();
    s.window_mask = 31;
    s.dt = 0.05;
    s.inv_dt = 20;
    s.a_max = 1;
    s.v_stop_eps = one_in(2) ? 100 : 0.01;
    s.warn_margin = 0.5;
    s.tau = 1.8;
    for (int i = 0; i < 8; i++) {
        s.box_lo[i] = -1;
        s.box_hi[i] = 1;
    }
    return s;
}

static disklorva_outcome outcome(void) {
    disklorva_outcome o;
    memset(&o, 0, sizeof o);
    o.trips = one_in(12) ? (uint32_t)1 << below(10) : 0;
    o.clamped_dims = (uint32_t)any();
    o.feasible = one_in(30) ? (uint8_t)any() : 1;
    o.margin = value();
    o.s = value();
    o.valid = (uint32_t)any();
    o.fired = (uint32_t)any();
    for (int i = 0; i < 12; i++) {
        o.z[i] = value();
    }
    for (int i = 0; i < 8; i++) {
        o.policy[i] = value();
    }
    for (int i = 0; i < 8; i++) {
        o.clamped[i] = value();
    }
    return o;
}

int main(int argc, char **argv) {
    static list pos, vel, aux, ext, chunk;
    if (argc != 4) {
        fprintf(stderr, "random SEED TICKS RECORD\n");
        return 2;
    }
    state = 0x9e3779b97f4a7c15u ^ strtoull(argv[1], NULL, 10);
    FILE *record = fopen(argv[3], "wb");
    if (!record) {
        perror(argv[3]);
        return 2;
    }
    for (int i = 0; i < 20; i++) {
        any();
    }
    disklorva_settings s = settings();
    disklorva_run_state rt = disklorva_new();
    int failed = record_settings(record, &s);
    uint32_t emitted = 0;
    for (long left = strtol(argv[2], NULL, 10); left > 0; left--) {
        if (one_in(25) || rt.control.state == 0 || (rt.control.state >= 7 && one_in(3))) {
            failed |= record_reset(record);
            disklorva_reset(&rt);
        }
        disklorva_input in;
        memset(&in, 0, sizeof in);
        in.missed_ticks = one_in(60) ? (uint8_t)below(5) : 0;
        in.t = rt.clock.seq == 0 ? 0 : rt.clock.last_t + 1 + in.missed_ticks;
        in.t = one_in(300) ? (uint32_t)any() : in.t;
        in.schema_fault = flag(0);
        in.has_vel = flag((uint8_t)below(2));
        in.has_chunk = flag(rt.clock.filled == 0 || in.t - emitted >= s.horizon || one_in(6));
        emitted = in.has_chunk ? in.t : emitted;
        in.idx = (uint16_t)(in.t - emitted);
        in.chunk.seq = rt.clock.next_chunk_seq + (uint32_t)one_in(200);
        in.chunk.t_emit = emitted;
        in.chunk.horizon = s.horizon;
        in.chunk.dim = (uint16_t)(s.dim + one_in(200));
        in.chunk.exec_steps = s.exec;
        in.has_ack = flag((uint8_t)one_in(4));
        in.ack.decision = (uint8_t)below(one_in(20) ? 5 : 3);
        in.ack.operator_slot = (uint8_t)below(9);
        in.ack.nonce = left % 2 ? below(20) : rt.control.last_nonce[in.ack.operator_slot % 8] + 1;
        in.ack.handoff_seq = rt.control.handoff_seq + (uint32_t)one_in(10);
        disklorva_outcome o = outcome();
        fill(&pos, s.pos_dim);
        fill(&vel, s.pos_dim);
        fill(&aux, below(9));
        fill(&ext, below(5));
        fill(&chunk, (size_t)s.horizon * s.dim);
        failed |= record_tick(record, &in, &o, pos.x, pos.n, vel.x, vel.n, aux.x, aux.n, ext.x, ext.n, chunk.x, chunk.n);
        disklorva_answer a = disklorva_tick(&rt, &s, &in, &o, pos.x, pos.n, vel.x, vel.n, aux.x, aux.n, ext.x, ext.n, chunk.x, chunk.n);
        if (a.number) {
            fprintf(stderr, "settings refused, number %d\n", a.number);
            return 1;
        }
        const disklorva_verdict *v = &a.verdict;
        printf("tick %" PRIu32 " %" PRIu32 " %d %d %" PRIu32 " %d\n", v->seq, v->t, v->state, v->reason, v->trips, v->action_src);
    }
    failed |= fclose(record) != 0;
    if (failed || fflush(stdout)) {
        fprintf(stderr, "writing failed\n");
        return 2;
    }
    return 0;
}
