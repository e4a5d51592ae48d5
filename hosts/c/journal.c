#include "journal.h"
#include "recorder.h"

#include <float.h>
#include <stdlib.h>
#include <string.h>

uint8_t *journal_bytes(FILE *in, size_t *n) {
    size_t room = 1 << 16;
    uint8_t *bytes = malloc(room);
    *n = 0;
    while (bytes) {
        *n += fread(bytes + *n, 1, room - *n, in);
        if (*n < room) {
            return bytes;
        }
        room *= 2;
        uint8_t *more = realloc(bytes, room);
        if (!more) {
            free(bytes);
        }
        bytes = more;
    }
    return NULL;
}

/* ---- little-endian numbers */

static uint64_t number(const uint8_t **p, int bytes) {
    uint64_t x = 0;
    for (int i = 0; i < bytes; i++) {
        x |= (uint64_t)(*p)[i] << (8 * i);
    }
    *p += bytes;
    return x;
}

static uint8_t u8(const uint8_t **p) { return (uint8_t)number(p, 1); }
static uint16_t u16(const uint8_t **p) { return (uint16_t)number(p, 2); }
static uint32_t u32(const uint8_t **p) { return (uint32_t)number(p, 4); }
static uint64_t u64(const uint8_t **p) { return number(p, 8); }

static double f64(const uint8_t **p) {
    uint64_t bits = number(p, 8);
    double x;
    memcpy(&x, &bits, sizeof x);
    return x;
}

static void f64s(const uint8_t **p, double *to, int n) {
    for (int i = 0; i < n; i++) {
        to[i] = f64(p);
    }
}

/* ---- records, field by field */

static disklorva_settings settings(const uint8_t *p) {
    disklorva_settings s;
    s.mode = u8(&p);
    s.kind = u8(&p);
    s.clamp = u8(&p);
    s.rearm = u8(&p);
    s.dim = u8(&p);
    s.pos_dim = u8(&p);
    s.k = u8(&p);
    s.clear_ticks = u8(&p);
    s.clamp_streak_to_brake = u8(&p);
    s.stop_confirm_ticks = u8(&p);
    s.watchdog_ticks = u8(&p);
    s.max_rearms = u8(&p);
    s.horizon = u16(&p);
    s.exec = u16(&p);
    s.max_clamps_per_episode = u16(&p);
    s.brake_timeout_ticks = u16(&p);
    s.rearm_hold = u16(&p);
    s.escalate_after_hold_ticks = u16(&p);
    s.handoff_timeout_ticks = u32(&p);
    s.tier0_enabled = u32(&p);
    s.calib_mask = u32(&p);
    s.window_mask = u64(&p);
    s.dt = f64(&p);
    s.inv_dt = f64(&p);
    s.a_max = f64(&p);
    s.v_stop_eps = f64(&p);
    s.warn_margin = f64(&p);
    s.tau = f64(&p);
    f64s(&p, s.box_lo, 8);
    f64s(&p, s.box_hi, 8);
    return s;
}

static disklorva_outcome outcome(const uint8_t *p) {
    disklorva_outcome o;
    o.trips = u32(&p);
    o.clamped_dims = u32(&p);
    o.feasible = u8(&p);
    o.margin = f64(&p);
    o.s = f64(&p);
    o.valid = u32(&p);
    o.fired = u32(&p);
    f64s(&p, o.z, 12);
    f64s(&p, o.policy, 8);
    f64s(&p, o.clamped, 8);
    return o;
}

static disklorva_ack ack(const uint8_t *p) {
    disklorva_ack a;
    a.decision = u8(&p);
    a.operator_slot = u8(&p);
    a.nonce = u64(&p);
    a.handoff_seq = u32(&p);
    return a;
}

static disklorva_chunk chunk(const uint8_t *p) {
    disklorva_chunk c;
    c.seq = u32(&p);
    c.t_emit = u32(&p);
    c.horizon = u16(&p);
    c.dim = u16(&p);
    c.exec_steps = u16(&p);
    return c;
}

/* ---- what a record does */

static void empty(host *h) {
    memset(&h->input, 0, sizeof h->input);
    memset(h->count, 0, sizeof h->count);
    h->has_outcome = 0;
}

static disklorva_answer tick(host *h) {
    return disklorva_tick(&h->rt, &h->settings, &h->input, &h->outcome, h->list[POS], h->count[POS], h->list[VEL], h->count[VEL], h->list[AUX],
                          h->count[AUX], h->list[EXT], h->count[EXT], h->list[CHUNK], h->count[CHUNK]);
}

/* The same call for the record, with the same arguments. */
static int recorded_tick(const host *h) {
    return record_tick(h->record, &h->input, &h->outcome, h->list[POS], h->count[POS], h->list[VEL], h->count[VEL], h->list[AUX], h->count[AUX],
                       h->list[EXT], h->count[EXT], h->list[CHUNK], h->count[CHUNK]);
}

static void note(host *h, int failed) { h->record_failed |= failed; }

/* The library tells whether it takes the settings: a tick of a run state that is thrown away. The answer's number depends on the settings alone. */
static int take_settings(host *h, const uint8_t *body) {
    h->settings = settings(body);
    h->rt = disklorva_new();
    empty(h);
    memset(&h->outcome, 0, sizeof h->outcome);
    int refused = tick(h).number;
    h->rt = disklorva_new();
    h->has_settings = refused == 0;
    if (h->record && h->has_settings) {
        note(h, record_settings(h->record, &h->settings));
    }
    return refused;
}

static int take_value(host *h, const uint8_t *body) {
    static const size_t room[LISTS] = {ROOM, 16, 16, 16, 16};
    int list = body[0];
    if (list >= LISTS) {
        return 1;
    }
    if (h->count[list] == room[list]) {
        return 7;
    }
    const uint8_t *p = body + 1;
    h->list[list][h->count[list]++] = f64(&p);
    return 0;
}

static int take_tick(host *h, const uint8_t *p, int *ticked, disklorva_verdict *verdict) {
    if (p[7] > 1 || p[8] > 1) {
        return 1;
    }
    if (!h->has_outcome || (h->count[CHUNK] > 0 && !h->input.has_chunk) || (h->count[VEL] > 0 && !p[8])) {
        return 10;
    }
    h->input.t = u32(&p);
    h->input.idx = u16(&p);
    h->input.missed_ticks = u8(&p);
    h->input.schema_fault = u8(&p);
    h->input.has_vel = u8(&p);
    if (h->record) {
        note(h, recorded_tick(h));
    }
    disklorva_answer a = tick(h);
    *verdict = a.verdict;
    *ticked = a.number == 0;
    empty(h);
    return a.number;
}

/* A width is for the program `proximity`: it is checked, recorded and not used. */
static int take_width(host *h, const uint8_t *p) {
    double w = f64(&p);
    if (!(w >= 0 && w <= DBL_MAX)) {
        return 3;
    }
    h->width_late = 1;
    if (h->record) {
        note(h, record_width(h->record, w));
    }
    return 0;
}

static int take(host *h, int kind, const uint8_t *body, int *ticked, disklorva_verdict *verdict) {
    switch (kind) {
    case 1:
        return take_settings(h, body);
    case 2:
        if (h->record) {
            note(h, record_reset(h->record));
        }
        disklorva_reset(&h->rt);
        empty(h);
        h->width_late = 1;
        return 0;
    case 3:
        h->input.ack = ack(body);
        h->input.has_ack = body[0] <= 2;
        return body[0] > 2 ? 1 : 0;
    case 4:
        h->input.chunk = chunk(body);
        h->input.has_chunk = 1;
        return 0;
    case 5:
        return take_value(h, body);
    case 6:
        h->outcome = outcome(body);
        h->has_outcome = body[8] <= 1;
        return body[8] > 1 ? 1 : 0;
    case 8:
        return take_width(h, body);
    default:
        h->width_late = 1;
        return take_tick(h, body, ticked, verdict);
    }
}

static int again(const host *h, int kind) {
    return (kind == 1 && h->has_settings) || (kind == 3 && h->input.has_ack) || (kind == 4 && h->input.has_chunk) || (kind == 6 && h->has_outcome) ||
           (kind == 8 && h->width_late);
}

int host_record(host *h, const uint8_t *bytes, size_t n, size_t *used, int *ticked, disklorva_verdict *verdict) {
    static const size_t body[] = {0, 220, 0, 14, 14, 9, 257, 9, 8};
    int kind = bytes[0];
    *ticked = 0;
    *used = 0;
    if (kind < 1 || kind > 8) {
        return 5;
    }
    if (n - 1 < body[kind]) {
        return 6;
    }
    if (kind != 1 && !h->has_settings) {
        return 8;
    }
    if (again(h, kind)) {
        return 9;
    }
    *used = 1 + body[kind];
    return take(h, kind, bytes + 1, ticked, verdict);
}
