/* For a service office: an episode that comes cut in two, counted in two stretches, and the two tallies joined. And a test of joining.
 *
 *     join FIRST SECOND
 *     join [--wrong HOW] JOURNAL
 *
 * FIRST is a journal that ends after some tick, and SECOND has the records that come next, without settings and without a reset. The first is run to its
 * end and its tally taken; then the second goes on with the same run state, under the same settings, with an empty tally.
 * Prints the joined tally, in the lines that the host has in its trace (host.c), and stop_actions, which a trace does not have. The exit status is 1 where a record is refused.
 *
 * With one JOURNAL each of its episodes is run whole, and then once for every place at which it can be cut: before its first tick, after each, and after
 * its last. The joined tally has to be that of the whole run in every field, and the verdicts after the cut have to be those of the whole run.
 * Prints the first differences, and how many episodes, ticks, cuts and differences there were. The exit status is 0 only where nothing differs.
 * HOW is a mistake, to see that it is told: swapped, earlier, later, full, reset, or a field of the tally. */
#include "journal.h"

#include <inttypes.h>
#include <stdio.h>
#include <stdlib.h>
#include <string.h>

/* ---- the fields that are compared */

typedef enum { U8, U16, U32, U64, F64, MARK, REASON } type;

typedef struct {
    const char *name;
    size_t at;
    type type;
    size_t n;
} field;

#define TALLY(type, name, n) {#name, offsetof(disklorva_tally, name), type, n}
#define VERDICT(type, name, n) {#name, offsetof(disklorva_verdict, name), type, n}

static const field tally_fields[] = {
    TALLY(U32, ticks, 1),
    TALLY(U32, nominal, 1),
    TALLY(U32, watching, 1),
    TALLY(U32, clamped, 1),
    TALLY(U32, braking, 1),
    TALLY(U32, held, 1),
    TALLY(U32, escalated, 1),
    TALLY(U32, fault, 1),
    TALLY(U32, terminated, 1),
    TALLY(U32, substituted, 1),
    TALLY(U32, chunks_seen, 1),
    TALLY(U32, chunks_rejected, 1),
    TALLY(U32, clamps, 1),
    TALLY(U32, holds, 1),
    TALLY(U32, rearms, 1),
    TALLY(U32, escalations, 1),
    TALLY(U32, trips_by_bit, 16),
    TALLY(U32, fired_by_feat, 12),
    TALLY(MARK, first_trip_tick, 1),
    TALLY(REASON, first_trip_reason, 1),
    TALLY(MARK, first_stop_tick, 1),
    TALLY(MARK, handoff_tick, 1),
    TALLY(U32, violations_reached_env, 1),
    TALLY(F64, max_s, 1),
    TALLY(F64, max_z, 12),
    TALLY(U8, terminal_state, 1),
    TALLY(U32, stop_actions, 1),
};

static const field verdict_fields[] = {
    VERDICT(U32, seq, 1),
    VERDICT(U32, t, 1),
    VERDICT(U8, status, 1),
    VERDICT(U8, state, 1),
    VERDICT(U8, prev_state, 1),
    VERDICT(U32, trips, 1),
    VERDICT(F64, action, 8),
    VERDICT(U16, action_dim, 1),
    VERDICT(U8, action_src, 1),
    VERDICT(U8, substituted, 1),
    VERDICT(U32, clamped_dims, 1),
    VERDICT(F64, z, 12),
    VERDICT(F64, s, 1),
    VERDICT(U32, valid, 1),
    VERDICT(U32, fired, 1),
    VERDICT(F64, tau, 1),
    VERDICT(U64, window, 1),
    VERDICT(U8, window_hits, 1),
    VERDICT(F64, brake_margin, 1),
    VERDICT(U8, reason, 1),
    VERDICT(U8, handoff_set, 1),
    VERDICT(U32, handoff_seq, 1),
    VERDICT(U8, ack_consumed, 1),
    VERDICT(U8, violation_reached_env, 1),
};

#define COUNT(fields) (sizeof(fields) / sizeof *(fields))

static int same_float(const char *a, const char *b) {
    double x, y;
    memcpy(&x, a, sizeof x);
    memcpy(&y, b, sizeof y);
    return memcmp(&x, &y, sizeof x) == 0 || (x != x && y != y); /* which pattern a NaN has is not promised */
}

static int same_mark(const char *a, const char *b) {
    disklorva_mark x, y;
    memcpy(&x, a, sizeof x);
    memcpy(&y, b, sizeof y);
    return x.set == y.set && x.at == y.at;
}

static size_t size_of(type t) {
    static const size_t bytes[] = {1, 2, 4, 8, sizeof(double), sizeof(disklorva_mark), sizeof(disklorva_reason_mark)};
    return bytes[t];
}

static int same(const field *f, const void *a, const void *b) {
    for (size_t i = 0; i < f->n; i++) {
        size_t at = f->at + i * size_of(f->type);
        const char *x = (const char *)a + at, *y = (const char *)b + at;
        int equal = f->type == F64 ? same_float(x, y) : f->type == MARK ? same_mark(x, y) : memcmp(x, y, size_of(f->type)) == 0;
        if (!equal) {
            return 0;
        }
    }
    return 1;
}

static uint8_t *file_bytes(const char *name, size_t *n) {
    FILE *in = name ? fopen(name, "rb") : stdin;
    uint8_t *bytes = in ? journal_bytes(in, n) : NULL;
    if (!bytes || ferror(in)) {
        perror(name ? name : "standard input");
        exit(2);
    }
    if (name) {
        fclose(in);
    }
    return bytes;
}

/* ---- two files */

static void print_float(double x) {
    uint64_t bits;
    memcpy(&bits, &x, sizeof bits);
    if (x != x) {
        printf("nan");
    } else {
        printf("%016" PRIx64, bits);
    }
}

static void print_mark(int set, uint32_t x) {
    if (set) {
        printf("%" PRIu32, x);
    } else {
        printf("none");
    }
}

static void print_value(type t, const void *at) {
    if (t == F64) {
        print_float(*(const double *)at);
    } else if (t == MARK) {
        const disklorva_mark *m = at;
        print_mark(m->set, m->at);
    } else if (t == REASON) {
        const disklorva_reason_mark *m = at;
        print_mark(m->set, m->reason);
    } else if (t == U32) {
        printf("%" PRIu32, *(const uint32_t *)at);
    } else {
        printf("%d", *(const uint8_t *)at); /* the tally has no other type */
    }
}

static void print_tally(const disklorva_tally *t) {
    for (size_t i = 0; i < COUNT(tally_fields); i++) {
        const field *f = &tally_fields[i];
        printf("tally.%s", f->name);
        for (size_t j = 0; j < f->n; j++) {
            printf(j ? "," : "=");
            print_value(f->type, (const char *)t + f->at + j * size_of(f->type));
        }
        printf("\n");
    }
}

/* All records of a file. Gives 1 where one is refused, or begins an episode where none may begin. */
static int run_file(host *h, const char *name, int goes_on) {
    size_t n, used;
    uint8_t *bytes = file_bytes(name, &n);
    int refused = 0, ticked;
    disklorva_verdict v;
    for (size_t at = 0; at < n && !refused; at += used) {
        if (goes_on && (bytes[at] == 1 || bytes[at] == 2)) {
            fprintf(stderr, "%s: settings or a reset at byte %zu: what follows is no part of the episode\n", name, at);
            refused = 1;
            break;
        }
        refused = host_record(h, bytes + at, n - at, &used, &ticked, &v);
        if (refused) {
            fprintf(stderr, "%s: refused %d %zu\n", name, refused, at);
        }
    }
    free(bytes);
    return refused != 0;
}

static int two_files(const char *first, const char *second) {
    static host h; /* zero: no settings yet, nothing collected */
    h.rt = disklorva_new();
    if (run_file(&h, first, 0)) {
        return 1;
    }
    disklorva_tally earlier = h.rt.tally;
    h.rt.tally = disklorva_new().tally;
    if (run_file(&h, second, 1)) {
        return 1;
    }
    disklorva_tally whole = disklorva_join(&earlier, &h.rt.tally);
    print_tally(&whole);
    return 0;
}

/* ---- one journal, cut everywhere */

typedef struct {
    const uint8_t *bytes;
    size_t n;
    const char *wrong; /* the mistake, or NULL */
    disklorva_verdict *whole;
    size_t room;
    unsigned long episodes, ticks, cuts, differences;
} comparison;

/* Where an episode was cut: after how many of its ticks. */
typedef struct {
    size_t cut, of;
} place;

static void compare(comparison *it, place p, const char *what, const field *fields, size_t n, const void *a, const void *b) {
    for (size_t i = 0; i < n; i++) {
        if (!same(&fields[i], a, b)) {
            it->differences++;
            if (it->differences <= 5) {
                printf("episode %lu, cut after %zu of %zu ticks: %s%s differs\n", it->episodes, p.cut, p.of, what, fields[i].name);
            }
        }
    }
}

static disklorva_tally damaged(disklorva_tally t, const char *name) {
    for (size_t i = 0; i < COUNT(tally_fields); i++) {
        const field *f = &tally_fields[i];
        if (strcmp(f->name, name) == 0) {
            ((char *)&t)[f->at + (f->n - 1) * size_of(f->type)] ^= 1;
            return t;
        }
    }
    fprintf(stderr, "join: no mistake and no field of the tally is called %s\n", name);
    exit(2);
}

static disklorva_tally joined(const comparison *it, const disklorva_tally *earlier, const disklorva_tally *later) {
    if (!it->wrong || strcmp(it->wrong, "full") == 0 || strcmp(it->wrong, "reset") == 0) {
        return disklorva_join(earlier, later);
    }
    if (strcmp(it->wrong, "swapped") == 0) {
        return disklorva_join(later, earlier);
    }
    if (strcmp(it->wrong, "earlier") == 0) {
        return *earlier;
    }
    if (strcmp(it->wrong, "later") == 0) {
        return *later;
    }
    return damaged(disklorva_join(earlier, later), it->wrong);
}

/* The end of the first stretch: its tally is put aside, and the run state goes on with an empty one. */
static disklorva_tally cut_here(const comparison *it, disklorva_run_state *rt) {
    disklorva_tally earlier = rt->tally;
    if (it->wrong && strcmp(it->wrong, "reset") == 0) {
        disklorva_reset(rt);
    }
    if (!it->wrong || strcmp(it->wrong, "full") != 0) {
        rt->tally = disklorva_new().tally;
    }
    return earlier;
}

/* Makes the next tick of an episode, where there is one before the next reset, the end or a refusal; *at goes on to the byte after it. */
static int next_tick(const comparison *it, host *h, size_t *at, disklorva_verdict *v) {
    while (*at < it->n && it->bytes[*at] != 2) {
        size_t used;
        int ticked;
        if (host_record(h, it->bytes + *at, it->n - *at, &used, &ticked, v)) {
            return 0;
        }
        *at += used;
        if (ticked) {
            return 1;
        }
    }
    return 0;
}

/* The second stretch, from `h` on: its verdicts, and the two tallies joined. */
static void second_stretch(comparison *it, host *h, size_t at, place p, const disklorva_tally *whole) {
    disklorva_tally earlier = cut_here(it, &h->rt);
    disklorva_verdict v;
    for (size_t i = p.cut; next_tick(it, h, &at, &v) && i < p.of; i++) {
        compare(it, p, "verdict.", verdict_fields, COUNT(verdict_fields), &it->whole[i], &v);
    }
    disklorva_tally all = joined(it, &earlier, &h->rt.tally);
    compare(it, p, "tally.", tally_fields, COUNT(tally_fields), whole, &all);
    it->cuts++;
}

/* The episode whole: how many ticks it has, with their verdicts. */
static size_t first_run(comparison *it, host *h, size_t *at) {
    size_t ticks = 0;
    disklorva_verdict v;
    while (next_tick(it, h, at, &v)) {
        if (ticks == it->room) {
            it->room = 2 * it->room + 64;
            it->whole = realloc(it->whole, it->room * sizeof *it->whole);
            if (!it->whole) {
                perror("join");
                exit(2);
            }
        }
        it->whole[ticks++] = v;
    }
    return ticks;
}

/* The episode that begins at `at`, whole and then cut at every place. */
static size_t episode(comparison *it, host *h, size_t at) {
    host cut = *h;
    size_t cut_at = at;
    size_t ticks = first_run(it, h, &at);
    if (ticks > 0) {
        it->episodes++;
        it->ticks += ticks;
        for (size_t done = 0; done <= ticks; done++) {
            host rest = cut;
            disklorva_verdict v;
            second_stretch(it, &rest, cut_at, (place){done, ticks}, &h->rt.tally);
            next_tick(it, &cut, &cut_at, &v);
        }
    }
    return at;
}

static void run(comparison *it) {
    static host h; /* zero: no settings yet, nothing collected */
    disklorva_verdict v;
    size_t used;
    int ticked;
    for (size_t at = 0; at < it->n;) {
        int begins = it->bytes[at] == 1 || it->bytes[at] == 2; /* settings or a reset */
        if (!begins || host_record(&h, it->bytes + at, it->n - at, &used, &ticked, &v)) {
            return; /* a refusal ends the journal */
        }
        at = episode(it, &h, at + used);
    }
}

static int one_file(comparison *it, const char *name) {
    uint8_t *bytes = file_bytes(name, &it->n);
    it->bytes = bytes;
    run(it);
    free(bytes);
    free(it->whole);
    printf("episodes %lu, ticks %lu, cuts %lu, differences %lu\n", it->episodes, it->ticks, it->cuts, it->differences);
    return it->differences ? 1 : 0;
}

int main(int argc, char **argv) {
    comparison it = {0};
    const char *names[2] = {NULL, NULL};
    int given = 0;
    for (int i = 1; i < argc; i++) {
        if (strcmp(argv[i], "--wrong") == 0 && i + 1 < argc) {
            it.wrong = argv[++i];
        } else if (given < 2) {
            names[given++] = argv[i];
        } else {
            fprintf(stderr, "join: more than two files\n");
            return 2;
        }
    }
    int status = given == 2 ? two_files(names[0], names[1]) : one_file(&it, names[0]);
    if (fflush(stdout) || ferror(stdout)) {
        perror("standard output");
        return 2;
    }
    return status;
}
