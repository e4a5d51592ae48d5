/* The smallest host, written from docs/HOST.md and the header alone: ten clean ticks of an arm with two axes. Prints t, state, reason and the action. */
#include "disklorva.h"

#include <math.h>
#include <stdio.h>

enum { DIM = 2, ROWS = 4 };

/* In place of the policy: the row for time t. */
static void row(unsigned t, double *to) {
    to[0] = 0.01 * t;
    to[1] = -0.01 * t;
}

int main(void) {
    disklorva_settings settings = {.mode = 1, .clamp = 1, .dim = DIM, .pos_dim = DIM, .k = 3, .clear_ticks = 5, .clamp_streak_to_brake = 3,
                                   .stop_confirm_ticks = 2, .watchdog_ticks = 2, .max_rearms = 2, .horizon = ROWS, .exec = ROWS,
                                   .max_clamps_per_episode = 60, .brake_timeout_ticks = 30, .rearm_hold = 10, .escalate_after_hold_ticks = 30,
                                   .handoff_timeout_ticks = 200, .tier0_enabled = 127, .window_mask = 31, .dt = 0.05, .inv_dt = 20, .a_max = 1,
                                   .v_stop_eps = 0.01, .warn_margin = 0.5, .tau = 3, .box_lo = {-1, -1}, .box_hi = {1, 1}};
    disklorva_run_state rt = disklorva_new();
    disklorva_reset(&rt);
    for (unsigned t = 0; t < 10; t++) {
        double pos[DIM], chunk[ROWS * DIM], none[1] = {0};
        disklorva_input input = {.t = t, .idx = t % ROWS, .has_chunk = t % ROWS == 0};
        input.chunk = (disklorva_chunk){.seq = t / ROWS, .t_emit = t, .horizon = ROWS, .dim = DIM, .exec_steps = ROWS};
        for (unsigned i = 0; i < ROWS; i++) {
            row(t + i, chunk + i * DIM);
        }
        row(t, pos); /* in place of the sensors */
        disklorva_outcome outcome = {.feasible = 1, .margin = 0.5, .s = -INFINITY}; /* in place of the detectors */
        row(t, outcome.policy);
        row(t, outcome.clamped);
        disklorva_answer answer =
            disklorva_tick(&rt, &settings, &input, &outcome, pos, DIM, none, 0, none, 0, none, 0, chunk, input.has_chunk ? ROWS * DIM : 0);
        if (answer.number != 0) {
            printf("settings refused, number %d\n", answer.number);
            return 1;
        }
        const disklorva_verdict *verdict = &answer.verdict; /* the drives get the first action_dim components of its action */
        printf("%u %d %d %g %g\n", (unsigned)verdict->t, verdict->state, verdict->reason, verdict->action[0], verdict->action[1]);
    }
    return fflush(stdout) || ferror(stdout) ? 2 : 0; /* a full disk is noticed here */
}
