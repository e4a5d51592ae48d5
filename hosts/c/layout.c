/* Prints the place of every field, as hosts/layout.txt has it: type, field, offset, bytes; and the size of each type. */
#include "disklorva.h"

#include <stdio.h>

#define FIELD(type, field) printf("%s " #field " %zu %zu\n", name, offsetof(type, field), sizeof(((type *)0)->field))

static void settings(const char *name) {
    FIELD(disklorva_settings, mode);
    FIELD(disklorva_settings, kind);
    FIELD(disklorva_settings, clamp);
    FIELD(disklorva_settings, rearm);
    FIELD(disklorva_settings, dim);
    FIELD(disklorva_settings, pos_dim);
    FIELD(disklorva_settings, k);
    FIELD(disklorva_settings, clear_ticks);
    FIELD(disklorva_settings, clamp_streak_to_brake);
    FIELD(disklorva_settings, stop_confirm_ticks);
    FIELD(disklorva_settings, watchdog_ticks);
    FIELD(disklorva_settings, max_rearms);
    FIELD(disklorva_settings, horizon);
    FIELD(disklorva_settings, exec);
    FIELD(disklorva_settings, max_clamps_per_episode);
    FIELD(disklorva_settings, brake_timeout_ticks);
    FIELD(disklorva_settings, rearm_hold);
    FIELD(disklorva_settings, escalate_after_hold_ticks);
    FIELD(disklorva_settings, handoff_timeout_ticks);
    FIELD(disklorva_settings, tier0_enabled);
    FIELD(disklorva_settings, calib_mask);
    FIELD(disklorva_settings, window_mask);
    FIELD(disklorva_settings, dt);
    FIELD(disklorva_settings, inv_dt);
    FIELD(disklorva_settings, a_max);
    FIELD(disklorva_settings, v_stop_eps);
    FIELD(disklorva_settings, warn_margin);
    FIELD(disklorva_settings, tau);
    FIELD(disklorva_settings, box_lo);
    FIELD(disklorva_settings, box_hi);
    printf("%s size %zu\n", name, sizeof(disklorva_settings));
}

static void chunk(const char *name) {
    FIELD(disklorva_chunk, seq);
    FIELD(disklorva_chunk, t_emit);
    FIELD(disklorva_chunk, horizon);
    FIELD(disklorva_chunk, dim);
    FIELD(disklorva_chunk, exec_steps);
    printf("%s size %zu\n", name, sizeof(disklorva_chunk));
}

static void ack(const char *name) {
    FIELD(disklorva_ack, nonce);
    FIELD(disklorva_ack, handoff_seq);
    FIELD(disklorva_ack, decision);
    FIELD(disklorva_ack, operator_slot);
    printf("%s size %zu\n", name, sizeof(disklorva_ack));
}

static void input(const char *name) {
    FIELD(disklorva_input, t);
    FIELD(disklorva_input, idx);
    FIELD(disklorva_input, missed_ticks);
    FIELD(disklorva_input, schema_fault);
    FIELD(disklorva_input, has_vel);
    FIELD(disklorva_input, has_chunk);
    FIELD(disklorva_input, has_ack);
    FIELD(disklorva_input, chunk);
    FIELD(disklorva_input, ack);
    printf("%s size %zu\n", name, sizeof(disklorva_input));
}

static void outcome(const char *name) {
    FIELD(disklorva_outcome, trips);
    FIELD(disklorva_outcome, clamped_dims);
    FIELD(disklorva_outcome, feasible);
    FIELD(disklorva_outcome, margin);
    FIELD(disklorva_outcome, s);
    FIELD(disklorva_outcome, valid);
    FIELD(disklorva_outcome, fired);
    FIELD(disklorva_outcome, z);
    FIELD(disklorva_outcome, policy);
    FIELD(disklorva_outcome, clamped);
    printf("%s size %zu\n", name, sizeof(disklorva_outcome));
}

static void control(const char *name) {
    FIELD(disklorva_control, window);
    FIELD(disklorva_control, last_nonce);
    FIELD(disklorva_control, hold);
    FIELD(disklorva_control, state);
    FIELD(disklorva_control, clean_run);
    FIELD(disklorva_control, clamp_streak);
    FIELD(disklorva_control, clamps);
    FIELD(disklorva_control, brake_ticks);
    FIELD(disklorva_control, stopped_ticks);
    FIELD(disklorva_control, held_ticks);
    FIELD(disklorva_control, held_clean);
    FIELD(disklorva_control, escalated_ticks);
    FIELD(disklorva_control, rearms);
    FIELD(disklorva_control, handoff_seq);
    FIELD(disklorva_control, handoff_pending);
    printf("%s size %zu\n", name, sizeof(disklorva_control));
}

static void motion(const char *name) {
    FIELD(disklorva_motion, pos);
    FIELD(disklorva_motion, prev_pos);
    FIELD(disklorva_motion, vel);
    FIELD(disklorva_motion, last_cmd);
    FIELD(disklorva_motion, have_prev_pos);
    printf("%s size %zu\n", name, sizeof(disklorva_motion));
}

static void clock(const char *name) {
    FIELD(disklorva_clock, filled);
    FIELD(disklorva_clock, seq);
    FIELD(disklorva_clock, last_t);
    FIELD(disklorva_clock, next_chunk_seq);
    FIELD(disklorva_clock, chunk_ok_this_tick);
    printf("%s size %zu\n", name, sizeof(disklorva_clock));
}

static void mark(const char *name) {
    FIELD(disklorva_mark, set);
    FIELD(disklorva_mark, at);
    printf("%s size %zu\n", name, sizeof(disklorva_mark));
}

static void reason_mark(const char *name) {
    FIELD(disklorva_reason_mark, set);
    FIELD(disklorva_reason_mark, reason);
    printf("%s size %zu\n", name, sizeof(disklorva_reason_mark));
}

static void tally(const char *name) {
    FIELD(disklorva_tally, ticks);
    FIELD(disklorva_tally, nominal);
    FIELD(disklorva_tally, watching);
    FIELD(disklorva_tally, clamped);
    FIELD(disklorva_tally, braking);
    FIELD(disklorva_tally, held);
    FIELD(disklorva_tally, escalated);
    FIELD(disklorva_tally, fault);
    FIELD(disklorva_tally, terminated);
    FIELD(disklorva_tally, substituted);
    FIELD(disklorva_tally, chunks_seen);
    FIELD(disklorva_tally, chunks_rejected);
    FIELD(disklorva_tally, clamps);
    FIELD(disklorva_tally, holds);
    FIELD(disklorva_tally, rearms);
    FIELD(disklorva_tally, escalations);
    FIELD(disklorva_tally, trips_by_bit);
    FIELD(disklorva_tally, fired_by_feat);
    FIELD(disklorva_tally, first_trip_tick);
    FIELD(disklorva_tally, first_trip_reason);
    FIELD(disklorva_tally, first_stop_tick);
    FIELD(disklorva_tally, handoff_tick);
    FIELD(disklorva_tally, violations_reached_env);
    FIELD(disklorva_tally, max_s);
    FIELD(disklorva_tally, max_z);
    FIELD(disklorva_tally, terminal_state);
    FIELD(disklorva_tally, stop_actions);
    printf("%s size %zu\n", name, sizeof(disklorva_tally));
}

static void run_state(const char *name) {
    FIELD(disklorva_run_state, control);
    FIELD(disklorva_run_state, motion);
    FIELD(disklorva_run_state, clock);
    FIELD(disklorva_run_state, tally);
    printf("%s size %zu\n", name, sizeof(disklorva_run_state));
}

static void verdict(const char *name) {
    FIELD(disklorva_verdict, seq);
    FIELD(disklorva_verdict, t);
    FIELD(disklorva_verdict, status);
    FIELD(disklorva_verdict, state);
    FIELD(disklorva_verdict, prev_state);
    FIELD(disklorva_verdict, trips);
    FIELD(disklorva_verdict, action);
    FIELD(disklorva_verdict, action_dim);
    FIELD(disklorva_verdict, action_src);
    FIELD(disklorva_verdict, substituted);
    FIELD(disklorva_verdict, clamped_dims);
    FIELD(disklorva_verdict, z);
    FIELD(disklorva_verdict, s);
    FIELD(disklorva_verdict, valid);
    FIELD(disklorva_verdict, fired);
    FIELD(disklorva_verdict, tau);
    FIELD(disklorva_verdict, window);
    FIELD(disklorva_verdict, window_hits);
    FIELD(disklorva_verdict, brake_margin);
    FIELD(disklorva_verdict, reason);
    FIELD(disklorva_verdict, handoff_set);
    FIELD(disklorva_verdict, handoff_seq);
    FIELD(disklorva_verdict, ack_consumed);
    FIELD(disklorva_verdict, violation_reached_env);
    printf("%s size %zu\n", name, sizeof(disklorva_verdict));
}

static void answer(const char *name) {
    FIELD(disklorva_answer, number);
    FIELD(disklorva_answer, verdict);
    printf("%s size %zu\n", name, sizeof(disklorva_answer));
}

int main(void) {
    settings("Settings");
    chunk("Chunk");
    ack("Ack");
    input("Input");
    outcome("Outcome");
    control("Control");
    motion("Motion");
    clock("Clock");
    mark("Mark");
    reason_mark("ReasonMark");
    tally("Tally");
    run_state("RunState");
    verdict("Verdict");
    answer("Answer");
    return 0;
}
