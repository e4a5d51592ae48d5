/* The fuse for a host in C. The functions are those of the proved crate host_c: `hosts/library` writes target/staticlib/libhost_c.a,
 * for x86-64 Linux. docs/HOST.md says what a host must do and what it may then rely on; the first of it:
 *
 *   The host fills `outcome` at every tick: the fuse has no detectors. verdict.action is a copy of outcome.policy (Armed, Watching) or of
 *   outcome.clamped (Clamped), and neither row is compared with the box or the chunk, or looked at for a NaN: what the host puts there reaches the
 *   drives. Braking and holding rows are the fuse's own. In mode Observe every clean tick passes outcome.policy, in Fault too.
 *
 * Every pattern of bytes in a struct has a meaning, so a call asks for nothing but memory. Each pointer is aligned for its type, valid and not null:
 *   rt       points to a run state that nothing else reads or writes during the call;
 *   settings, input, outcome, earlier, later
 *            are only read, and nothing writes them during the call. The same memory may serve many calls;
 *   lists    a pointer to n doubles that are only read, and that nothing writes during the call. It is not null, also where n is 0. Lists may overlap.
 * What is only read may be anywhere, but not in a run state that the same call is lent.
 * No function keeps a pointer, allocates, writes elsewhere, blocks or fails; each returns on every input. Two run states may be used by two threads.
 *
 * A flag is 0 for no and 1 for yes. Any other number is taken as the safe choice: feasible and has_ack are then no, every other flag is yes.
 * "unit" is the unit of an axis: metres for a hand, radians for a joint. A running tick starts from Armed, Watching or Clamped. A clamped tick has a soft
 * trip and ends in Clamped. A quiet tick has no trip, no warning, and fewer than k hits in the window. A clean tick is one in which the guard finds nothing
 * (docs/HOST.md, What makes a tick clean); any other is a fault tick. Codes:
 *   mode 0 Observe, 1 Enforce          kind 0 EePosition, 1 EeDelta, 2 JointPosition, 3 JointVelocity, 4 Other
 *   clamp 0 Off, 1 Project             rearm 0 Auto, 1 AckOnly                        decision 0 Resume, 1 Abort, 2 Retune
 *   state 0 Idle, 1 Armed, 2 Watching, 3 Clamped, 4 Braking, 5 Held, 6 Escalated, 7 Fault, 8 Terminated
 *   action_src 0 Policy, 1 Clamped, 2 Brake, 3 Hold
 *   status 0 Nominal, 1 Watching, 2 Clamped, 3 Braking, 4 Held, 5 Escalated, 6 Fault, 7 Terminated
 *   reason 0 Ok, 1 ObserveOnly, 2 WatchBand, 3 ClampWorkspace, 4 ClampSpeed, 5 ClampAccel, 6 ClampJerk, 7 ClampReach, 8 ClampContact, 9 BrakeInfeasible,
 *     10 BrakeTier1Cp, 11 BrakeClampBudget, 12 Stopping, 13 HeldStandstill, 14 EscalateHoldTimeout, 15 EscalateRearmBudget, 16 EscalateTier1Persistent,
 *     17 FaultNonFinite, 18 FaultSchema, 19 FaultWatchdog, 20 FaultBrakeTimeout, 21 FaultInternal, 22 RearmedAuto, 23 RearmedAck, 24 TerminatedAbort,
 *     25 TerminatedTimeout, 26 TerminatedRetune, 27 EpisodeEnd (docs/JOURNAL.md says when a tick has which)
 *   trips, by bit: 0 workspace, 1 speed, 2 acceleration, 3 jerk, 4 reach, 5 contact (0 to 5 are the soft trips), 6 no stop would stay in the box (BRAKE),
 *     7 not finite, 8 schema, 9 watchdog, 10 predictive trip, 11 clamp budget, 12 handoff timeout, 13 operator's abort, 14 brake timeout, 15 rearm budget */
#ifndef DISKLORVA_H
#define DISKLORVA_H

#include <stddef.h>
#include <stdint.h>

#ifdef __cplusplus
extern "C" {
#endif

/* ---- what a tick is given */

/* The settings, in the order of a journal's settings record. One record serves a whole episode. Sizes and codes outside their range, floats that are
 * not finite and a crossed box are refused (disklorva_answer); all else is taken as it is. */
typedef struct {
    uint8_t mode;                       /* code; Observe passes outcome.policy at every clean tick, in stop states too */
    uint8_t kind;                       /* code; what an action is. EeDelta and JointVelocity hold with zeros, the others with a position */
    uint8_t clamp;                      /* code; Off: a soft trip brakes. Project: a soft trip passes outcome.clamped */
    uint8_t rearm;                      /* code; Auto: from Held the fuse may rearm by itself */
    uint8_t dim;                        /* components of an action, 1 to 8 */
    uint8_t pos_dim;                    /* components of a position and of a velocity, 1 to 8 */
    uint8_t k;                          /* so many hits in the window brake; 0: every running tick; above 64: none */
    uint8_t clear_ticks;                /* quiet ticks in a row that lead from Watching or Clamped to Armed */
    uint8_t clamp_streak_to_brake;      /* so many clamped ticks with a chunk brake, since the last clearing or Resume; 0: every running tick */
    uint8_t stop_confirm_ticks;         /* ticks of standstill in a row, in Braking, that make Held; 0 counts as 1 */
    uint8_t watchdog_ticks;             /* the largest missed_ticks that is no fault */
    uint8_t max_rearms;                 /* from so many rearms on, automatic and by Resume together, the fuse does not rearm by itself */
    uint16_t horizon;                   /* rows of a chunk, 1 to 64 */
    uint16_t exec;                      /* rows of a chunk that are executed, 1 to horizon; only compared with chunk.exec_steps */
    uint16_t max_clamps_per_episode;    /* with more clamped ticks since the reset every running tick brakes; 65535: no limit */
    uint16_t brake_timeout_ticks;       /* B: after so many ticks that go on braking the next one faults */
    uint16_t rearm_hold;                /* quiet ticks in a row, in Held, before an automatic rearm */
    uint16_t escalate_after_hold_ticks; /* H: after so many ticks that stay in Held the next one escalates */
    uint32_t handoff_timeout_ticks;     /* E: after so many ticks that stay in Escalated the next one terminates */
    uint32_t tier0_enabled;             /* mask: the bits of outcome.trips that count; bits 6 to 9 count always */
    uint32_t calib_mask;                /* mask: calibrated features, for the record (0: verdict.valid is 0); switches no detector off */
    uint64_t window_mask;               /* mask: the bits of the hit window that are kept, 2^n - 1 for the last n ticks */
    double dt;                          /* control period, seconds; in the brake action. Its sign is not checked */
    double inv_dt;                      /* 1 / dt, per second; in the velocity from positions. Not compared with dt */
    double a_max;                       /* deceleration of the brake action, unit / s^2; of kinds EeDelta and JointVelocity. Its sign is not checked */
    double v_stop_eps;                  /* a velocity with a norm of at most this is standstill, unit / s; negative: never */
    double warn_margin;                 /* a score above tau - warn_margin that is no hit is a warning; unit of the score */
    double tau;                         /* a score above tau is a hit; unit of the score; any but a NaN; +infinity: never */
    double box_lo[8];                   /* the box, unit: bounds the hold and the brake position, and no other row; all 8 pairs are checked */
    double box_hi[8];                   /* with its safety distance taken off already */
} disklorva_settings;

/* The head of a chunk that the policy delivers with this tick. */
typedef struct {
    uint32_t seq;        /* 0 first after a reset, then 1, 2, ..; a chunk of a fault tick does not count, and its number is still the next */
    uint32_t t_emit;     /* the t of the chunk's first row; not after this tick's t */
    uint16_t horizon;    /* rows; the settings' */
    uint16_t dim;        /* components of a row; the settings' */
    uint16_t exec_steps; /* the settings' exec */
} disklorva_chunk;

/* An operator's acknowledgement. With a decision above 2 there is none. It is accepted where the slot is below 8, handoff_seq is the current handoff number,
 * and the nonce is above the last one that was consumed from the slot; docs/OPERATION.md says what it does in which state. That it comes from this
 * operator is the host's to check. */
typedef struct {
    uint64_t nonce;        /* rises with each acknowledgement of the slot; 0 is never accepted */
    uint32_t handoff_seq;  /* control.handoff_seq of the run state: 0 after a reset, one more with each escalation */
    uint8_t decision;      /* code */
    uint8_t operator_slot; /* which operator, 0 to 7 */
} disklorva_ack;

/* The numbers of a tick. Where has_chunk or has_ack is 0, chunk or ack is not looked at; where has_vel is 0, the list vel is not. */
typedef struct {
    uint32_t t;            /* time in control periods: 0 first after a reset, then the last t + 1 + missed_ticks */
    uint16_t idx;          /* the row of the newest chunk that this tick executes, below horizon; with a chunk it is t - chunk.t_emit */
    uint8_t missed_ticks;  /* control periods without a tick just before this one */
    uint8_t schema_fault;  /* flag: the host found the tick's data wrong itself; faults */
    uint8_t has_vel;       /* flag: the list vel is the measured velocity; without it the fuse takes (pos - last pos) * inv_dt */
    uint8_t has_chunk;     /* flag: chunk and the list chunk are a chunk; the first tick after a reset needs one */
    uint8_t has_ack;       /* flag: ack is an acknowledgement */
    disklorva_chunk chunk; /* its head */
    disklorva_ack ack;     /* not kept: one that was not consumed has to come again */
} disklorva_input;

/* What the detectors found for this tick, and the two rows. The host fills it. No float of it is checked. */
typedef struct {
    uint32_t trips;        /* bits 0 to 9 that the detectors found */
    uint32_t clamped_dims; /* by bit, the components that the clamp changed; passed on to the verdict */
    uint8_t feasible;      /* flag: a stop would stay in the box; no adds trip bit 6 (BRAKE) */
    double margin;         /* room that a stop would leave, metres; negative: it would leave the box; NaN: not known */
    double s;              /* the tick's score, larger is worse, in the unit of tau; -infinity: none; a NaN is no hit and no warning */
    uint32_t valid;        /* by bit, the features that could be worked out */
    uint32_t fired;        /* by bit, the features whose z is above tau; counted, and nothing else */
    double z[12];          /* the features' scores, standardised; the fuse decides by s alone */
    double policy[8];      /* the policy's row for this tick, the first dim components; passed on as it is */
    double clamped[8];     /* the same row as the clamp leaves it, equal to policy where it leaves all; passed on as it is, in Clamped at ticks without a trip too */
} disklorva_outcome;

/* ---- the run state: read it, and change nothing in it but the tally where a stretch ends (disklorva_join) */

/* The state machine's. Counts stop at their largest number, and none wraps but handoff_seq (docs/COUNTERS.md). */
typedef struct {
    uint64_t window;          /* the hit window: bit 0 is the last clean tick, 1 a hit */
    uint64_t last_nonce[8];   /* by slot, the last nonce that was consumed; 0 in a new run state, kept by a reset */
    double hold[8];           /* the point that is held, unit: where the arm was when it stopped, within the box; 0 before */
    uint8_t state;            /* code */
    uint16_t clean_run;       /* quiet ticks in a row */
    uint8_t clamp_streak;     /* clamped ticks with a chunk, since the last clearing or Resume */
    uint16_t clamps;          /* clamped ticks since the reset */
    uint16_t brake_ticks;     /* ticks that went on braking, in this stop */
    uint8_t stopped_ticks;    /* ticks of standstill in a row, in this stop */
    uint16_t held_ticks;      /* ticks that stayed in Held, in this stop */
    uint16_t held_clean;      /* quiet ticks in a row that stayed in Held */
    uint32_t escalated_ticks; /* ticks that stayed in Escalated */
    uint8_t rearms;           /* rearms since the reset, automatic and by Resume */
    uint32_t handoff_seq;     /* the current handoff number, which an acknowledgement must name */
    uint8_t handoff_pending;  /* flag: a handoff began, and neither an answer nor the timeout has ended it */
} disklorva_control;

typedef struct {
    double pos[8];         /* the position taken last, unit */
    double prev_pos[8];    /* the one that was taken before the last clean tick's */
    double vel[8];         /* the velocity of the last clean tick, unit / s */
    double last_cmd[8];    /* the last verdict's action */
    uint8_t have_prev_pos; /* flag: a clean tick came since the reset */
} disklorva_motion;

typedef struct {
    uint8_t filled;             /* flag: a chunk was taken since the reset */
    uint32_t seq;               /* ticks since the reset, up to 4294967295 */
    uint32_t last_t;            /* the last tick's t, a fault tick's too */
    uint32_t next_chunk_seq;    /* the number that the next chunk must have */
    uint8_t chunk_ok_this_tick; /* flag: the last clean tick brought a chunk, and no trip counted */
} disklorva_clock;

/* A time, where set is not 0. */
typedef struct {
    uint8_t set; /* flag */
    uint32_t at; /* the t of the tick */
} disklorva_mark;

/* A reason, where set is not 0. */
typedef struct {
    uint8_t set;    /* flag */
    uint8_t reason; /* code */
} disklorva_reason_mark;

/* Counts since the reset, or since the cut of a stretch (disklorva_join); each stops at 4294967295. */
typedef struct {
    uint32_t ticks;                          /* all ticks; the next eight are by the state that a tick ended in */
    uint32_t nominal;                        /* in Armed (or Idle) */
    uint32_t watching;                       /* in Watching */
    uint32_t clamped;                        /* in Clamped */
    uint32_t braking;                        /* in Braking */
    uint32_t held;                           /* in Held */
    uint32_t escalated;                      /* in Escalated */
    uint32_t fault;                          /* in Fault */
    uint32_t terminated;                     /* in Terminated */
    uint32_t substituted;                    /* ticks whose action was not the policy's row */
    uint32_t chunks_seen;                    /* chunks of clean ticks */
    uint32_t chunks_rejected;                /* those of them with a trip bit 6 to 9 */
    uint32_t clamps;                         /* clamped ticks, until control.clamps is full */
    uint32_t holds;                          /* times that Held began */
    uint32_t rearms;                         /* rearms, automatic and by Resume, until control.rearms is full */
    uint32_t escalations;                    /* times that Escalated began */
    uint32_t trips_by_bit[16];               /* ticks whose trips had the bit */
    uint32_t fired_by_feat[12];              /* ticks whose fired had the bit */
    disklorva_mark first_trip_tick;          /* the first tick with a trip */
    disklorva_reason_mark first_trip_reason; /* and its reason */
    disklorva_mark first_stop_tick;          /* the first tick that ended in a stop state (4 to 8) */
    disklorva_mark handoff_tick;             /* the first tick that began Escalated */
    uint32_t violations_reached_env;         /* ticks in Observe that Enforce would have answered with another row */
    double max_s;                            /* the largest s that is no NaN; -infinity where none came */
    double max_z[12];                        /* the same of z of each feature that is in calib_mask and valid */
    uint8_t terminal_state;                  /* code: the state that the last tick ended in; Idle before the first */
    uint32_t stop_actions;                   /* ticks that ended in a stop state (4 to 8) and whose action was the brake or the hold one: `stopped` of `end` */
} disklorva_tally;

typedef struct {
    disklorva_control control;
    disklorva_motion motion;
    disklorva_clock clock;
    disklorva_tally tally;
} disklorva_run_state;

/* ---- what a tick gives */

typedef struct {
    uint32_t seq;                  /* the tick's number since the reset, from 0 */
    uint32_t t;                    /* the input's */
    uint8_t status;                /* code: the state, with Idle and Armed as one */
    uint8_t state;                 /* code: the state that the tick ends in */
    uint8_t prev_state;            /* code: the state that it started from */
    uint32_t trips;                /* the bits of this tick: the outcome's that count, or the guard's, and those of the state machine */
    double action[8];              /* what the drives are to be given: the first action_dim components, the others are 0 */
    uint16_t action_dim;           /* the settings' dim */
    uint8_t action_src;            /* code: whose row the action is */
    uint8_t substituted;           /* flag: it is not the policy's row */
    uint32_t clamped_dims;         /* the outcome's; 0 of a fault tick */
    double z[12];                  /* the outcome's; 0 of a fault tick */
    double s;                      /* the outcome's; -infinity of a fault tick */
    uint32_t valid;                /* the outcome's, or 0 where calib_mask is 0; 0 of a fault tick */
    uint32_t fired;                /* the outcome's; 0 of a fault tick */
    double tau;                    /* the settings' */
    uint64_t window;               /* the hit window after the tick */
    uint8_t window_hits;           /* the hits in it, before an arming tick cleared it */
    double brake_margin;           /* the outcome's margin, metres; NaN of a fault tick */
    uint8_t reason;                /* code: why the tick ended in its state */
    uint8_t handoff_set;           /* flag: a handoff begins with this tick, and its number is handoff_seq */
    uint32_t handoff_seq;          /* 0 where handoff_set is 0 */
    uint8_t ack_consumed;          /* flag: this tick's acknowledgement was consumed; its nonce is spent */
    uint8_t violation_reached_env; /* flag: in Observe, Enforce would have given another row */
} disklorva_verdict;

/* number 0: the tick was made, and verdict is its verdict.
 * number 1 to 4: the settings are refused (1 a code that is not listed, 2 a size, 3 a float that is not finite, 4 a box_lo above its box_hi);
 * nothing is written to the run state, and verdict is a constant without meaning, whose action must not be used. */
typedef struct {
    uint8_t number;
    disklorva_verdict verdict;
} disklorva_answer;

/* ---- the functions */

/* A run state for which no episode has begun and no nonce is spent: one for each arm, where the host starts or takes new settings. A tick on it faults: begin
 * with disklorva_reset. */
disklorva_run_state disklorva_new(void);

/* Starts an episode in *rt. It keeps control.last_nonce, so that no acknowledgement of an episode before is consumed again, and forgets everything else
 * (docs/HOST.md, What a reset keeps and forgets). *rt once came from disklorva_new: a new run state for each episode would have no nonce spent. */
void disklorva_reset(disklorva_run_state *rt);

/* One tick: changes *rt where it lies. Call it once a control period, with the run state that the call before left and the settings of the episode.
 * Lists, of which a value that is not finite faults: pos has the measured position, pos_dim values; vel, with has_vel, the measured velocity, pos_dim values;
 * aux at most 8 further measurements and ext at most 4 scores from outside, which the fuse checks and does not use; chunk, with has_chunk, the delivered
 * chunk's rows one after the other, horizon * dim values. Lists of any length are taken: a wrong length is a fault of the tick, not of the caller.
 * To keep the state before a tick, lend a copy: `disklorva_run_state next = before;` and then `disklorva_tick(&next, ..)`. */
disklorva_answer disklorva_tick(disklorva_run_state *rt, const disklorva_settings *settings, const disklorva_input *input,
                                const disklorva_outcome *outcome, const double *pos, size_t pos_n, const double *vel, size_t vel_n,
                                const double *aux, size_t aux_n, const double *ext, size_t ext_n, const double *chunk, size_t chunk_n);

/* The tally of an episode that was counted in two stretches: for whoever receives it cut after some tick. `earlier` is the first stretch's tally and `later`
 * the second's, and the order matters. The second stretch begins from the run state at the cut, with an empty tally and nothing else changed:
 *     disklorva_tally earlier = rt.tally;
 *     rt.tally = disklorva_new().tally;      empty: counts 0, no marks, maxima -infinity, Idle
 *     .. the ticks of the second stretch, under the same settings and with no reset ..
 *     disklorva_tally whole = disklorva_join(&earlier, &rt.tally);
 * Then `whole` is the tally that one run would have left, in every field, and every verdict is the one that it would have given. Counts add and stop at
 * 4294967295; a first mark is the earlier's where that has it, whatever its t; the first trip's reason is of the tally that gave its tick; a maximum is the
 * larger; the last state is the later's, unless that has no ticks. Any two tallies are taken, by the same rules: a state that is no code is Fault, a reason
 * that is none EpisodeEnd. Both are only read, and may be one. */
disklorva_tally disklorva_join(const disklorva_tally *earlier, const disklorva_tally *later);

/* The square root that the tick uses: the double nearest the exact root. */
double disklorva_sqrt(double x);

#ifdef __cplusplus
}
#endif

/* The sizes that the library was built for. hosts/layout.txt has the place of every field; hosts/run compares C and Rust with it. */
#if defined(__cplusplus) || (defined(__STDC_VERSION__) && __STDC_VERSION__ >= 201112L)
#ifdef __cplusplus
#define DISKLORVA_SIZE(type, bytes) static_assert(sizeof(type) == bytes, #type " has another size than the library's")
#else
#define DISKLORVA_SIZE(type, bytes) _Static_assert(sizeof(type) == bytes, #type " has another size than the library's")
#endif
DISKLORVA_SIZE(disklorva_settings, 224);
DISKLORVA_SIZE(disklorva_input, 48);
DISKLORVA_SIZE(disklorva_outcome, 264);
DISKLORVA_SIZE(disklorva_tally, 320);
DISKLORVA_SIZE(disklorva_run_state, 776);
DISKLORVA_SIZE(disklorva_verdict, 248);
DISKLORVA_SIZE(disklorva_answer, 256);
#undef DISKLORVA_SIZE
#endif

#endif
