//! The types and functions of the static library, as hosts/disklorva.h has them. Field names, order and types are those of crates/host_layout and crates/host_c.

/// A struct in the layout of C, with a list of its fields for the tests of the layout.
macro_rules! record {
    ($(#[$about:meta])* $name:ident { $($field:ident: $type:ty,)* }) => {
        $(#[$about])*
        #[repr(C)]
        #[derive(Clone, Copy, Debug, Default)]
        pub struct $name {
            $(pub $field: $type,)*
        }

        impl $name {
            /// Each field's name, type, place and bytes.
            pub const FIELDS: &'static [Field] = &[$(Field {
                name: stringify!($field),
                kind: stringify!($type),
                offset: core::mem::offset_of!($name, $field),
                bytes: core::mem::size_of::<$type>(),
            },)*];
        }
    };
}

/// Where a field lies.
pub struct Field {
    pub name: &'static str,
    pub kind: &'static str,
    pub offset: usize,
    pub bytes: usize,
}

// ---- what a tick is given

record! {
    /// The settings, in the order of a journal's settings record.
    Settings {
        mode: u8,
        kind: u8,
        clamp: u8,
        rearm: u8,
        dim: u8,
        pos_dim: u8,
        k: u8,
        clear_ticks: u8,
        clamp_streak_to_brake: u8,
        stop_confirm_ticks: u8,
        watchdog_ticks: u8,
        max_rearms: u8,
        horizon: u16,
        exec: u16,
        max_clamps_per_episode: u16,
        brake_timeout_ticks: u16,
        rearm_hold: u16,
        escalate_after_hold_ticks: u16,
        handoff_timeout_ticks: u32,
        tier0_enabled: u32,
        calib_mask: u32,
        window_mask: u64,
        dt: f64,
        inv_dt: f64,
        a_max: f64,
        v_stop_eps: f64,
        warn_margin: f64,
        tau: f64,
        box_lo: [f64; 8],
        box_hi: [f64; 8],
    }
}

record! {
    /// The head of a chunk that the policy delivers with a tick.
    Chunk {
        seq: u32,
        t_emit: u32,
        horizon: u16,
        dim: u16,
        exec_steps: u16,
    }
}

record! {
    /// An operator's acknowledgement: decision 0 Resume, 1 Abort, 2 Retune; with another number there is none.
    Ack {
        nonce: u64,
        handoff_seq: u32,
        decision: u8,
        operator_slot: u8,
    }
}

record! {
    /// The numbers of a tick; a flag is 0 for no and 1 for yes.
    Input {
        t: u32,
        idx: u16,
        missed_ticks: u8,
        schema_fault: u8,
        has_vel: u8,
        has_chunk: u8,
        has_ack: u8,
        chunk: Chunk,
        ack: Ack,
    }
}

record! {
    /// What the detectors found for a tick.
    Outcome {
        trips: u32,
        clamped_dims: u32,
        feasible: u8,
        margin: f64,
        s: f64,
        valid: u32,
        fired: u32,
        z: [f64; 12],
        policy: [f64; 8],
        clamped: [f64; 8],
    }
}

// ---- the run state

record! {
    Control {
        window: u64,
        last_nonce: [u64; 8],
        hold: [f64; 8],
        state: u8,
        clean_run: u16,
        clamp_streak: u8,
        clamps: u16,
        brake_ticks: u16,
        stopped_ticks: u8,
        held_ticks: u16,
        held_clean: u16,
        escalated_ticks: u32,
        rearms: u8,
        handoff_seq: u32,
        handoff_pending: u8,
    }
}

record! {
    Motion {
        pos: [f64; 8],
        prev_pos: [f64; 8],
        vel: [f64; 8],
        last_cmd: [f64; 8],
        have_prev_pos: u8,
    }
}

record! {
    Clock {
        filled: u8,
        seq: u32,
        last_t: u32,
        next_chunk_seq: u32,
        chunk_ok_this_tick: u8,
    }
}

record! {
    /// A time, where `set` is not 0.
    Mark {
        set: u8,
        at: u32,
    }
}

record! {
    /// A reason, where `set` is not 0.
    ReasonMark {
        set: u8,
        reason: u8,
    }
}

record! {
    /// The counts since the reset, or since the last `Fuse::take_tally`.
    Tally {
        ticks: u32,
        nominal: u32,
        watching: u32,
        clamped: u32,
        braking: u32,
        held: u32,
        escalated: u32,
        fault: u32,
        terminated: u32,
        substituted: u32,
        chunks_seen: u32,
        chunks_rejected: u32,
        clamps: u32,
        holds: u32,
        rearms: u32,
        escalations: u32,
        trips_by_bit: [u32; 16],
        fired_by_feat: [u32; 12],
        first_trip_tick: Mark,
        first_trip_reason: ReasonMark,
        first_stop_tick: Mark,
        handoff_tick: Mark,
        violations_reached_env: u32,
        max_s: f64,
        max_z: [f64; 12],
        terminal_state: u8,
        stop_actions: u32,
    }
}

record! {
    /// The run state that a host lends. All zero is a run state too, but not the one that `disklorva_new` gives.
    RunState {
        control: Control,
        motion: Motion,
        clock: Clock,
        tally: Tally,
    }
}

// ---- what a tick gives

record! {
    Verdict {
        seq: u32,
        t: u32,
        status: u8,
        state: u8,
        prev_state: u8,
        trips: u32,
        action: [f64; 8],
        action_dim: u16,
        action_src: u8,
        substituted: u8,
        clamped_dims: u32,
        z: [f64; 12],
        s: f64,
        valid: u32,
        fired: u32,
        tau: f64,
        window: u64,
        window_hits: u8,
        brake_margin: f64,
        reason: u8,
        handoff_set: u8,
        handoff_seq: u32,
        ack_consumed: u8,
        violation_reached_env: u8,
    }
}

record! {
    /// 0 and the verdict, or the number of a refusal of the settings and a verdict without meaning.
    Answer {
        number: u8,
        verdict: Verdict,
    }
}

/// Every type with its fields and its size, in the order of hosts/layout.txt.
pub const TYPES: &[(&str, &[Field], usize)] = &[
    ("Settings", Settings::FIELDS, core::mem::size_of::<Settings>()),
    ("Chunk", Chunk::FIELDS, core::mem::size_of::<Chunk>()),
    ("Ack", Ack::FIELDS, core::mem::size_of::<Ack>()),
    ("Input", Input::FIELDS, core::mem::size_of::<Input>()),
    ("Outcome", Outcome::FIELDS, core::mem::size_of::<Outcome>()),
    ("Control", Control::FIELDS, core::mem::size_of::<Control>()),
    ("Motion", Motion::FIELDS, core::mem::size_of::<Motion>()),
    ("Clock", Clock::FIELDS, core::mem::size_of::<Clock>()),
    ("Mark", Mark::FIELDS, core::mem::size_of::<Mark>()),
    ("ReasonMark", ReasonMark::FIELDS, core::mem::size_of::<ReasonMark>()),
    ("Tally", Tally::FIELDS, core::mem::size_of::<Tally>()),
    ("RunState", RunState::FIELDS, core::mem::size_of::<RunState>()),
    ("Verdict", Verdict::FIELDS, core::mem::size_of::<Verdict>()),
    ("Answer", Answer::FIELDS, core::mem::size_of::<Answer>()),
];

#[link(name = "host_c", kind = "static")]
extern "C" {
    pub fn disklorva_new() -> RunState;

    /// `rt` points to a run state that nothing else uses during the call.
    pub fn disklorva_reset(rt: *mut RunState);

    /// `rt` as above. All else is only read: each pointer is aligned and not null, nothing writes what it points to during the call, and none of that lies in `rt`.
    pub fn disklorva_tick(
        rt: *mut RunState,
        settings: *const Settings,
        input: *const Input,
        outcome: *const Outcome,
        pos: *const f64,
        pos_n: usize,
        vel: *const f64,
        vel_n: usize,
        aux: *const f64,
        aux_n: usize,
        ext: *const f64,
        ext_n: usize,
        chunk: *const f64,
        chunk_n: usize,
    ) -> Answer;

    /// Both are only read, and may be one: each pointer is aligned and not null, and nothing writes what it points to during the call.
    pub fn disklorva_join(earlier: *const Tally, later: *const Tally) -> Tally;

    pub fn disklorva_sqrt(x: f64) -> f64;
}
