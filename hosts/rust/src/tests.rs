use super::ffi::TYPES;
use super::*;

/// Settings that are accepted, of an arm with one component.
fn settings() -> Settings {
    Settings {
        mode: 1,
        clamp: 1,
        dim: 1,
        pos_dim: 1,
        k: 3,
        clear_ticks: 5,
        clamp_streak_to_brake: 3,
        stop_confirm_ticks: 2,
        watchdog_ticks: 2,
        max_rearms: 2,
        horizon: 1,
        exec: 1,
        max_clamps_per_episode: 60,
        brake_timeout_ticks: 30,
        rearm_hold: 10,
        escalate_after_hold_ticks: 30,
        handoff_timeout_ticks: 200,
        tier0_enabled: 127,
        window_mask: 31,
        dt: 0.05,
        inv_dt: 20.0,
        a_max: 1.0,
        v_stop_eps: 0.01,
        warn_margin: 0.5,
        tau: 3.0,
        box_lo: [-1.0; 8],
        box_hi: [1.0; 8],
        ..Settings::default()
    }
}

/// Numbers that look random, the same in each run.
struct Numbers(u64);

impl Numbers {
    fn next(&mut self) -> u64 {
        self.0 ^= self.0 << 13;
        self.0 ^= self.0 >> 7;
        self.0 ^= self.0 << 17;
        self.0
    }

    /// A struct of any bytes; `T` is a struct of numbers in the layout of C.
    fn any<T: Copy + Default>(&mut self) -> T {
        let mut it = T::default();
        let at = (&raw mut it).cast::<u8>();
        for i in 0..size_of::<T>() {
            // SAFETY: within `it`, whose every pattern of bytes is a value.
            unsafe { at.add(i).write(self.next() as u8) };
        }
        it
    }
}

/// The fields, to be compared: all NaNs are one, and padding does not count.
fn fields(it: &impl std::fmt::Debug) -> String {
    format!("{it:?}").replace("-NaN", "NaN")
}

#[test]
fn layout_is_the_stored_one() {
    assert_eq!(layout(), include_str!("../../layout.txt"));
}

/// The number that crates/lictor_core gives a size of this name, which may be that of another.
fn size(name: &str) -> String {
    let source = [
        include_str!("../../../crates/lictor_core/src/chunk.rt"),
        include_str!("../../../crates/lictor_core/src/envelope.rt"),
        include_str!("../../../crates/lictor_core/src/scores.rt"),
        include_str!("../../../crates/lictor_core/src/verdict.rt"),
    ]
    .concat();
    let value = source.split(&format!("pub const {name}: usize = ")).nth(1).unwrap().split(';').next().unwrap();
    if value.parse::<usize>().is_ok() { value.to_string() } else { size(value) }
}

/// A field as the library has it, with numbers for its sizes and for `Time`.
fn spelt(field: &str) -> String {
    let field = field.trim().replace("Time", "u32");
    match field.split_once("; ").and_then(|(front, rest)| rest.split_once(']').map(|(name, end)| (front, name, end))) {
        Some((front, name, end)) => format!("{front}; {}]{end}", size(name)),
        None => field,
    }
}

/// The structs of crates/host_layout and crates/host_c that are in the layout of C, field by field.
#[test]
fn types_are_those_of_the_library() {
    let source = [
        include_str!("../../../crates/host_layout/src/input.rt"),
        include_str!("../../../crates/host_layout/src/state.rt"),
        include_str!("../../../crates/host_layout/src/verdict.rt"),
        include_str!("../../../crates/host_c/src/lib.rt"),
    ]
    .concat();
    assert_eq!(source.matches("#[repr(C)]\n").count(), TYPES.len());
    for (name, fields, _) in TYPES {
        let head = format!("#[repr(C)]\n#[derive(Clone, Copy)]\npub struct {name} {{\n");
        let text = source.split(&head).nth(1).unwrap().split("\n}").next().unwrap();
        let theirs: Vec<String> = text.lines().map(spelt).collect();
        let ours: Vec<String> = fields.iter().map(|f| format!("pub {}: {},", f.name, f.kind)).collect();
        assert_eq!(theirs, ours, "{name}");
    }
}

#[test]
fn settings_are_refused_by_their_number() {
    let wrong: [(u8, fn(&mut Settings)); 8] = [
        (1, |s| s.mode = 2),
        (1, |s| s.rearm = 255),
        (2, |s| s.dim = 0),
        (2, |s| s.exec = 2),
        (3, |s| s.dt = f64::NAN),
        (3, |s| s.box_hi[7] = f64::INFINITY),
        (4, |s| s.box_lo[7] = 2.0),
        (1, |s| (s.kind, s.dim, s.tau, s.box_lo[0]) = (5, 9, f64::NAN, 2.0)),
    ];
    for (number, change) in wrong {
        let mut s = settings();
        change(&mut s);
        assert_eq!(Fuse::new(s).err(), Some(Refused(number)));
    }
    assert!(Fuse::new(Settings { tau: f64::INFINITY, ..settings() }).is_ok());
}

#[test]
fn a_refusal_is_an_error_with_words() {
    let start = |s| -> Result<Fuse, Box<dyn std::error::Error>> { Ok(Fuse::new(s)?) };
    let said = |s| start(s).unwrap_err().to_string();
    let codes = "the settings are refused, number 1: a code that is not listed: mode, kind, clamp or rearm";
    assert_eq!(said(Settings { mode: 2, ..settings() }), codes);
    let texts: Vec<String> = (1..=5).map(|number| Refused(number).to_string()).collect();
    assert!(texts.iter().zip(1..).all(|(text, number)| text.contains(&format!("number {number}: "))));
    assert_eq!(texts.iter().collect::<std::collections::HashSet<_>>().len(), 5);
}

/// Memory for a run state of which every byte can be looked at, those between the fields too.
#[derive(Clone, Copy, PartialEq)]
#[repr(C, align(8))]
struct Memory([u8; size_of::<RunState>()]);

impl Memory {
    fn lend(&mut self) -> &mut RunState {
        // SAFETY: of the size and alignment of a run state, and every pattern of bytes is one.
        unsafe { &mut *(&raw mut self.0).cast() }
    }
}

/// A call that is refused writes nothing: no byte of the lent memory changes.
#[test]
fn refused_call_changes_no_byte() {
    let mut numbers = Numbers(1);
    for _ in 0..1000 {
        let before = Memory(std::array::from_fn(|_| numbers.next() as u8));
        let (input, outcome) = (numbers.any(), numbers.any());
        let mut memory = before;
        let answer = tick_lent(memory.lend(), &Settings { dim: 9, ..settings() }, &input, &outcome, &Lists::default());
        assert_eq!(answer.number, 2);
        assert!(memory == before);
    }
}

extern "C" {
    fn mmap(at: *mut u8, bytes: usize, access: i32, kind: i32, file: i32, offset: i64) -> *mut u8;
    fn mprotect(at: *mut u8, bytes: usize, access: i32) -> i32;
}

/// A copy on a page of its own that may be read alone: a store there would end the test with a signal.
fn read_only<T: Copy>(it: T) -> *mut T {
    assert!(size_of::<T>() <= 4096);
    // SAFETY: a fresh page (private, of no file), which nobody else has.
    unsafe {
        let page = mmap(std::ptr::null_mut(), 4096, 3, 0x22, -1, 0);
        page.cast::<T>().write(it);
        assert_eq!(mprotect(page, 4096, 1), 0);
        page.cast()
    }
}

/// Nor does it store a byte anew: a page that may be read alone serves it.
#[test]
fn refused_call_stores_nothing() {
    let none: [f64; 0] = [];
    let list = none.as_ptr();
    let bad = Settings { dim: 9, ..settings() };
    let (state, input, outcome) = (read_only(new()), Input::default(), Outcome::default());
    // SAFETY: the pointers are valid, and the run state is lent to nobody else.
    let answer =
        unsafe { ffi::disklorva_tick(state, &bad, &input, &outcome, list, 0, list, 0, list, 0, list, 0, list, 0) };
    assert_eq!(answer.number, 2);
}

/// Of what a tick is given, the lent run state alone is written: all else may lie on pages that may be read alone, and a state that is kept too.
#[test]
fn what_is_given_is_only_read() {
    let mut begun = new();
    reset(&mut begun);
    let chunk = Chunk { horizon: 1, dim: 1, exec_steps: 1, ..Chunk::default() };
    let given = Input { has_vel: 1, has_chunk: 1, chunk, ..Input::default() };
    let found = Outcome { feasible: 1, margin: 1.0, policy: [0.25; 8], ..Outcome::default() };
    for (number, s) in [(0, settings()), (2, Settings { dim: 9, ..settings() })] {
        // SAFETY: nobody writes these pages, and they stay.
        let (state, s, input, outcome, x) =
            unsafe { (&*read_only(begun), &*read_only(s), &*read_only(given), &*read_only(found), &*read_only([0.5])) };
        let lists = Lists { pos: x, vel: x, aux: x, ext: x, chunk: x };
        let (mut lent, mut next) = (begun, RunState::default());
        let answer = tick_lent(&mut lent, s, input, outcome, &lists);
        let kept = tick_from(state, &mut next, s, input, outcome, &lists);
        assert_eq!((answer.number, lent.tally.ticks), (number, u32::from(number == 0)));
        assert_eq!(fields(&(answer, lent)), fields(&(kept, next)));
    }
}

/// A flag that is neither 0 nor 1 gives the safe choice.
#[test]
fn odd_flags_are_safe() {
    let input = Input {
        has_vel: 1,
        has_chunk: 1,
        chunk: Chunk { horizon: 1, dim: 1, exec_steps: 1, ..Chunk::default() },
        ack: Ack { nonce: 1, ..Ack::default() },
        ..Input::default()
    };
    let lists = Lists { pos: &[0.5], vel: &[0.25], chunk: &[0.25], ..Lists::default() };
    let seen = |state: u8, input: Input, feasible: u8| {
        let mut begun = new();
        reset(&mut begun);
        begun.control.state = state;
        let outcome = Outcome { feasible, margin: 1.0, ..Outcome::default() };
        let answer = tick_lent(&mut begun, &settings(), &input, &outcome, &lists);
        fields(&(answer, begun))
    };
    type Case<'a> = (&'a str, u8, &'a dyn Fn(u8) -> String);
    let cases: [Case; 5] = [
        ("feasible", 0, &|n| seen(1, input, n)),
        ("has_ack", 0, &|n| seen(6, Input { has_ack: n, ..input }, 1)),
        ("schema_fault", 1, &|n| seen(1, Input { schema_fault: n, ..input }, 1)),
        ("has_vel", 1, &|n| seen(1, Input { has_vel: n, ..input }, 1)),
        ("has_chunk", 1, &|n| seen(1, Input { has_chunk: n, ..input }, 1)),
    ];
    for (name, safe, tick) in cases {
        assert_ne!(tick(0), tick(1), "{name}");
        for odd in 2..=255 {
            assert_eq!(tick(odd), tick(safe), "{name} {odd}");
        }
    }
}

/// Any bytes are a run state, an input and an outcome. A tick in place and one to another place agree on them, and the second changes no byte of the
/// state before it.
#[test]
fn lent_and_kept_agree() {
    let mut numbers = Numbers(2);
    for round in 0..20000 {
        let mut memory = Memory(std::array::from_fn(|_| numbers.next() as u8));
        let (mut next, mut input, outcome) = (numbers.any::<RunState>(), numbers.any::<Input>(), numbers.any());
        if round % 2 == 0 {
            // a tick that the guard takes, so that the table decides
            let RunState { control, clock: k, .. } = memory.lend();
            (k.filled, k.seq, k.last_t, k.next_chunk_seq, k.chunk_ok_this_tick) = (1, 1, 6, 1, 0);
            control.state %= 9;
            input = Input { t: 7, has_ack: input.has_ack, ack: input.ack, ..Input::default() };
        }
        let x = [f64::from_bits(numbers.next()); 20];
        let pos = if round % 2 == 0 { &[0.5][..] } else { &x[..(numbers.next() % 20) as usize] };
        let lists = Lists { pos, vel: &x[..1], aux: &[], ext: &[], chunk: &x[..(numbers.next() % 20) as usize] };
        let before = memory;
        let kept = tick_from(memory.lend(), &mut next, &settings(), &input, &outcome, &lists);
        assert!(memory == before);
        let lent = tick_lent(memory.lend(), &settings(), &input, &outcome, &lists);
        assert_eq!(fields(&(kept, next)), fields(&(lent, &*memory.lend())));
        assert!(lent.number == 0 && lent.verdict.state <= 8 && lent.verdict.reason <= 27);
    }
}

/// What the wrapper passes on: a chunk and then nothing, and a velocity that is off.
#[test]
fn tick_has_what_was_given() {
    let mut fuse = Fuse::new(settings()).unwrap();
    assert_eq!(fuse.state().control.state, 0);
    fuse.reset();
    let head = Chunk { seq: 0, t_emit: 0, horizon: 1, dim: 1, exec_steps: 1 };
    let outcome = Outcome { feasible: 1, margin: 1.0, policy: [0.25; 8], ..Outcome::default() };
    let first = Tick { pos: &[0.5], chunk: Some((head, &[0.25])), outcome, ..Tick::default() };
    let v = fuse.tick(&first);
    assert_eq!((v.state, v.reason, v.trips, v.action_src, v.action[0]), (1, 0, 0, 0, 0.25));
    assert_eq!((fuse.state().clock.filled, fuse.state().motion.pos[0], fuse.state().tally.ticks), (1, 0.5, 1));
    let v = fuse.tick(&Tick { t: 1, pos: &[f64::NAN], outcome, ..Tick::default() });
    assert_eq!((v.state, v.reason, v.trips, v.action_src), (7, 17, 128, 3));
}

/// A reset keeps the eight nonces of whatever bytes it is lent, and leaves all else as that of a new run state.
#[test]
fn a_reset_keeps_the_nonces_alone() {
    let mut numbers = Numbers(3);
    for _ in 0..1000 {
        let (mut any, mut begun) = (numbers.any::<RunState>(), new());
        assert_eq!(begun.control.last_nonce, [0; 8]);
        reset(&mut begun);
        begun.control.last_nonce = any.control.last_nonce;
        reset(&mut any);
        assert_eq!(fields(&any), fields(&begun));
    }
}

/// An acknowledgement that was consumed is spent in the episodes that follow, and not in a new run state.
#[test]
fn a_spent_nonce_stays_spent() {
    let chunk = Chunk { horizon: 1, dim: 1, exec_steps: 1, ..Chunk::default() };
    let outcome = Outcome { feasible: 1, ..Outcome::default() };
    let lists = Lists { pos: &[0.5], chunk: &[0.25], ..Lists::default() };
    let consumes = |state: &mut RunState, operator_slot: u8, nonce: u64| {
        reset(state);
        state.control.state = 6;
        let ack = Ack { nonce, operator_slot, ..Ack::default() };
        let input = Input { has_chunk: 1, chunk, has_ack: 1, ack, ..Input::default() };
        tick_lent(state, &settings(), &input, &outcome, &lists).verdict.ack_consumed == 1
    };
    let mut arm = new();
    assert!(consumes(&mut arm, 7, 1));
    assert!(!consumes(&mut arm, 7, 1) && !consumes(&mut arm, 8, 2));
    assert!(consumes(&mut arm, 3, 1) && consumes(&mut arm, 7, 2));
    assert!(consumes(&mut arm, 7, u64::MAX));
    assert!([0, 1, 2, 3, u64::MAX].iter().all(|nonce| !consumes(&mut arm, 7, *nonce)));
    assert!(!consumes(&mut arm, 3, 1) && consumes(&mut arm, 3, 2));
    assert!(consumes(&mut new(), 7, 1));
}

/// A fuse whose tally is taken goes on as one that is left alone, and the joined tally is the other's.
#[test]
fn a_cut_changes_nothing() {
    for cut in 0..=12 {
        let (mut whole, mut parts) = (Fuse::new(settings()).unwrap(), Fuse::new(settings()).unwrap());
        whole.reset();
        parts.reset();
        let mut earlier = new().tally;
        for t in 0..12 {
            if t == cut {
                earlier = parts.take_tally();
                assert_eq!(fields(&parts.state().tally), fields(&new().tally));
            }
            let s = if t % 3 == 0 { f64::NAN } else { f64::from(t) };
            let outcome = Outcome { feasible: u8::from(t < 4), trips: u32::from(t == 2), s, ..Outcome::default() };
            let head = Chunk { seq: t, t_emit: t, horizon: 1, dim: 1, exec_steps: 1 };
            let pos = if t == 10 { f64::NAN } else { 0.5 };
            let tick = Tick { t, pos: &[pos], chunk: Some((head, &[0.25])), outcome, ..Tick::default() };
            assert_eq!(fields(&whole.tick(&tick)), fields(&parts.tick(&tick)));
        }
        if cut == 12 {
            earlier = parts.take_tally();
        }
        assert_eq!(fields(&join(&earlier, &parts.state().tally)), fields(&whole.state().tally));
        assert_eq!((whole.state().tally.fault, whole.state().tally.stop_actions), (2, 8));
    }
}

/// The same ticks in both modes end in the same states; in Observe only the fault ticks of the guard stop the arm.
#[test]
fn observe_stops_by_the_guard_alone() {
    for (mode, stops) in [(0, 2), (1, 11)] {
        let mut fuse = Fuse::new(Settings { mode, ..settings() }).unwrap();
        fuse.reset();
        let mut counted = 0;
        for t in 0..12 {
            let head = Chunk { seq: 0, t_emit: 0, horizon: 1, dim: 1, exec_steps: 1 };
            let row = [0.25];
            let chunk = (t == 0).then_some((head, &row[..]));
            let outcome = Outcome { feasible: u8::from(t != 1), trips: 128 * u32::from(t == 5), ..Outcome::default() };
            let pos = if t == 8 || t == 10 { f64::NAN } else { 0.5 };
            let v = fuse.tick(&Tick { t, pos: &[pos], chunk, outcome, ..Tick::default() });
            counted += u32::from(v.state >= 4 && v.action_src >= 2);
        }
        let tally = &fuse.state().tally;
        assert_eq!((tally.stop_actions, counted), (stops, stops));
        assert_eq!(tally.braking + tally.held + tally.escalated + tally.fault + tally.terminated, 11);
        fuse.reset();
        assert_eq!(fuse.state().tally.stop_actions, 0);
    }
}

/// Any bytes are tallies: what is joined of them has listed codes alone. Both are only read, and may be one.
#[test]
fn any_tallies_are_joined() {
    let mut numbers = Numbers(4);
    for _ in 0..20000 {
        let (a, b) = (numbers.any::<Tally>(), numbers.any::<Tally>());
        let whole = join(&a, &b);
        assert!(whole.terminal_state <= 8 && whole.first_trip_reason.reason <= 27);
        let (trip, stop, handoff) = (whole.first_trip_tick, whole.first_stop_tick, whole.handoff_tick);
        assert!(trip.set.max(stop.set).max(handoff.set).max(whole.first_trip_reason.set) <= 1);
        assert_eq!(fields(&join(&a, &a)), fields(&join(&a, &{ a })));
    }
    // SAFETY: nobody writes these pages, and they stay.
    let (a, b) = unsafe { (&*read_only(numbers.any::<Tally>()), &*read_only(numbers.any::<Tally>())) };
    assert_eq!(fields(&join(a, b)), fields(&join(&{ *a }, &{ *b })));
}

#[test]
fn refusals_say_their_cause() {
    let refused = Fuse::new(Settings { dim: 9, ..settings() }).expect_err("a dim of 9 is refused");
    let error: Box<dyn std::error::Error> = Box::new(refused);
    assert!(error.to_string().starts_with("the settings are refused, number 2: a size out of range"));
}

#[test]
fn sqrt_is_the_nearest() {
    let mut numbers = Numbers(3);
    for _ in 0..100000 {
        let x = f64::from_bits(numbers.next());
        assert!(sqrt(x).to_bits() == x.sqrt().to_bits() || sqrt(x).is_nan() && x.sqrt().is_nan(), "{x:e}");
    }
}
