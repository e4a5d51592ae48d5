//! The points of the coverage by name.

use crate::counts::Named;

/// A group whose points have names in the code too.
macro_rules! points {
    ($group:ident { $($point:ident $text:literal),* $(,)? }) => {
        #[derive(Clone, Copy)]
        #[allow(dead_code)] // some are reached by counting from another
        pub enum $group { $($point),* }

        impl From<$group> for usize {
            fn from(point: $group) -> usize {
                point as usize
            }
        }

        impl Named for $group {
            const NAMES: &'static [&'static str] = &[$($text),*];
        }
    };
}

pub const STATES: [&str; 9] =
    ["Idle", "Armed", "Watching", "Clamped", "Braking", "Held", "Escalated", "Fault", "Terminated"];
pub const MODES: [&str; 2] = [" in Observe", " in Enforce"];
pub const KINDS: [&str; 5] = ["EePosition", "EeDelta", "JointPosition", "JointVelocity", "Other"];

// The rows of fsm.rs by its own numbers, each with the state it starts from.
points!(Row {
    R1Idle "1 fault bit, from Idle", R1Armed "1 from Armed", R1Watching "1 from Watching",
    R1Clamped "1 from Clamped", R1Braking "1 from Braking", R1Held "1 from Held",
    R1Escalated "1 from Escalated", R1Fault "1 from Fault", R1Terminated "1 from Terminated",
    R2 "2 Terminated stays", R3 "3 Fault stays",
    R4 "4 Escalated, Abort", R5 "5 Escalated, Retune", R6 "6 Escalated, Resume",
    R7 "7 Escalated, timeout", R8 "8 Escalated, counts",
    R9 "9 Held, Resume", R10 "10 Held, Abort", R11 "11 Held, automatic rearm",
    R12Budget "12 Held escalates, rearm budget", R12Tier1 "12 Held escalates, predictive",
    R12Timeout "12 Held escalates, timeout", R13Clean "13 Held counts, clean", R13 "13 Held counts, not clean",
    R14Moving "14 Braking times out, moving", R14Still "14 Braking times out, standing still",
    R15 "15 Braking to Held", R16Still "16 Braking counts, standing still", R16Moving "16 Braking counts, moving",
    R17Armed "17 BRAKE, from Armed", R17Watching "17 from Watching", R17Clamped "17 from Clamped",
    R17bArmed "17b soft, clamping off, from Armed", R17bWatching "17b from Watching", R17bClamped "17b from Clamped",
    R18Armed "18 predictive, from Armed", R18Watching "18 from Watching", R18Clamped "18 from Clamped",
    R19Armed "19 clamp budget, from Armed", R19Watching "19 from Watching", R19Clamped "19 from Clamped",
    R20Armed "20 clamps, from Armed", R20Watching "20 from Watching", R20Clamped "20 from Clamped",
    R21Watching "21 clears, from Watching", R21Clamped "21 from Clamped",
    R22Armed "22 watch, from Armed", R22Watching "22 from Watching", R22Clamped "22 from Clamped",
    R23 "23 Armed stays", StayWatching "stay Watching", StayClamped "stay Clamped",
    Idle "Idle faults",
});

points!(Bits {
    B1 "128", B2 "256", B3 "128 + 256", B4 "512", B5 "128 + 512", B6 "256 + 512", B7 "128 + 256 + 512",
});

points!(Cause {
    NanPos "NONFINITE in pos", NanVel "in vel", NanAux "in aux", NanExt "in ext", NanChunk "in the chunk",
    Flag "SCHEMA: host's flag", Idx "idx not below horizon", PosLen "length of pos", VelLen "length of vel",
    AuxLen "more than 8 aux", ExtLen "more than 4 ext", HeadDim "head's dim", HeadHorizon "head's horizon",
    HeadExec "head's exec", ChunkLen "count of chunk values", ChunkSeq "chunk number", EmitLate "t_emit above t",
    IdxEmit "idx is not t - t_emit", NoChunk "no chunk, none filled", FirstT "first t not 0", WrongT "t not the next",
    NoNextT "no next t", Watchdog "WATCHDOG",
});

points!(Guard {
    AtLimit "missed is the watchdog limit: passes", Aux8 "8 aux: passes", Ext4 "4 ext: passes",
    FirstMissed "first tick with missed ticks: passes", IdxLast "idx is horizon - 1: passes",
    Chunk512 "chunk of 512 values: passes",
    PosTaken "fault tick takes the position", PosNotFinite "fault tick, position not finite",
    PosLength "fault tick, position of wrong length", WithChunk "fault tick with a chunk",
    WithAck "fault tick with an acceptable ack", AckAndOutcomeFault "acceptable ack, fault bit from the outcome",
    ChunkOkStays "fault tick after a good chunk", PendingStays "fault tick while a handoff is pending",
    WindowStays "fault tick with hits in the window",
});

points!(AckClass {
    Accepted ": accepted", Slot ": slot above 7", Handoff ": another handoff number", NonceEqual ": nonce as stored",
    NonceBelow ": nonce below", Several ": wrong in several ways",
});

points!(AckMore {
    ResumeAtH "Resume as the hold limit is reached", AbortAtH "Abort as the hold limit is reached",
    RetuneAtH "Retune as the hold limit is reached: escalates", RetuneAndRearm "Retune as an automatic rearm is due",
    ResumeAndRearm "Resume as an automatic rearm is due", AtE "accepted as the handoff limit is reached",
    IgnoredLater "accepted after the same ack was ignored", Slot7 "slot 7 accepted", NonceWide "nonce above 32 bits", NonceMax "nonce 2^64 - 1",
    HandoffAbove255 "handoff number above 255",
});

points!(Replay {
    ResetsBetween "spent, and two or more resets since", OtherDecision "spent, with another decision",
    OtherSlot "the same nonce from another slot: consumed", LastNonce "a slot whose last nonce was spent before the reset",
    KeptArmed "reset with a stored nonce, in Armed", KeptWatching "in Watching", KeptClamped "in Clamped",
    KeptBraking "in Braking", KeptHeld "in Held", KeptEscalated "in Escalated", KeptFault "in Fault",
    KeptTerminated "in Terminated",
});

points!(End {
    CleanRun "clean_run stays at 65535", Clamps "clamps stay at 65535", ClampsOver "clamps above limit 65534",
    Rearms "rearms stay at 255", Streak "clamp_streak 255", Stopped "stopped_ticks 254",
    BrakeTicks "brake_ticks 65535", HeldTicks "held_ticks 65535", HeldClean "held_clean 65535",
    RearmLast "automatic rearm at held_clean 65535", EscalatedTicks "escalated_ticks above 65535",
    Chunks "chunk number above 65535", Seq "seq above 65535", LastT "last t 4294967295", Auto255 "255 automatic rearms",
});

points!(Limit {
    B0 "B = 0", H0 "H = 0", E0 "E = 0", Confirm0 "confirm 0", Confirm1 "confirm 1", ConfirmMore "confirm above 1",
    Clear0 "clear 0 clears at once", ClearDirty "clears on a tick with a warning or hits", Streak0 "streak limit 0",
    Clamps0 "clamp limit 0, one clamp", ByStreak "row 19 by the streak alone", ByClamps "by clamps alone",
    ByBoth "by both", MaxRearms0 "rearm limit 0 escalates with 15", Budget "rearm limit used up by Resume",
    AckOnlyBudget "15 under AckOnly", RearmHold0 "rearm_hold 0", K0 "k = 0", KAbove64 "k above 64, 64 hits",
    KEqual "hits just k", KOneShort "hits one short of k", RearmPredictive "automatic rearm while predictive",
    RearmDirty "automatic rearm on a tick with a warning", ChunkNotOk "chunk with a trip blocks a rearm",
    MaskedSoft "soft trip that the settings mask", MaskedChunkOk "masked trip, chunk is ok",
    HardUnmasked "hard bit with tier0_enabled 0", StrayKept "trips above bit 15 kept", StrayMasked "and masked",
    StreakNoChunk "clamp without a chunk: streak stays", StreakKept "clean chunk keeps the streak",
    ResumeKeepsClamps "brakes again after a Resume: clamps kept",
});

points!(Odd {
    SNan "s NaN", SInf "s infinite", SMinusInf "s minus infinite", SIsTau "s = tau", SIsBand "s = tau - warn_margin",
    TauInf "tau infinite", TauMinusInf "tau minus infinite", WarnNegative "warn_margin below 0",
    PosSubnormal "position subnormal", PosNegZero "position -0", PosHuge "position above 1e300",
    VelOverflow "velocity overflows", VelNan "velocity NaN", VelSubnormal "velocity subnormal", VelNegZero "velocity -0",
    NormOverflow "norm of finite velocities overflows", NormSubnormal "sum of squares subnormal",
    FactorNan "brake factor of a NaN", FactorNanMoving "and no velocity is a NaN or infinite", FactorZero "brake factor 0, moving", FactorAbove1 "brake factor above 1",
    FactorInf "brake factor infinite", ActionInf "brake action infinite", ActionNegZero "action -0",
    HoldNegZero "hold +0, action -0", RowNan "row with NaN passed on", RowInf "row with infinity passed on",
    SNanAfter "s NaN after a number", MaxSAfterNan "max_s rises after a NaN", MaxSByFault "s NaN, then a fault tick",
    MaxSZero "max_s from +0 to -0", ZLiveNan "z NaN of a live channel", ZDead "z of a dead channel",
    ZDeadNan "z NaN of a dead channel",
    BoxNoZero "component from pos_dim on clamped away from 0", DtNegative "dt below 0", AMaxNegative "a_max below 0",
    InvDtZero "inv_dt 0", EpsNegative "v_stop_eps below 0", EpsZero "v_stop_eps 0", EpsEqual "speed just v_stop_eps",
});

points!(Margin {
    None "none on a clean tick", Far "+far", MinusFar "-far", FarByRounding "far by rounding", Last "999999",
    MinusLast "-999999", Zero "0", MinusZero "0 from below", Half "exact half", MinusHalf "exact half below 0",
    HalfUp "next above a half", HalfDown "next below a half", Plain "other", MinusPlain "other below 0",
    Infinite "infinite", Subnormal "subnormal",
});

points!(Velocity {
    Supplied "supplied", Difference "difference", First "0 on the first clean tick",
    FirstSupplied "supplied on the first", AfterFault "difference to a fault tick's position",
    FirstAfterFault "0 on the first clean tick, after a fault tick's position",
});

points!(Scored {
    Bit63 "window bit 63 set", Dropped "bit 63 dropped", Hits64 "64 hits", Holes "mask with holes", Mask0 "mask 0",
    Cleared "window cleared by the FSM on this tick", ValidUncalibrated "valid given, calibration mask 0",
    FiredDead "fired without valid", FiredHigh "fired above bit 11", ClampedDims "clamped_dims without a clamp",
    Rejected "chunk rejected", Accepted "chunk accepted", ChunkInFault "chunk taken in Fault",
    ChunkInTerminated "chunk taken in Terminated", FilledByIdle "chunk taken in Idle",
    FilledByFaultBit "chunk taken with a fault bit",
    FirstTripPlain "first trip with a reason that is no trip", HandoffTwice "second handoff of an episode",
});

points!(Shape {
    Empty "no record at all", NoTick "no tick", AfterReset "ticks, then a reset last", NoReset "ticks without a reset",
    LeftOver "records left over at the end", ThrownAway "reset throws records away",
});

points!(Refused {
    R1 "1", R2 "2", R3 "3", R4 "4", R5 "5", R6 "6", R7 "7", R8 "8", R9 "9", R10 "10",
});

points!(Width {
    Accepted "accepted", Zero "+0 accepted", MinusZero "-0 accepted", Waiting "accepted while records wait",
    Cut "cut by the end: 6", BeforeSettings "before settings: 8", Again "again: 9", AfterReset "after a reset: 9",
    AfterTick "after a tick: 9", AfterFaultTick "after a fault tick: 9", LateAndBad "late and bad: 9",
    Nan "NaN: 3", Infinite "infinite: 3", MinusInfinite "minus infinite: 3", BelowZero "below zero: 3",
});

// Of clean ticks under a width, by component.
points!(Wall {
    WithinHi "within by hi alone", WithinLo "within by lo alone", WithinBoth "within by both faces",
    NotWithin "inside and not within", OutHi "out above hi", OutLo "out below lo",
    OnHi "on hi", OnLo "on lo", NextInHi "next to hi, inside", NextInLo "next to lo, inside",
    NextOutHi "next to hi, outside", NextOutLo "next to lo, outside",
    WidthIsHi "W is the distance to hi: not within", WidthIsLo "W is the distance to lo: not within",
    RoundedUp "the distance is less than W and rounds to it: not within", RoundedDown "the distance is more and rounds to W",
    Overflows "a distance overflows", Flat "lo = hi, on it", MinusZeroApart "lo +0, hi -0: the distance is -0",
    ZeroOnFace "W = 0 on a face: not within", ZeroOut "W = 0: out",
    PastFault "out, a fault tick between", FaultElsewhere "out, a fault tick's position was outside too",
    FaultInside "no out: inside at a fault tick alone", FirstOutside "no out: the first clean tick",
    PastReset "no out: inside before the reset", StillOutside "no out: outside at the clean tick before",
    Back "inside again after out", BeforeReset "within before any reset", InFault "within in Fault",
    InTerminated "within in Terminated", OutcomeFault "within, with a fault bit of the outcome", Observe "out in Observe",
    One "a line with pos_dim 1", Eight "eight lines of one tick", Beyond "a component from pos_dim on would have a line",
    Both "within and out in one tick", NoWidth "no width, where a line would be",
});

/// The pairs of causes that one record can have, in the table's order.
pub const PAIRS: [(u8, u8); 16] = [
    (6, 8),
    (6, 9),
    (8, 1),
    (8, 3),
    (8, 10),
    (9, 1),
    (9, 2),
    (9, 3),
    (9, 4),
    (1, 2),
    (1, 3),
    (1, 4),
    (1, 10),
    (2, 3),
    (2, 4),
    (3, 4),
];
