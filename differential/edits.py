"""The scripted edits that turn the published Rust into the reference of 01-scope.md.

Every file is taken as it was published, except chunk.rs (sizes), fuse.rs (the outcome record, and a name that is let out) and fmath.rs (a rule that is off
unless it is asked for). An edit replaces a text that must occur exactly once; where it does not, the build stops and says which
edit no longer fits.
"""

from typing import NamedTuple


class Edit(NamedTuple):
    file: str  # below the sources' crates/
    why: str
    old: str
    new: str


class EditError(Exception):
    pass


def apply(text: str, edit: Edit) -> str:
    found = text.count(edit.old)
    if found != 1:
        raise EditError(f"{edit.file}: {edit.why}: this text occurs {found} times, not once:\n{edit.old}")
    return text.replace(edit.old, edit.new)


CHUNK = "lictor-core/src/chunk.rs"
FUSE = "lictor-fuse/src/fuse.rs"
FMATH = "lictor-core/src/fmath.rs"

# 01-scope.md, first paragraph: 8 positions, 8 action components, 8 aux (horizon 64 and 4 ext are as published).
SIZES = [
    Edit(CHUNK, "8 action components", "pub const MAX_D: usize = 32;", "pub const MAX_D: usize = 8;"),
    Edit(CHUNK, "8 positions", "pub const MAX_POS: usize = 32;", "pub const MAX_POS: usize = 8;"),
    Edit(CHUNK, "8 aux", "pub const MAX_AUX: usize = 16;", "pub const MAX_AUX: usize = 8;"),
]

# 01-scope.md, second paragraph: the unported calls are replaced by the outcome record, `filled` stands for the chunk
# buffers, the trail is left out. (scores.f stays in its struct as zeros, and nothing shows it.)
OUTCOME = [
    Edit(
        FUSE,
        "the outcome record comes in with the tick",
        """    pub schema_fault: bool,
}""",
        """    pub schema_fault: bool,
    pub outcome: &'a outcome::Outcome,
}""",
    ),
    Edit(
        FUSE,
        "`filled` stands for the chunk buffers",
        """    pub cur: ChunkBuf,
    /// projection target
    pub scratch: ChunkBuf,
    pub t1: Tier1Rt,
""",
        """    pub filled: bool,
""",
    ),
    Edit(
        FUSE,
        "a new run state is not filled",
        """            cur: ChunkBuf::new(),
            scratch: ChunkBuf::new(),
            t1: Tier1Rt::new(),
""",
        """            filled: false,
""",
    ),
    Edit(
        FUSE,
        "reset clears `filled`",
        """        self.cur.clear();
        self.scratch.clear();
        self.t1.reset();
""",
        """        self.filled = false;
""",
    ),
    Edit(
        FUSE,
        "the guard asks `filled`",
        "None => schema |= !rt.cur.is_filled(),",
        "None => schema |= !rt.filled,",
    ),
    Edit(
        FUSE,
        "the trail is left out",
        """    rt.t1.trail.push(&rt.pos, pos_dim);
""",
        "",
    ),
    Edit(
        FUSE,
        "check_chunk and brake_feasible, on a tick with a chunk",
        """            let t0 = check_chunk(cfg, obs, ch, &mut rt.scratch);
            trips0 = t0.trips;
            clamped_dims = t0.clamped_dims;
            // The brake check runs on the projected chunk from the row executed THIS tick.
            brake = match rt.scratch.view() {
                Some(v) => brake_feasible(cfg, &rt.pos[..pos_dim], &rt.vel[..pos_dim], v, idx),
                None => BrakeOut { feasible: false, margin: f64::NEG_INFINITY, stop_dist: 0.0 },
            };
""",
        """            trips0 = inp.outcome.trips;
            clamped_dims = inp.outcome.clamped_dims;
            brake = BrakeOut { feasible: inp.outcome.feasible, margin: inp.outcome.margin, stop_dist: 0.0 };
""",
    ),
    Edit(
        FUSE,
        "a clean tick with a chunk sets `filled`",
        """            if observe {
                // Pass-through source: the RAW chunk, accepted or not.
                rt.cur.copy_from(ch);
            } else if let Some(v) = rt.scratch.view() {
                // The projection, accepted or rejected: `idx` indexes THIS chunk on the following ticks (see
                // the module doc); a rejected chunk never reaches the action while the FSM is stopping.
                rt.cur.copy_from(v);
            }
""",
        """            rt.filled = true;
""",
    ),
    Edit(
        FUSE,
        "check_action and brake_feasible, on a tick without a chunk",
        """            // Defensive: `cur` is filled (GUARD), and `scratch` was filled by the same delivery; keep them
            // shape-consistent even if a caller rebuilt `rt` by hand.
            if !rt.scratch.is_filled() {
                if let Some(v) = rt.cur.view() {
                    rt.scratch.copy_from(v);
                }
            }
            let (tr, cd, br) = match rt.cur.view() {
                Some(cv) => {
                    let t0 =
                        check_action(cfg, obs, &rt.last_cmd[..dim], cv.action(idx), rt.scratch.row_mut(idx));
                    let br = brake_feasible(cfg, &rt.pos[..pos_dim], &rt.vel[..pos_dim], cv, idx);
                    (t0.trips, t0.clamped_dims, br)
                }
                None => (0, 0, BrakeOut { feasible: false, margin: f64::NEG_INFINITY, stop_dist: 0.0 }),
            };
            trips0 = tr;
            clamped_dims = cd;
            brake = br;
""",
        """            trips0 = inp.outcome.trips;
            clamped_dims = inp.outcome.clamped_dims;
            brake = BrakeOut { feasible: inp.outcome.feasible, margin: inp.outcome.margin, stop_dist: 0.0 };
""",
    ),
    Edit(
        FUSE,
        "features, which writes `valid` alone (and is called only if the calibration mask is not 0)",
        """        features(cfg, &mut rt.t1, obs, inp.chunk, inp.idx, &mut sc);
""",
        """        sc.valid = inp.outcome.valid;
""",
    ),
    Edit(
        FUSE,
        "standardise, which writes z, and aggregate, which writes fired and s",
        """    standardise(&cfg.calib, t, &mut sc);
    let s = aggregate(&cfg.calib, &mut sc);
""",
        """    sc.z = inp.outcome.z;
    sc.fired = inp.outcome.fired;
    sc.s = inp.outcome.s;
    let s = sc.s;
""",
    ),
    Edit(
        FUSE,
        "the policy row",
        """    if let Some(v) = rt.cur.view() {
        copy_row(&mut policy_row[..dim], v.action(idx));
    }
""",
        """    copy_row(&mut policy_row[..dim], &inp.outcome.policy_row);
""",
    ),
    Edit(
        FUSE,
        "the clamped row",
        """    if let Some(v) = rt.scratch.view() {
        copy_row(&mut clamped_row[..dim], v.action(idx));
    }
""",
        """    copy_row(&mut clamped_row[..dim], &inp.outcome.clamped_row);
""",
    ),
]

# Ask 7 of 02-change-requests.md: whether a tick is clean is what the guard found, and a verdict does not always tell.
# The compiler puts the guard into its caller also without the word `inline`, as long as nothing else calls it.
GUARD = [
    Edit(
        FUSE,
        "the guard can be asked by itself, and is compiled as before",
        "fn guard(cfg: &FuseConfig, rt: &FuseRt, inp: &TickInput<'_>) -> u32 {",
        "#[inline(always)]\npub fn guard(cfg: &FuseConfig, rt: &FuseRt, inp: &TickInput<'_>) -> u32 {",
    ),
]

REFERENCE = SIZES + OUTCOME + GUARD

# Rules that are turned on by name (rust/rules) and are off otherwise. Where speed is measured they are left out.
RULES = [
    Edit(
        FMATH,
        "the larger of a number and a NaN is the number, by the rule max-ignores-nan",
        """    if a > b {
        a
    } else {""",
        """    if a > b {
        a
    } else if b.is_nan() && !a.is_nan() && rules::applies(rules::Rule::MaxIgnoresNan) {
        a
    } else {""",
    ),
]
