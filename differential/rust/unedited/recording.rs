//! lictor-detect as the unedited fuse.rs sees it: every call goes to the published detectors, and what they answered is
//! kept for the outcome record.

use std::cell::Cell;

use lictor_core::NFEAT;

pub use detectors::window;

/// What the calls of one tick answered.
#[derive(Clone, Copy, Default)]
pub struct Recorded {
    pub trips: u32,
    pub clamped_dims: u32,
    pub feasible: bool,
    pub margin: f64,
    pub s: f64,
    /// None if `features` was not called
    pub valid: Option<u32>,
    pub fired: u32,
    pub z: [f64; NFEAT],
    pub calls: u32,
}

thread_local! {
    static NOW: Cell<Recorded> = const {
        Cell::new(Recorded {
            trips: 0,
            clamped_dims: 0,
            feasible: false,
            margin: 0.0,
            s: 0.0,
            valid: None,
            fired: 0,
            z: [0.0; NFEAT],
            calls: 0,
        })
    };
}

/// What was recorded since the last call.
pub fn take() -> Recorded {
    NOW.take()
}

fn record(write: impl FnOnce(&mut Recorded)) {
    let mut now = NOW.get();
    write(&mut now);
    now.calls += 1;
    NOW.set(now);
}

pub mod tier0 {
    use detectors::tier0;
    use lictor_core::{ChunkBuf, ChunkView, FuseConfig, ObsView};

    fn keep(out: tier0::Tier0Out) -> tier0::Tier0Out {
        super::record(|now| {
            now.trips = out.trips;
            now.clamped_dims = out.clamped_dims;
        });
        out
    }

    pub fn check_chunk(c: &FuseConfig, obs: ObsView<'_>, ch: ChunkView<'_>, out: &mut ChunkBuf) -> tier0::Tier0Out {
        keep(tier0::check_chunk(c, obs, ch, out))
    }

    pub fn check_action(
        cfg: &FuseConfig,
        obs: ObsView<'_>,
        prev: &[f64],
        a: &[f64],
        out: &mut [f64],
    ) -> tier0::Tier0Out {
        keep(tier0::check_action(cfg, obs, prev, a, out))
    }
}

pub mod brake {
    use detectors::brake;
    pub use detectors::brake::{brake_action, hold_action, BrakeOut};
    use lictor_core::{ChunkView, FuseConfig};

    pub fn brake_feasible(cfg: &FuseConfig, p: &[f64], v: &[f64], ch: ChunkView<'_>, from: usize) -> BrakeOut {
        let out = brake::brake_feasible(cfg, p, v, ch, from);
        super::record(|now| {
            now.feasible = out.feasible;
            now.margin = out.margin;
        });
        out
    }
}

pub mod tier1 {
    use detectors::tier1;
    pub use detectors::tier1::Tier1Rt;
    use lictor_core::{ChunkView, FuseConfig, ObsView, Scores};

    pub fn features(
        cfg: &FuseConfig,
        rt: &mut Tier1Rt,
        obs: ObsView<'_>,
        chunk: Option<ChunkView<'_>>,
        idx: u16,
        sc: &mut Scores,
    ) {
        tier1::features(cfg, rt, obs, chunk, idx, sc);
        super::record(|now| now.valid = Some(sc.valid));
    }
}

pub mod conformal {
    use detectors::conformal;
    pub use detectors::conformal::trip;
    use lictor_core::{CalibrationC, Scores};

    pub fn standardise(cal: &CalibrationC, t: u32, sc: &mut Scores) {
        conformal::standardise(cal, t, sc);
        super::record(|now| now.z = sc.z);
    }

    pub fn aggregate(cal: &CalibrationC, sc: &mut Scores) -> f64 {
        let s = conformal::aggregate(cal, sc);
        super::record(|now| {
            now.s = s;
            now.fired = sc.fired;
        });
        s
    }
}
