//! The times of updates that merge, by the deepest level merged into, and the worst single call.

use std::time::Instant;

use second::geometry::Geometry;

use crate::clock::Times;
use crate::index::{Index, Lent, Library, Peer};
use crate::trace::{Update, Values};

/// The merges into a level that are timed at most, spread over the trace.
const TIMED: usize = 6;
/// How often each is timed; the fastest counts.
const REPEATS: usize = 25;

/// Merges down to a level.
pub struct MergeTimes {
    pub level: usize,
    /// How many the trace has.
    pub merges: usize,
    /// The mean over those timed.
    pub times: Times,
}

/// The call that writes the most pages.
pub struct Worst {
    pub pages: u32,
    pub times: Times,
}

/// The store before an update that merges, the update, and what it returned.
struct Saved {
    before: Lent,
    update: Update,
    values: Values,
}

/// Times the merges of a trace, whose updates returned these values.
pub fn measure(
    geometry: Geometry,
    trace: &[Update],
    values: &[Values],
) -> (Vec<MergeTimes>, Worst) {
    let saved = save(geometry, trace, values);
    let mut all = Vec::new();
    let mut worst: Option<Worst> = None;
    for level in 1..geometry.levels() {
        let into = |values: &Values| values[1] as usize == level;
        let mut sum = Times {
            ours: 0.0,
            peers: 0.0,
        };
        let mut timed = 0.0;
        for saved in saved.iter().filter(|saved| into(&saved.values)) {
            let times = time(saved);
            sum.ours += times.ours;
            sum.peers += times.peers;
            timed += 1.0;
            let pages = saved.values[2];
            if worst.as_ref().is_none_or(|worst| pages >= worst.pages) {
                worst = Some(Worst { pages, times });
            }
        }
        all.push(MergeTimes {
            level,
            merges: values.iter().filter(|values| into(values)).count(),
            times: Times {
                ours: sum.ours / timed,
                peers: sum.peers / timed,
            },
        });
    }
    (all, worst.expect("a trace that merges"))
}

/// Runs the trace again, and saves the stores before the merges that are to be timed.
fn save(geometry: Geometry, trace: &[Update], values: &[Values]) -> Vec<Saved> {
    let mut timed = vec![false; trace.len()];
    for level in 1..geometry.levels() as u32 {
        let merges: Vec<usize> = (0..trace.len())
            .filter(|at| values[*at][1] == level)
            .collect();
        for at in merges
            .iter()
            .rev()
            .step_by(merges.len().div_ceil(TIMED).max(1))
        {
            timed[*at] = true;
        }
    }
    let mut lent = Lent::formatted(geometry);
    let mut saved = Vec::new();
    for (at, update) in trace.iter().enumerate() {
        if timed[at] {
            saved.push(Saved {
                before: lent.clone(),
                update: *update,
                values: values[at],
            });
        }
        update.make(&Peer, &mut lent);
    }
    saved
}

/// Times an update on its store, by the library and the peer in turn.
fn time(saved: &Saved) -> Times {
    let (mut ours, mut peers) = (saved.before.clone(), saved.before.clone());
    let mut times = Times {
        ours: f64::INFINITY,
        peers: f64::INFINITY,
    };
    for _ in 0..REPEATS {
        times.ours = times.ours.min(time_once(&Library, saved, &mut ours));
        times.peers = times.peers.min(time_once(&Peer, saved, &mut peers));
    }
    assert!(ours.store == peers.store && ours.work == peers.work);
    times
}

/// Nanoseconds of one update, on words that were written just before.
fn time_once(index: &impl Index, saved: &Saved, lent: &mut Lent) -> f64 {
    lent.store.copy_from_slice(&saved.before.store);
    lent.work.copy_from_slice(&saved.before.work);
    let start = Instant::now();
    let values = saved.update.make(index, lent);
    let time = start.elapsed();
    assert_eq!(values, saved.values);
    time.as_nanos() as f64
}
