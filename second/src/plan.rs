//! Replays to make, each told by seven numbers, and the list of those that the program `sequences`
//! makes too.

use crate::geometry::Geometry;
use crate::replay::Replay;
use crate::variant::Variant;

/// A replay to make.
#[derive(Clone, Copy, Debug)]
pub struct Plan {
    pub geometry: Geometry,
    pub seed: u32,
    pub calls: usize,
    pub interval: usize,
    pub damage: Option<usize>,
}

/// The list: H, k, l, the seed, the calls, the interval, and the damage (0 for none). The longest
/// comes last.
pub const LIST: [[u32; 7]; 12] = [
    [1, 2, 2, 7, 2_000, 500, 0],
    [1, 2, 4, 7, 2_000, 500, 0],
    [4, 2, 3, 7, 4_000, 1_000, 0],
    [21, 2, 2, 7, 4_000, 1_000, 0],
    [10, 4, 3, 7, 6_000, 1_000, 0],
    [16, 4, 3, 7, 6_000, 1_000, 0],
    [1, 2, 2, 11, 1_400, 100, 20],
    [4, 2, 3, 11, 1_400, 100, 60],
    [21, 2, 2, 12, 2_000, 200, 100],
    [10, 4, 3, 11, 2_400, 200, 200],
    [16, 4, 3, 11, 2_400, 200, 400],
    [64, 8, 4, 7, 14_000, 2_000, 0],
];

impl Plan {
    /// The plan of seven numbers, or none if the geometry is outside its ranges.
    pub fn of(numbers: [u32; 7]) -> Option<Plan> {
        let [head, ratio, levels, seed, calls, interval, damage] = numbers;
        Some(Plan {
            geometry: Geometry::new(head, ratio, levels)?,
            seed,
            calls: calls as usize,
            interval: interval as usize,
            damage: (damage > 0).then_some(damage as usize),
        })
    }

    /// The replay before its first call.
    pub fn begin(&self, variant: Variant) -> Replay {
        Replay::new(variant, self.geometry, self.seed, self.damage)
    }

    /// What the replay prints: a line `replay H,k,l seed S`, then its lines of digests.
    pub fn text(&self, variant: Variant) -> String {
        let lines = self.begin(variant).lines(self.calls, self.interval);
        format!(
            "replay {} seed {}\n{}\n",
            self.geometry,
            self.seed,
            lines.join("\n"),
        )
    }
}
