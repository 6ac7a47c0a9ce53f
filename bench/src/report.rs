//! What was measured, told in tables, and the targets.

use second::geometry::Geometry;
use stack_gate::calls::{bound, OTHER, QUESTION};
use stack_gate::computed::Computed;

use crate::calls::CallTimes;
use crate::merges::{MergeTimes, Worst};
use crate::pages::Pages;
use crate::stack::{Depths, CALLS};
use crate::table::{ratio, time, Table};

/// What was measured on stores of one geometry.
pub struct Measured {
    pub geometry: Geometry,
    /// By how many hundredths of M were held.
    pub calls: Vec<(usize, CallTimes)>,
    pub merges: Vec<MergeTimes>,
    pub worst: Worst,
    pub puts: Pages,
    pub turnover: Pages,
}

/// Everything that a run measures.
pub struct Report {
    pub measured: Vec<Measured>,
    pub depths: Depths,
    /// The deepest stack of each call, from the library's machine code.
    pub computed: Vec<Computed>,
    pub code_bytes: u64,
}

/// A target: what is measured, at most or at least how much, and what it came to at its worst.
pub struct Target {
    pub name: &'static str,
    pub limit: f64,
    pub worst: f64,
    pub at_least: bool,
}

impl Target {
    /// Whether the target is met.
    pub fn met(&self) -> bool {
        if self.at_least {
            self.worst >= self.limit
        } else {
            self.worst <= self.limit
        }
    }
}

impl Report {
    /// The ratios of one kind of call over all geometries and fill levels.
    pub fn ratios(&self, of: impl Fn(&CallTimes) -> f64) -> Vec<f64> {
        let calls = self.measured.iter().flat_map(|one| &one.calls);
        calls.map(|(_, times)| of(times)).collect()
    }

    /// The ratios of merges, one a geometry and level.
    pub fn merge_ratios(&self) -> Vec<f64> {
        let merges = self.measured.iter().flat_map(|one| &one.merges);
        merges.map(|merge| merge.times.ratio()).collect()
    }

    /// The targets.
    pub fn targets(&self) -> Vec<Target> {
        let greatest = |ratios: Vec<f64>| ratios.into_iter().fold(0.0, f64::max);
        let at_most = |name, limit, worst| Target {
            name,
            limit,
            worst,
            at_least: false,
        };
        let asks = [
            self.ratios(|times| times.held.times.ratio()),
            self.ratios(|times| times.not_held.times.ratio()),
        ];
        let largest = self.measured.iter().max_by_key(|one| one.geometry.most());
        let fewer = largest.map_or(0.0, |one| one.puts.fewer());
        let mut targets = vec![
            at_most("ask, over the peer", 1.0, greatest(asks.concat())),
            at_most(
                "put or drop without a merge, over the peer",
                1.1,
                greatest(self.ratios(|times| times.edit.ratio())),
            ),
            at_most(
                "check, over the peer",
                1.2,
                greatest(self.ratios(|times| times.check.ratio())),
            ),
            at_most(
                "list, over the peer",
                1.2,
                greatest(self.ratios(|times| times.list.ratio())),
            ),
            at_most(
                "update with a merge, over the peer",
                1.2,
                greatest(self.merge_ratios()),
            ),
            Target {
                name: "times fewer pages than the B+-tree, random puts, largest store",
                limit: 5.0,
                worst: fewer,
                at_least: true,
            },
        ];
        targets.extend(self.stack_targets());
        targets
    }

    /// The bounds of the stack gate, and the deepest computed stack of the calls that each is for.
    fn stack_targets(&self) -> [Target; 2] {
        let names = [
            ("stack of ask and why, bytes", QUESTION),
            ("stack of every other call, bytes", OTHER),
        ];
        names.map(|(name, most)| {
            let computed = self.computed.iter();
            let held = computed.filter(|call| bound(call.name) == Some(most));
            let deepest = held.map(|call| call.bytes).max().unwrap_or(0);
            Target {
                name,
                limit: most as f64,
                worst: deepest as f64,
                at_least: false,
            }
        })
    }

    /// All tables, each below its heading.
    pub fn tables(&self) -> String {
        let parts = [
            ("Targets", self.target_table()),
            ("Ask", self.ask_table()),
            (
                "Put, drop, check and list without a merge",
                self.call_table(),
            ),
            ("Updates that merge", self.merge_table()),
            ("Pages written for each update", self.page_table()),
            ("The worst single call", self.worst_table()),
            ("Growth with the store", self.growth_table()),
            ("Stack", self.stack_table()),
        ];
        let mut text = String::new();
        for (heading, table) in parts {
            text += &format!("## {heading}\n\n{table}\n");
        }
        text + &format!("Code of the static library: {} bytes.\n", self.code_bytes)
    }

    /// Each target and whether it is met at its worst.
    fn target_table(&self) -> Table {
        let mut table = Table::new(&["target", "limit", "at its worst", "met"]);
        for target in self.targets() {
            let sign = if target.at_least { ">=" } else { "<=" };
            let met = if target.met() { "yes" } else { "no" };
            table.add(vec![
                target.name.to_string(),
                format!("{sign} {}", target.limit),
                ratio(target.worst),
                met.to_string(),
            ]);
        }
        table
    }

    /// Asks beside the peer and the collections.
    fn ask_table(&self) -> Table {
        let mut table = Table::new(&[
            "H,k,l",
            "full",
            "held",
            "/ peer",
            "/ BTreeSet",
            "/ Vec",
            "not held",
            "/ peer",
            "/ BTreeSet",
            "/ Vec",
        ]);
        for one in &self.measured {
            for (percent, calls) in &one.calls {
                let mut row = vec![one.geometry.to_string(), format!("{percent}%")];
                for ask in [calls.held, calls.not_held] {
                    let ours = ask.times.ours;
                    row.push(time(ours));
                    row.push(ratio(ask.times.ratio()));
                    row.push(ratio(ours / ask.set));
                    row.push(ratio(ours / ask.vec));
                }
                table.add(row);
            }
        }
        table
    }

    /// The other calls that do not merge, beside the peer.
    fn call_table(&self) -> Table {
        let mut table = Table::new(&[
            "H,k,l",
            "full",
            "put or drop",
            "/ peer",
            "check",
            "/ peer",
            "list, a pair",
            "/ peer",
        ]);
        for one in &self.measured {
            for (percent, calls) in &one.calls {
                let mut row = vec![one.geometry.to_string(), format!("{percent}%")];
                for times in [calls.edit, calls.check, calls.list] {
                    row.push(time(times.ours));
                    row.push(ratio(times.ratio()));
                }
                table.add(row);
            }
        }
        table
    }

    /// Updates that merge, by the deepest level merged into.
    fn merge_table(&self) -> Table {
        let mut table = Table::new(&["H,k,l", "down to level", "of the puts", "time", "/ peer"]);
        for one in &self.measured {
            for merge in &one.merges {
                table.add(vec![
                    one.geometry.to_string(),
                    merge.level.to_string(),
                    format!("{} of {}", merge.merges, one.puts.updates),
                    time(merge.times.ours),
                    ratio(merge.times.ratio()),
                ]);
            }
        }
        table
    }

    /// Pages written, beside the B+-tree and the allowance.
    fn page_table(&self) -> Table {
        let mut table = Table::new(&[
            "H,k,l",
            "updates",
            "index",
            "B+-tree",
            "times fewer",
            "allowed",
            "of it used",
            "runs",
            "B+-tree",
            "times fewer",
        ]);
        for one in &self.measured {
            for (name, pages) in [("puts", &one.puts), ("turnover", &one.turnover)] {
                let each =
                    |pages: usize, updates: usize| format!("{:.3}", pages as f64 / updates as f64);
                table.add(vec![
                    one.geometry.to_string(),
                    format!("{} {name}", pages.updates),
                    each(pages.ours, pages.updates),
                    each(pages.tree, pages.updates),
                    ratio(pages.fewer()),
                    each(pages.allowed, pages.updates),
                    format!("{}%", 100 * pages.ours / pages.allowed.max(1)),
                    each(pages.our_runs, pages.updates),
                    each(pages.tree_runs, pages.updates),
                    ratio(pages.tree_runs as f64 / pages.our_runs as f64),
                ]);
            }
        }
        table
    }

    /// The call that writes the most pages, beside a call without a merge.
    fn worst_table(&self) -> Table {
        let mut table = Table::new(&["H,k,l", "pages", "time", "/ peer", "/ put without a merge"]);
        for one in &self.measured {
            let edit = one.calls.last().map_or(1.0, |(_, calls)| calls.edit.ours);
            table.add(vec![
                one.geometry.to_string(),
                one.worst.pages.to_string(),
                time(one.worst.times.ours),
                ratio(one.worst.times.ratio()),
                format!("{:.0}", one.worst.times.ours / edit),
            ]);
        }
        table
    }

    /// Each call's time as stores grow, at the highest fill level.
    fn growth_table(&self) -> Table {
        let mut table = Table::new(&[
            "M",
            "store words",
            "ask",
            "BTreeSet",
            "Vec",
            "put or drop",
            "check, a pair",
            "list, a pair",
            "worst call, a pair",
        ]);
        for one in self.by_size() {
            let Some((percent, calls)) = one.calls.last() else {
                continue;
            };
            let most = one.geometry.most() as f64;
            let pairs = most * *percent as f64 / 100.0;
            table.add(vec![
                one.geometry.most().to_string(),
                one.geometry.store_words().to_string(),
                time(calls.held.times.ours),
                time(calls.held.set),
                time(calls.held.vec),
                time(calls.edit.ours),
                time(calls.check.ours / pairs),
                time(calls.list.ours),
                time(one.worst.times.ours / most),
            ]);
        }
        table
    }

    /// What was measured, from the smallest store to the largest.
    pub fn by_size(&self) -> Vec<&Measured> {
        let mut all: Vec<&Measured> = self.measured.iter().collect();
        all.sort_by_key(|one| one.geometry.most());
        all
    }

    /// The deepest stack of each call.
    fn stack_table(&self) -> Table {
        let mut table = Table::new(&["call", "painted", "computed", "at most", "peer's painted"]);
        for (at, call) in CALLS.iter().enumerate() {
            let computed = self.computed.iter().find(|one| one.name == *call);
            let bytes = |bytes: Option<u64>| bytes.map_or("-".to_string(), |n| n.to_string());
            table.add(vec![
                call.to_string(),
                self.depths.ours[at].to_string(),
                bytes(computed.map(|one| one.bytes)),
                bytes(bound(call)),
                bytes(Some(self.depths.peers[at] as u64).filter(|n| *n > 0)),
            ]);
        }
        table
    }
}
