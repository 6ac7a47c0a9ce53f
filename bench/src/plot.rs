//! The plot: times over the peer's, pages written, and growth, as one SVG picture.

use crate::report::{Measured, Report};

/// The size of the picture and of a panel's inside.
const WIDTH: f64 = 1080.0;
const HEIGHT: f64 = 360.0;
const PANEL: f64 = 270.0;
const TOP: f64 = 50.0;
const BOTTOM: f64 = 290.0;

/// Colours that are told apart without red and green.
const COLOURS: [&str; 6] = [
    "#0072b2", "#e69f00", "#009e73", "#cc79a7", "#56b4e9", "#d55e00",
];

/// Draws a report.
pub fn draw(report: &Report) -> String {
    let mut picture = Picture::default();
    ratios(&mut picture, 60.0, report);
    pages(&mut picture, 420.0, report);
    growth(&mut picture, 780.0, report);
    picture.finish()
}

/// The parts of a picture.
#[derive(Default)]
struct Picture {
    parts: Vec<String>,
}

impl Picture {
    /// A line.
    fn line(&mut self, from: (f64, f64), to: (f64, f64), style: &str) {
        self.parts.push(format!(
            r#"<line x1="{:.1}" y1="{:.1}" x2="{:.1}" y2="{:.1}" {style}/>"#,
            from.0, from.1, to.0, to.1
        ));
    }

    /// A dot of a colour.
    fn dot(&mut self, at: (f64, f64), colour: &str) {
        self.parts.push(format!(
            r#"<circle cx="{:.1}" cy="{:.1}" r="3" fill="{colour}" fill-opacity="0.8"/>"#,
            at.0, at.1
        ));
    }

    /// A bar from a height down to the panel's floor.
    fn bar(&mut self, at: (f64, f64), width: f64, colour: &str) {
        self.parts.push(format!(
            r#"<rect x="{:.1}" y="{:.1}" width="{width:.1}" height="{:.1}" fill="{colour}"/>"#,
            at.0,
            at.1,
            BOTTOM - at.1
        ));
    }

    /// A text, anchored at its start, middle or end.
    fn text(&mut self, at: (f64, f64), anchor: &str, text: &str) {
        self.parts.push(format!(
            r#"<text x="{:.1}" y="{:.1}" text-anchor="{anchor}">{text}</text>"#,
            at.0, at.1
        ));
    }

    /// A panel's title, and marks with lines across it.
    fn frame(&mut self, left: f64, title: &str, marks: &[(f64, String)]) {
        self.parts.push(format!(
            r#"<text x="{left}" y="26" font-size="14" font-weight="bold">{title}</text>"#
        ));
        for (height, mark) in marks {
            let (from, to) = ((left, *height), (left + PANEL, *height));
            self.line(from, to, r##"stroke="#dddddd""##);
            self.text((left - 6.0, height + 4.0), "end", mark);
        }
    }

    /// What each colour means, below a panel.
    fn legend(&mut self, left: f64, names: &[String]) {
        for (at, name) in names.iter().enumerate() {
            let x = left + 92.0 * (at % 3) as f64;
            let y = BOTTOM + 38.0 + 16.0 * (at / 3) as f64;
            self.dot((x, y - 4.0), COLOURS[at % COLOURS.len()]);
            self.text((x + 8.0, y), "start", name);
        }
    }

    /// The whole picture.
    fn finish(self) -> String {
        format!(
            concat!(
                r#"<svg xmlns="http://www.w3.org/2000/svg" viewBox="0 0 {} {}" "#,
                r#"font-family="sans-serif" font-size="10">"#,
                "\n",
                r#"<rect width="100%" height="100%" fill="white"/>"#,
                "\n{}\n</svg>\n"
            ),
            WIDTH,
            HEIGHT,
            self.parts.join("\n")
        )
    }
}

/// A scale from values to heights in a panel.
struct Scale {
    low: f64,
    high: f64,
    logarithmic: bool,
}

impl Scale {
    /// A scale by powers of ten around these values.
    fn powers(values: &[f64]) -> Scale {
        let low = values.iter().copied().fold(f64::INFINITY, f64::min);
        let high = values.iter().copied().fold(0.0, f64::max);
        Scale {
            low: low.log10().floor(),
            high: high.log10().ceil(),
            logarithmic: true,
        }
    }

    /// How far along a value is, from 0 to 1.
    fn part(&self, value: f64) -> f64 {
        let value = if self.logarithmic {
            value.log10()
        } else {
            value
        };
        ((value - self.low) / (self.high - self.low)).clamp(0.0, 1.0)
    }

    /// The height of a value.
    fn height(&self, value: f64) -> f64 {
        BOTTOM - (BOTTOM - TOP) * self.part(value)
    }

    /// Marks at the powers of ten, with a unit.
    fn marks(&self, name: impl Fn(f64) -> String) -> Vec<(f64, String)> {
        (self.low as i32..=self.high as i32)
            .map(|power| 10f64.powi(power))
            .map(|value| (self.height(value), name(value)))
            .collect()
    }
}

/// Times over the peer's, a dot for each geometry and fill level, and the targets.
fn ratios(picture: &mut Picture, left: f64, report: &Report) {
    let groups: [(&str, f64, Vec<f64>); 6] = [
        ("held", 1.0, report.ratios(|t| t.held.times.ratio())),
        ("not held", 1.0, report.ratios(|t| t.not_held.times.ratio())),
        ("put/drop", 1.1, report.ratios(|t| t.edit.ratio())),
        ("check", 1.2, report.ratios(|t| t.check.ratio())),
        ("list", 1.2, report.ratios(|t| t.list.ratio())),
        ("merge", 1.2, report.merge_ratios()),
    ];
    let all = groups.iter().flat_map(|group| &group.2);
    let high = all.copied().fold(1.5, f64::max).ceil();
    let scale = Scale {
        low: 0.0,
        high,
        logarithmic: false,
    };
    let marks: Vec<(f64, String)> = (0..=(2.0 * high) as u32)
        .map(|half| f64::from(half) / 2.0)
        .map(|value| (scale.height(value), format!("{value:.1}")))
        .collect();
    picture.frame(left, "Time over the safe-Rust peer's", &marks);
    let width = PANEL / groups.len() as f64;
    for (at, (name, target, values)) in groups.iter().enumerate() {
        let start = left + width * at as f64;
        let (from, to) = ((start + 4.0, scale.height(*target)), start + width - 4.0);
        let style = r#"stroke="black" stroke-dasharray="4 2""#;
        picture.line(from, (to, from.1), style);
        for (number, value) in values.iter().enumerate() {
            let x = start + width * (number as f64 + 1.0) / (values.len() as f64 + 1.0);
            picture.dot((x, scale.height(*value)), COLOURS[at]);
        }
        picture.text((start + width / 2.0, BOTTOM + 16.0), "middle", name);
    }
    picture.text(
        (left, BOTTOM + 38.0),
        "start",
        "A dot: a geometry and fill level. Dashes: the target.",
    );
}

/// Pages written for each random put, beside the tree and the allowance, and the runs that they are
/// written in.
fn pages(picture: &mut Picture, left: f64, report: &Report) {
    let each = |one: &Measured| {
        let pages = &one.puts;
        let counts = [pages.ours, pages.tree, pages.allowed, pages.our_runs];
        counts.map(|n| n as f64 / pages.updates as f64)
    };
    let values: Vec<[f64; 4]> = report.measured.iter().map(each).collect();
    let scale = Scale::powers(&values.concat());
    let marks = scale.marks(|value| format!("{value}"));
    picture.frame(left, "Pages written for each random put", &marks);
    let width = PANEL / values.len() as f64;
    for (at, one) in report.measured.iter().enumerate() {
        let start = left + width * at as f64;
        for (number, value) in values[at].iter().enumerate() {
            let bar = (width - 8.0) / 4.0;
            let place = (start + 4.0 + bar * number as f64, scale.height(*value));
            picture.bar(place, bar, COLOURS[number]);
        }
        let name = one.geometry.to_string();
        picture.text((start + width / 2.0, BOTTOM + 16.0), "middle", &name);
    }
    let names = ["index", "B+-tree", "allowed", "index, in runs"].map(String::from);
    picture.legend(left, &names);
}

/// Times as stores grow, at the highest fill level.
fn growth(picture: &mut Picture, left: f64, report: &Report) {
    let sizes = report.by_size();
    let names = [
        "ask",
        "BTreeSet",
        "put, drop",
        "check",
        "list",
        "worst call",
    ]
    .map(String::from);
    let lines: Vec<[f64; 6]> = sizes
        .iter()
        .filter_map(|one| {
            one.calls
                .last()
                .map(|(percent, calls)| (one, percent, calls))
        })
        .map(|(one, percent, calls)| {
            let pairs = (one.geometry.most() * percent / 100) as f64;
            [
                calls.held.times.ours,
                calls.held.set,
                calls.edit.ours,
                calls.check.ours,
                calls.list.ours * pairs,
                one.worst.times.ours,
            ]
        })
        .collect();
    let across = Scale::powers(
        &sizes
            .iter()
            .map(|one| one.geometry.most() as f64)
            .collect::<Vec<f64>>(),
    );
    let scale = Scale::powers(&lines.concat());
    let unit = |value: f64| match value {
        ..1e3 => format!("{value:.0} ns"),
        1e3..1e6 => format!("{:.0} us", value / 1e3),
        _ => format!("{:.0} ms", value / 1e6),
    };
    picture.frame(left, "Time of a call as stores grow", &scale.marks(unit));
    let x = |one: &Measured| left + PANEL * across.part(one.geometry.most() as f64);
    for name in 0..names.len() {
        let points: Vec<(f64, f64)> = sizes
            .iter()
            .zip(&lines)
            .map(|(one, line)| (x(one), scale.height(line[name])))
            .collect();
        let style = format!(r#"stroke="{}" stroke-width="1.5""#, COLOURS[name]);
        for two in points.windows(2) {
            picture.line(two[0], two[1], &style);
        }
        for point in points {
            picture.dot(point, COLOURS[name]);
        }
    }
    for power in across.low as i32..=across.high as i32 {
        let at = left + PANEL * across.part(10f64.powi(power));
        let mark = format!("{}", 10f64.powi(power));
        picture.text((at, BOTTOM + 16.0), "middle", &mark);
    }
    picture.legend(left, &names);
}
