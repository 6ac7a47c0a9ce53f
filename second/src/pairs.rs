//! How the pairs of a random store look.

use crate::slot::Pair;

/// A way to make pairs of numbers, different pairs of different numbers.
#[derive(Clone, Copy, Debug, PartialEq, Eq)]
pub enum Style {
    /// Badges count up, floor 0.
    Badges,
    /// More floors to a badge than a page has slots.
    Floors,
    /// All floors of one badge.
    OneBadge,
    /// Badges and floors scattered over 32 bits.
    Scattered,
    /// The greatest badges and floors.
    Greatest,
}

/// Every style.
pub const STYLES: [Style; 5] = [
    Style::Badges,
    Style::Floors,
    Style::OneBadge,
    Style::Scattered,
    Style::Greatest,
];

impl Style {
    /// The pair of a number.
    pub fn pair(&self, number: u32) -> Pair {
        let (badge, floor) = match self {
            Style::Badges => (number, 0),
            Style::Floors => (number / 50, number % 50),
            Style::OneBadge => (7, number),
            Style::Scattered => (
                number.wrapping_mul(2_654_435_761),
                number.wrapping_mul(40_503),
            ),
            Style::Greatest => (u32::MAX - number / 2, u32::MAX - number % 2),
        };
        Pair { badge, floor }
    }
}
