//! Schedule texts of every kind, from a seed.

mod damage;
mod noise;
mod script;

pub use script::{Cast, Script};

use crate::rng::Rng;
use crate::text::{Choice, TEXT_LIMIT};

#[derive(Clone, Copy, PartialEq, Eq, Debug)]
pub enum Kind {
    /// Few tasks and variables, so that they meet often.
    Conflict,
    /// Over all tasks and variables, also those that there aren't, with extreme values.
    Wide,
    /// Up to the longest text.
    Long,
    /// At and around the longest text, byte for byte.
    Edge,
    /// Lines that lack the form among others.
    DamagedLines,
    /// First lines that name no policy, or just do.
    FirstLine,
    /// Good texts with bytes changed, put in or taken out.
    Mutated,
    /// Arbitrary bytes.
    Noise,
}

impl Kind {
    pub const ALL: [Self; 8] = [
        Self::Conflict,
        Self::Wide,
        Self::Long,
        Self::Edge,
        Self::DamagedLines,
        Self::FirstLine,
        Self::Mutated,
        Self::Noise,
    ];

    const WEIGHTS: [(Self, usize); 8] = [
        (Self::Conflict, 300),
        (Self::Wide, 150),
        (Self::Long, 5),
        (Self::Edge, 5),
        (Self::DamagedLines, 250),
        (Self::FirstLine, 60),
        (Self::Mutated, 150),
        (Self::Noise, 80),
    ];

    pub fn any(rng: &mut Rng) -> Self {
        rng.weighted(&Self::WEIGHTS)
    }

    /// Whether every line of such a text has the form.
    pub fn is_well_formed(self) -> bool {
        matches!(self, Self::Conflict | Self::Wide | Self::Long)
    }

    pub fn name(self) -> &'static str {
        match self {
            Self::Conflict => "conflicts",
            Self::Wide => "all tasks and variables",
            Self::Long => "long",
            Self::Edge => "around 60,000 bytes",
            Self::DamagedLines => "damaged lines",
            Self::FirstLine => "first lines",
            Self::Mutated => "changed bytes",
            Self::Noise => "noise",
        }
    }
}

/// A text of the kind.
pub fn text(kind: Kind, rng: &mut Rng) -> Vec<u8> {
    match kind {
        Kind::Conflict => conflict(rng),
        Kind::Wide => {
            let lines = rng.between(10, 120);
            script::lines(Cast::wide(), lines, rng)
        }
        Kind::Long => long(rng),
        Kind::Edge => edge(rng),
        Kind::DamagedLines => damage::damaged(rng),
        Kind::FirstLine => damage::first_line(rng),
        Kind::Mutated => damage::mutated(rng),
        Kind::Noise => noise::noise(rng),
    }
}

fn conflict(rng: &mut Rng) -> Vec<u8> {
    let lines = rng.between(8, 60);
    let cast = Cast::few(rng);
    script::lines(cast, lines, rng)
}

fn long(rng: &mut Rng) -> Vec<u8> {
    let cast = if rng.percent(50) { Cast::few(rng) } else { Cast::wide() };
    let size = rng.between(TEXT_LIMIT / 4, TEXT_LIMIT);
    let mut text = script::lines(cast, size / 4, rng);
    let end = text[..size.min(text.len())].iter().rposition(|&byte| byte == b'\n');
    text.truncate(end.map_or(0, |place| place + 1));
    text
}

/// A text of exactly the size at which texts are refused, or near it.
fn edge(rng: &mut Rng) -> Vec<u8> {
    let size = match rng.below(6) {
        0 => TEXT_LIMIT - 1,
        1 | 2 => TEXT_LIMIT,
        3 => TEXT_LIMIT + 1,
        4 => TEXT_LIMIT + 2,
        _ => TEXT_LIMIT + rng.below(90_000),
    };
    let mut text = head(rng);
    match rng.below(8) {
        0 => text.resize(size, b'\n'),
        1 => text.resize(size, b' '),
        2 => text.resize(size, b'7'),
        _ => script::fill(&mut text, size, rng),
    }
    debug_assert_eq!(text.len(), size);
    text
}

/// A first line that names a policy.
fn head(rng: &mut Rng) -> Vec<u8> {
    let mut line = rng.pick(&Choice::ALL).name().as_bytes().to_vec();
    line.push(b'\n');
    line
}

#[cfg(test)]
mod tests;
