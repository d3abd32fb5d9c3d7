//! Texts that are damaged.

use super::{Cast, Script, conflict, head, script};
use crate::rng::Rng;
use crate::text::Choice;

/// A way to damage a line or one of its fields.
#[derive(Clone, Copy)]
enum Damage {
    WrongLetter,
    LowerCase,
    DoubledLetter,
    MissingField,
    MissingTail,
    ExtraField,
    EmptyField,
    LeadingZero,
    Plus,
    Minus,
    LoneMinus,
    MinusZero,
    OutOfRange,
    ManyDigits,
    StrangeByte,
    SpaceInField,
    Tabs,
    LeadingSpace,
    TrailingSpace,
    CarriageReturn,
    NoSpaces,
    NothingLeft,
}

const DAMAGES: [Damage; 22] = [
    Damage::WrongLetter,
    Damage::LowerCase,
    Damage::DoubledLetter,
    Damage::MissingField,
    Damage::MissingTail,
    Damage::ExtraField,
    Damage::EmptyField,
    Damage::LeadingZero,
    Damage::Plus,
    Damage::Minus,
    Damage::LoneMinus,
    Damage::MinusZero,
    Damage::OutOfRange,
    Damage::ManyDigits,
    Damage::StrangeByte,
    Damage::SpaceInField,
    Damage::Tabs,
    Damage::LeadingSpace,
    Damage::TrailingSpace,
    Damage::CarriageReturn,
    Damage::NoSpaces,
    Damage::NothingLeft,
];

/// Numbers at and beyond the limits of every field, and where narrower numbers would wrap.
const NUMBERS: [&str; 22] = [
    "255",
    "256",
    "257",
    "260",
    "300",
    "999",
    "1000",
    "65536",
    "65541",
    "2147483647",
    "2147483648",
    "2147483650",
    "4294967295",
    "4294967296",
    "4294967301",
    "9999999999",
    "18446744073709551615",
    "18446744073709551616",
    "18446744073709551621",
    "-2147483648",
    "-2147483649",
    "-4294967295",
];

const STRANGE: [u8; 16] =
    [0, 9, 11, 12, 13, b'/', b':', b'.', b',', b'x', 0x7f, 0x80, 0xa0, 0xb2, 0xc3, 0xff];

/// A text with damaged lines, or with damaged line ends.
pub fn damaged(rng: &mut Rng) -> Vec<u8> {
    let mut text = head(rng);
    let mut script = Script::new(if rng.percent(70) { Cast::few(rng) } else { Cast::wide() });
    let share = rng.pick(&[5, 20, 60, 100]);
    for _ in 0..rng.between(3, 50) {
        let line = script.next(rng).to_string();
        if rng.percent(share) {
            text.extend(damaged_line(&line, rng));
        } else {
            text.extend_from_slice(line.as_bytes());
        }
        text.push(b'\n');
    }
    damage_ends(&mut text, rng);
    text
}

fn damage_ends(text: &mut Vec<u8>, rng: &mut Rng) {
    match rng.below(12) {
        0..3 => drop(text.pop()),
        3 => text.push(b'\n'),
        4 => text.extend_from_slice(b"\n\n\n"),
        5 => text.extend_from_slice(b"\0"),
        6 => {
            let first_line = text.iter().position(|&byte| byte == b'\n').map_or(0, |end| end + 1);
            let all = rng.percent(50);
            let tail = text.split_off(if all { 0 } else { first_line });
            text.extend(with_carriage_returns(&tail));
        }
        _ => {}
    }
}

fn with_carriage_returns(text: &[u8]) -> Vec<u8> {
    let ended = |&byte: &u8| if byte == b'\n' { vec![b'\r', b'\n'] } else { vec![byte] };
    text.iter().flat_map(ended).collect()
}

fn damaged_line(line: &str, rng: &mut Rng) -> Vec<u8> {
    let mut fields: Vec<Vec<u8>> = line.split(' ').map(|field| field.into()).collect();
    for _ in 0..rng.pick(&[1, 1, 1, 2, 3]) {
        if fields.is_empty() {
            break;
        }
        let damage = rng.pick(&DAMAGES);
        let place = rng.below(fields.len());
        if let Some(line) = damage_line(damage, &mut fields, place, rng) {
            return line;
        }
        if let Some(field) = fields.get_mut(place) {
            damage_field(damage, field, rng);
        }
    }
    fields.join(&b' ')
}

/// Damages which fields there are, or the whole line.
fn damage_line(
    damage: Damage,
    fields: &mut Vec<Vec<u8>>,
    place: usize,
    rng: &mut Rng,
) -> Option<Vec<u8>> {
    let with = |separator: &[u8]| Some(fields.join(separator));
    match damage {
        Damage::Tabs => return with(b"\t"),
        Damage::NoSpaces => return with(b""),
        Damage::NothingLeft => return Some(Vec::new()),
        Damage::LeadingSpace => fields.insert(0, Vec::new()),
        Damage::TrailingSpace => fields.push(Vec::new()),
        Damage::EmptyField => fields.insert(place, Vec::new()),
        Damage::ExtraField => fields.insert(place + 1, number(rng).into()),
        Damage::MissingField => drop(fields.remove(place)),
        Damage::MissingTail => fields.truncate(place),
        Damage::CarriageReturn => fields.last_mut()?.push(b'\r'),
        _ => {}
    }
    None
}

/// Damages the bytes of a field.
fn damage_field(damage: Damage, field: &mut Vec<u8>, rng: &mut Rng) {
    match damage {
        Damage::WrongLetter => *field = vec![rng.pick(b"DXbQSVEFZ0@[ASW")],
        Damage::LowerCase => field.make_ascii_lowercase(),
        Damage::DoubledLetter => field.extend_from_within(..),
        Damage::LeadingZero => field.insert(0, b'0'),
        Damage::Plus => field.insert(0, b'+'),
        Damage::Minus => field.insert(0, b'-'),
        Damage::LoneMinus => *field = b"-".to_vec(),
        Damage::MinusZero => *field = b"-0".to_vec(),
        Damage::OutOfRange => *field = number(rng).into(),
        Damage::ManyDigits => *field = many_digits(rng),
        Damage::StrangeByte => field.insert(rng.below(field.len() + 1), rng.pick(&STRANGE)),
        Damage::SpaceInField => field.insert(rng.below(field.len() + 1), b' '),
        _ => {}
    }
}

fn number(rng: &mut Rng) -> &'static str {
    if rng.percent(30) { rng.pick(&["0", "1", "5", "7", "63"]) } else { rng.pick(&NUMBERS) }
}

/// Tens to hundreds of digits, some of which would wrap to a small number.
fn many_digits(rng: &mut Rng) -> Vec<u8> {
    let length = rng.pick(&[10, 11, 20, 40, 300]);
    let first = rng.pick(b"-0123459");
    let rest = match rng.below(3) {
        0 => vec![b'0'; length],
        1 => vec![b'9'; length],
        _ => (0..length).map(|_| rng.pick(b"0123456789")).collect(),
    };
    [vec![first], rest].concat()
}

const FIRST_LINES: [&[u8]; 32] = [
    b"",
    b" ",
    b"Lock",
    b"LOCK",
    b"lock ",
    b" lock",
    b"lock\r",
    b"lock\0",
    b"lock\t",
    b"loc",
    b"lockk",
    b"own ",
    b"Own",
    b"owned",
    b"clock ",
    b"clock 0",
    b"clocks",
    b"eager",
    b"eager ",
    b"eager  lock",
    b"eager\tlock",
    b"eagerlock",
    b"Eager own",
    b"eager Own",
    b"eager eager lock",
    b"eager clock ",
    b" eager clock",
    b"eager clock\r",
    b"\xefeager own",
    b"own\xff",
    b"B 0",
    b"lock own",
];

/// A text whose first line is wrong, or just right.
pub fn first_line(rng: &mut Rng) -> Vec<u8> {
    let mut line = match rng.below(3) {
        0 => rng.pick(&Choice::ALL).name().as_bytes().to_vec(),
        _ => rng.pick(&FIRST_LINES).to_vec(),
    };
    if rng.percent(25) {
        change(&mut line, rng);
    }
    let lines = rng.below(6);
    let good = script::lines(Cast::few(rng), lines, rng);
    let behind = good.iter().position(|&byte| byte == b'\n').unwrap_or(good.len());
    let behind = if rng.percent(80) { &good[behind..] } else { &[] };
    [&line, behind].concat()
}

/// A good text with some bytes changed.
pub fn mutated(rng: &mut Rng) -> Vec<u8> {
    let mut text = conflict(rng);
    for _ in 0..rng.between(1, 8) {
        change(&mut text, rng);
    }
    text
}

/// Changes, puts in, takes out or doubles some bytes.
fn change(text: &mut Vec<u8>, rng: &mut Rng) {
    let byte = if rng.percent(70) { rng.pick(b" \n\r\t\0-+0125679BRWCAbxX") } else { rng.byte() };
    let place = rng.below(text.len() + 1);
    if place == text.len() || rng.percent(30) {
        text.insert(place, byte);
        return;
    }
    let end = (place + rng.between(1, 6)).min(text.len());
    match rng.below(6) {
        0 => text[place] ^= 1 << rng.below(8),
        1 => text[place] = byte,
        2 => drop(text.remove(place)),
        3 => drop(text.drain(place..end)),
        4 => text.extend_from_within(place..end),
        _ => text[place..end].reverse(),
    }
}
