use super::*;

fn field(line: &str) -> Option<u8> {
    parse(line.as_bytes()).err().map(|fault| fault.field)
}

fn written(value: &str) -> Option<i32> {
    match parse(format!("W 0 5 {value}").as_bytes()) {
        Ok(Command::Write { value, .. }) => Some(value),
        _ => None,
    }
}

#[test]
fn a_last_line_feed_begins_no_line() {
    let lines = |text: &'static str| -> Vec<&[u8]> { Lines::new(text.as_bytes()).collect() };
    assert_eq!(lines("lock\nB 0"), lines("lock\nB 0\n"));
    assert_eq!(lines(""), Vec::<&[u8]>::new());
    assert_eq!(lines("\n"), [b""]);
    assert_eq!(lines("\n\nx"), [&b""[..], b"", b"x"]);
    assert_eq!(lines("a\r\nb"), [&b"a\r"[..], b"b"]);
}

#[test]
fn the_first_line_names_a_policy_byte_for_byte() {
    for choice in Choice::ALL {
        assert_eq!(open(choice.name().as_bytes()).map(|(choice, _)| choice), Ok(choice));
    }
    for wrong in ["", "\nlock", "Lock", "lock ", "eager  own", "eager", "own\r\n", "clock\t"] {
        assert_eq!(open(wrong.as_bytes()).err(), Some(TextFault::NoPolicy), "{wrong:?}");
    }
}

#[test]
fn a_text_may_have_60000_bytes() {
    let mut text = b"lock\n".to_vec();
    text.resize(TEXT_LIMIT, b'\n');
    assert!(open(&text).is_ok());
    text.push(b'\n');
    assert_eq!(open(&text).err(), Some(TextFault::TooLong));
    assert_eq!(open(&vec![b'x'; 60_001]).err(), Some(TextFault::TooLong));
}

#[test]
fn commands() {
    assert_eq!(parse(b"B 0"), Ok(Command::Begin { task: 0 }));
    assert_eq!(parse(b"R 255 64"), Ok(Command::Read { task: 255, variable: 64 }));
    assert_eq!(parse(b"W 1 63 -7"), Ok(Command::Write { task: 1, variable: 63, value: -7 }));
    assert_eq!(parse(b"C 7"), Ok(Command::Commit { task: 7 }));
    assert_eq!(parse(b"A 10"), Ok(Command::Abort { task: 10 }));
}

#[test]
fn the_faults_of_the_page() {
    let page = [
        ("", 1),
        ("X 1", 1),
        ("B", 2),
        ("B 256", 2),
        ("B  0", 2),
        ("R 0", 3),
        ("B 0 1", 3),
        ("B 0 ", 3),
        ("W 0 5 -0", 4),
        ("W 0 5 1 2", 5),
    ];
    for (line, expected) in page {
        assert_eq!(field(line), Some(expected), "{line:?}");
    }
}

#[test]
fn other_faults() {
    let more = [
        (" B 0", 1),
        ("BB 0", 1),
        ("b 0", 1),
        ("B\t0", 1),
        ("B ", 2),
        ("B 00", 2),
        ("B +1", 2),
        ("B -1", 2),
        ("B 0\r", 2),
        ("B 0\0", 2),
        ("B 4294967296", 2),
        ("R 0 ", 3),
        ("R 0 01", 3),
        ("R 0 1 ", 4),
        ("R x y z", 2),
        ("W 0 5", 4),
        ("W 0 5 ", 4),
        ("W 0 5 -", 4),
        ("W 0 5 --1", 4),
        ("W 0 5 1-", 4),
        ("W 0 -5 1", 3),
        ("X", 1),
    ];
    for (line, expected) in more {
        assert_eq!(field(line), Some(expected), "{line:?}");
    }
    assert_eq!(parse(b"B \xff").err(), Some(FormFault { field: 2 }));
}

#[test]
fn values_at_their_limits() {
    assert_eq!(written("2147483647"), Some(i32::MAX));
    assert_eq!(written("-2147483648"), Some(i32::MIN));
    assert_eq!(written("0"), Some(0));
    for wrong in ["2147483648", "-2147483649", "4294967296", "-4294967295", "00", "-01", "+1"] {
        assert_eq!(written(wrong), None, "{wrong}");
    }
    assert_eq!(written(&"9".repeat(500)), None);
    assert_eq!(written(&format!("1{}", "0".repeat(500))), None);
}

#[test]
fn faults_have_their_line_and_field() {
    let text = b"clock\nB 0\nR 0\n\nW 0 5 -0\n";
    let form = |line, field| TextFault::Form { line, field };
    assert_eq!(faults(text), [form(3, 3), form(4, 1), form(5, 4)]);
}
