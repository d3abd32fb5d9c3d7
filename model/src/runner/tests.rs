use super::*;

fn printed(text: &str) -> String {
    String::from_utf8(run(text.as_bytes())).unwrap()
}

/// What is printed behind the numbers, line by line, joined by commas.
fn answers(text: &str) -> String {
    let tail = |line: &str| line.split_once(' ').unwrap().1.to_string();
    printed(text).lines().map(tail).collect::<Vec<_>>().join(",")
}

#[test]
fn the_example_of_the_page() {
    let text = include_str!("../../../examples/clock.txt");
    let expected = "1 ok\n2 ok\n3 = 0\n4 ok\n5 ok\n6 ok\n7 = 0\n8 ok\n9 no 11\n10 no 5\n11 no 1\n";
    assert_eq!(printed(text), expected);
}

#[test]
fn worked_1_locked() {
    assert_eq!(answers("lock\nB 0\nB 1\nR 0 5\nR 1 5"), "ok,ok,ok,= 0,no 20");
}

#[test]
fn worked_2_both_read() {
    assert_eq!(answers("own\nB 0\nB 1\nR 0 5\nR 1 5"), "ok,ok,ok,= 0,= 0");
}

#[test]
fn worked_3_too_new() {
    assert_eq!(answers("clock\nB 0\nB 1\nW 1 5 7\nC 1\nR 0 5"), "ok,ok,ok,ok,ok,no 20");
}

#[test]
fn worked_4_newly_read() {
    assert_eq!(answers("own\nB 0\nB 1\nW 1 5 7\nC 1\nR 0 5"), "ok,ok,ok,ok,ok,= 7");
}

#[test]
fn worked_5_behind_reads_on() {
    let text = "clock\nB 0\nR 0 5\nB 1\nW 1 5 7\nC 1\nR 0 6\nC 0";
    assert_eq!(answers(text), "ok,ok,= 0,ok,ok,ok,= 0,ok");
}

#[test]
fn worked_6_behind_is_barred() {
    let text = "own\nB 0\nR 0 5\nB 1\nW 1 5 7\nC 1\nR 0 6";
    assert_eq!(answers(text), "ok,ok,= 0,ok,ok,ok,no 20");
}

#[test]
fn worked_7_behind_writer() {
    let text = "clock\nB 0\nR 0 5\nB 1\nW 1 5 7\nC 1\nW 0 6 9\nC 0\nB 2\nR 2 6";
    assert_eq!(answers(text), "ok,ok,= 0,ok,ok,ok,ok,no 22,ok,= 0");
}

#[test]
fn worked_8_eagerly_barred() {
    let text = "eager clock\nB 0\nR 0 5\nB 1\nW 1 5 7\nC 1\nW 0 6 9\nC 0";
    assert_eq!(answers(text), "ok,ok,= 0,ok,ok,ok,no 21,no 12");
}

#[test]
fn worked_9_owned() {
    assert_eq!(answers("own\nB 0\nW 0 5 1\nB 1\nW 1 5 2"), "ok,ok,ok,ok,no 21");
}

#[test]
fn worked_10_renumbered() {
    let mut table = Table::new(Clock::new(u32::MAX));
    let lines = Lines::new(b"B 0\nB 1\nW 1 5 7\nC 1\nR 0 5");
    let answers: Vec<Answer> = lines.map(|line| obey(&mut table, line)).collect();
    assert_eq!(answers[..4], [Answer::Granted; 4]);
    assert_eq!(answers[4], Answer::Refused(20));
    assert_eq!(table.policy().clock(), 2);
}

#[test]
fn a_renumbered_clock_prints_what_one_from_0_prints() {
    let text =
        b"B 0\nR 0 1\nB 1\nW 1 2 5\nC 1\nB 2\nR 2 2\nW 2 1 6\nC 2\nR 0 3\nR 0 2\nB 3\nR 3 1\nC 3\n";
    let from_0 = run_over(Clock::new(0), Lines::new(text));
    for below in 0..3 {
        assert_eq!(run_over(Clock::new(u32::MAX - below), Lines::new(text)), from_0);
    }
}

#[test]
fn texts_refused_whole() {
    assert_eq!(printed(""), "1 no 6\n");
    assert_eq!(printed("lok\nB 0\n"), "1 no 6\n");
    assert_eq!(run(&[b'\n'; 60_001]), b"0 no 7\n");
    assert_eq!(run(&[b'\n'; 60_000]), b"1 no 6\n");
}

#[test]
fn a_line_that_is_no_command_changes_nothing() {
    assert_eq!(printed("lock\nB 0\nB 0 \n\nR 0 1"), "1 ok\n2 ok\n3 no 5\n4 no 5\n5 = 0\n");
}

#[test]
fn a_buffer_is_filled_and_zeros_stand_behind() {
    let mut room = [7; 10];
    assert_eq!(run_into(b"own\nC 0", &mut room), Err(NoRoom));
    assert_eq!(room, [0; 10]);
    let mut room = [7; 16];
    assert_eq!(run_into(b"own\nC 0", &mut room), Ok(13));
    assert_eq!(&room, b"1 ok\n2 no 11\n\0\0\0");
    assert_eq!(run_into(b"own\nC 0", &mut room[..13]), Ok(13));
}
