use super::*;
use crate::text::{Lines, faults, parse};

#[test]
fn the_same_seed_gives_the_same_texts() {
    let texts = |seed| -> Vec<Vec<u8>> {
        let mut rng = Rng::new(seed);
        Kind::ALL.iter().map(|&kind| text(kind, &mut rng)).collect()
    };
    assert_eq!(texts(3), texts(3));
    assert_ne!(texts(3), texts(4));
}

#[test]
fn well_formed_texts_have_no_fault() {
    let mut rng = Rng::new(1);
    for kind in Kind::ALL.into_iter().filter(|kind| kind.is_well_formed()) {
        for _ in 0..20 {
            assert_eq!(faults(&text(kind, &mut rng)), [], "{kind:?}");
        }
    }
}

#[test]
fn a_filled_text_has_its_size_and_only_commands() {
    let mut rng = Rng::new(2);
    for size in 500..560 {
        let mut text = head(&mut rng);
        script::fill(&mut text, size, &mut rng);
        assert_eq!(text.len(), size);
        assert!(Lines::new(&text).skip(1).all(|line| parse(line).is_ok()));
    }
}

#[test]
fn edges_are_met_exactly() {
    let mut rng = Rng::new(3);
    let sizes: Vec<usize> = (0..60).map(|_| text(Kind::Edge, &mut rng).len()).collect();
    for size in [TEXT_LIMIT - 1, TEXT_LIMIT, TEXT_LIMIT + 1] {
        assert!(sizes.contains(&size), "{size}");
    }
}

#[test]
fn every_field_is_damaged() {
    let mut rng = Rng::new(4);
    let found: Vec<_> = (0..50).flat_map(|_| faults(&text(Kind::DamagedLines, &mut rng))).collect();
    for field in 1..=5 {
        let fault_at = |fault: &_| matches!(fault, crate::text::TextFault::Form { field: at, .. } if *at == field);
        assert!(found.iter().any(fault_at), "{field}");
    }
}
