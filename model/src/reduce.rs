//! Makes a text that shows a fault small: by lines, and then by bytes.

/// How often a reduction may try a text.
const TRIES: usize = 20_000;

/// A text that still `fails`, from which no line and no byte can be left out alone, unless the
/// tries ran out. `text` itself has to fail.
pub fn reduce(text: &[u8], mut fails: impl FnMut(&[u8]) -> bool) -> Vec<u8> {
    let lines = text.split_inclusive(|&byte| byte == b'\n').collect();
    let by_lines = smallest(lines, &mut fails).concat();
    smallest(by_lines.chunks(1).collect(), &mut fails).concat()
}

/// Leaves out runs of pieces, shorter and shorter ones, as long as the rest fails.
fn smallest<'a>(mut pieces: Vec<&'a [u8]>, fails: &mut impl FnMut(&[u8]) -> bool) -> Vec<&'a [u8]> {
    let mut tries = TRIES;
    let mut run = pieces.len().div_ceil(2).max(1);
    loop {
        let before = pieces.len();
        let mut start = 0;
        while start < pieces.len() && tries > 0 {
            tries -= 1;
            let end = (start + run).min(pieces.len());
            let rest = [&pieces[..start], &pieces[end..]].concat();
            if fails(&rest.concat()) {
                pieces = rest;
            } else {
                start = end;
            }
        }
        if run == 1 && (pieces.len() == before || tries == 0) {
            return pieces;
        }
        run = run.div_ceil(2);
    }
}

#[cfg(test)]
mod tests {
    use super::*;

    #[test]
    fn what_matters_is_left() {
        let text = b"own\nB 0\nB 1\nR 1 5\nW 0 5 1234\nC 0\n";
        let has = |text: &[u8], part: &[u8]| text.windows(part.len()).any(|window| window == part);
        assert_eq!(reduce(text, |text| has(text, b"R 1") && has(text, b"23")), b"R 123");
        assert_eq!(reduce(text, |text| text.len() >= 3).len(), 3);
        assert_eq!(reduce(text, |_| true), b"");
        assert_eq!(reduce(b"", |_| true), b"");
    }
}
