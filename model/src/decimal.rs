//! Short lines with decimal numbers, written from their end to their front without allocating.

/// A line of at most `N` bytes. What is put stands before what was put earlier.
pub struct Backward<const N: usize> {
    bytes: [u8; N],
    start: usize,
}

impl<const N: usize> Backward<N> {
    pub fn new() -> Self {
        Self { bytes: [0; N], start: N }
    }

    pub fn put(&mut self, text: &[u8]) {
        let end = self.start;
        self.start -= text.len();
        self.bytes[self.start..end].copy_from_slice(text);
    }

    pub fn put_unsigned(&mut self, number: u32) {
        let mut rest = number;
        loop {
            self.put(&[b'0' + (rest % 10) as u8]);
            rest /= 10;
            if rest == 0 {
                return;
            }
        }
    }

    pub fn put_signed(&mut self, number: i32) {
        self.put_unsigned(number.unsigned_abs());
        if number < 0 {
            self.put(b"-");
        }
    }

    pub fn written(&self) -> &[u8] {
        &self.bytes[self.start..]
    }
}

impl<const N: usize> Default for Backward<N> {
    fn default() -> Self {
        Self::new()
    }
}

#[cfg(test)]
mod tests {
    use super::*;

    #[test]
    fn numbers_are_as_the_standard_library_writes_them() {
        for number in [0, 9, 10, 99, 100, 59_999, u32::MAX] {
            let mut line = Backward::<10>::new();
            line.put_unsigned(number);
            assert_eq!(line.written(), number.to_string().as_bytes());
        }
        for number in [0, -1, 10, -10, i32::MAX, i32::MIN] {
            let mut line = Backward::<11>::new();
            line.put_signed(number);
            assert_eq!(line.written(), number.to_string().as_bytes());
        }
    }

    #[test]
    fn what_is_put_last_stands_first() {
        let mut line = Backward::<8>::new();
        line.put(b"\n");
        line.put_signed(-5);
        line.put(b"= ");
        assert_eq!(line.written(), b"= -5\n");
    }
}
