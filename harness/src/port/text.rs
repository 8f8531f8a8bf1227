//! The page that a report is composed on.
use super::page::Page;

/// Room for the longest report.
const TEXT_BYTES: usize = 180_224;

pub type Text = Page<TEXT_BYTES>;

impl Text {
    pub fn number(&mut self, n: u64) {
        let mut digits = [0; 20];
        let mut from = digits.len();
        let mut left = n;
        loop {
            from -= 1;
            digits[from] = b'0' + (left % 10) as u8;
            left /= 10;
            if left == 0 {
                break;
            }
        }
        self.push(&digits[from..]);
    }

    /// A blank and a lower bound, a blank and an upper one, and the end of the line.
    pub fn bounds(&mut self, lower: u64, upper: u64) {
        self.push(b" ");
        self.number(lower);
        self.push(b" ");
        self.number(upper);
        self.push(b"\n");
    }
}
