use crate::frame::Frame;
use crate::matroid::Matroid;
use crate::objective::Objective;
use crate::picker::Picker;
use crate::refusal::Refusal;

/// No digest is longer: six lines of counts, and 48 places of nine lines.
const LONGEST_DIGEST: usize = 5_632;

/// Lines written one behind the other.
struct Sheet {
    bytes: [u8; LONGEST_DIGEST],
    length: usize,
}

impl Sheet {
    fn new() -> Self {
        Sheet {
            bytes: [0; LONGEST_DIGEST],
            length: 0,
        }
    }

    fn written(&self) -> &[u8] {
        &self.bytes[..self.length]
    }

    #[inline]
    fn push(&mut self, bytes: &[u8]) {
        let end = self.length + bytes.len();
        self.bytes[self.length..end].copy_from_slice(bytes);
        self.length = end;
    }

    /// The key with its `=`, the number in shortest decimal digits, a line feed.
    #[inline]
    fn decimal(&mut self, key: &[u8], mut number: u64) {
        let mut digits = [b'\n'; 21];
        let mut start = 20;
        loop {
            start -= 1;
            digits[start] = b'0' + (number % 10) as u8;
            number /= 10;
            if number == 0 {
                break;
            }
        }
        self.push(key);
        self.push(&digits[start..]);
    }

    fn marks(&mut self, marks: u64) {
        let mut digits = [b'\n'; 17];
        for (place, digit) in digits[..16].iter_mut().enumerate() {
            let nibble = marks >> (60 - 4 * place) & 15;
            *digit = b"0123456789abcdef"[nibble as usize];
        }
        self.push(b"marks=");
        self.push(&digits);
    }

    fn record(&mut self, frame: &Frame) {
        self.decimal(b"frame=", u64::from(frame.frame));
        self.marks(frame.marks);
        self.decimal(b"look=", u64::from(frame.look));
        self.decimal(b"lane=", u64::from(frame.lane));
        self.decimal(b"tail=", u64::from(frame.tail));
        self.decimal(b"head=", u64::from(frame.head));
        self.decimal(b"side=", u64::from(frame.side));
    }
}

impl<O: Objective, M: Matroid> Picker<O, M> {
    /// Writes the digest at the front of the buffer, and answers how long it is.
    pub fn print(&self, out: &mut [u8]) -> Result<usize, Refusal> {
        let counts = self.counts();
        let mut sheet = Sheet::new();
        sheet.decimal(b"size=", u64::from(counts.size));
        sheet.decimal(b"kept=", u64::from(counts.kept));
        sheet.decimal(b"took=", u64::from(counts.took));
        sheet.decimal(b"seen=", u64::from(counts.seen));
        sheet.decimal(b"gain=", counts.gain);
        sheet.decimal(b"told=", counts.told);
        for (place, (frame, gain)) in self.kept().iter().enumerate() {
            sheet.decimal(b"place=", place as u64);
            sheet.decimal(b"worth=", u64::from(gain));
            sheet.record(frame);
        }
        let lines = sheet.written();
        let front = out.get_mut(..lines.len()).ok_or(Refusal::ShortSheet)?;
        front.copy_from_slice(lines);
        Ok(lines.len())
    }
}
