//! Whole numbers from the text of a test program's input: digits, with spaces and line ends between numbers, and before a signed number a
//! `-` or none. A number beyond its range is taken as the end of the range. Past the text, and where another byte stands, a number is 0 and
//! takes no byte.

pub struct Numbers<'a> {
    text: &'a [u8],
    at: usize,
}

impl Numbers<'_> {
    fn next_is(&self, fits: impl Fn(u8) -> bool) -> bool {
        self.text.get(self.at).is_some_and(|&byte| fits(byte))
    }

    fn skip_separators(&mut self) {
        while self.next_is(|byte| byte == b' ' || byte == b'\n') {
            self.at += 1;
        }
    }

    fn digits(&mut self) -> u64 {
        let mut value: u64 = 0;
        while self.next_is(|byte| byte.is_ascii_digit()) {
            value = value.saturating_mul(10).saturating_add(u64::from(self.text[self.at] - b'0'));
            self.at += 1;
        }
        value
    }

    pub fn unsigned(&mut self) -> u64 {
        self.skip_separators();
        self.digits()
    }

    /// A number of 32 bits.
    pub fn word(&mut self) -> u32 {
        u32::try_from(self.unsigned()).unwrap_or(u32::MAX)
    }

    pub fn signed(&mut self) -> i64 {
        self.skip_separators();
        let negative = self.next_is(|byte| byte == b'-');
        self.at += usize::from(negative);
        match i64::try_from(self.digits()) {
            Ok(size) if negative => -size,
            Ok(size) => size,
            Err(_) if negative => i64::MIN,
            Err(_) => i64::MAX,
        }
    }

    /// A length: a signed number, taken as 0 or as `most` if it is beyond them.
    pub fn length(&mut self, most: usize) -> usize {
        self.signed().clamp(0, most as i64) as usize
    }

    /// So many bytes as they stand, after one that is skipped; fewer if the text ends.
    pub fn bytes(&mut self, count: usize) -> &[u8] {
        let rest = &self.text[self.at..];
        let end = count.saturating_add(1).min(rest.len());
        self.at += end;
        &rest[end.min(1)..end]
    }
}

/// What `case` gives for each case of a text. A case takes at least a byte.
pub fn each_case<T>(text: &[u8], mut case: impl FnMut(&mut Numbers) -> T) -> Vec<T> {
    let (mut numbers, mut given) = (Numbers { text, at: 0 }, Vec::new());
    numbers.skip_separators();
    while numbers.at < text.len() {
        let start = numbers.at;
        given.push(case(&mut numbers));
        numbers.skip_separators();
        numbers.at = numbers.at.max(start + 1);
    }
    given
}
