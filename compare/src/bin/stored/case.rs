//! Reading the stored inputs, and what several of the test programs write.

/// What is left of the stored cases of one program.
pub struct Cases<'a> {
    rest: &'a [u8],
}

impl<'a> Cases<'a> {
    pub fn new(bytes: &'a [u8]) -> Self {
        Cases { rest: bytes }
    }

    pub fn is_done(&self) -> bool {
        self.rest.is_empty()
    }

    pub fn bytes(&mut self, count: usize) -> &'a [u8] {
        let (bytes, rest) = self.rest.split_at(count);
        self.rest = rest;
        bytes
    }

    pub fn byte(&mut self) -> u8 {
        self.bytes(1)[0]
    }

    /// A two-byte value, low byte first.
    pub fn word(&mut self) -> u16 {
        word_at(self.bytes(2), 0)
    }

    pub fn number(&mut self) -> usize {
        usize::from(self.word())
    }

    /// A value of two words, the low one first.
    pub fn double(&mut self) -> u32 {
        u32::from(self.word()) + 65536 * u32::from(self.word())
    }

    pub fn words(&mut self, count: usize) -> Vec<u16> {
        (0..count).map(|_| self.word()).collect()
    }
}

pub fn word_at(bytes: &[u8], at: usize) -> u16 {
    u16::from_le_bytes([bytes[at], bytes[at + 1]])
}

/// The numbers with a space before each.
pub fn spaced<T: ToString>(numbers: impl IntoIterator<Item = T>) -> String {
    numbers.into_iter().map(|number| format!(" {}", number.to_string())).collect()
}

/// The words up to the last that is not the one that filled them before the call.
pub fn changed(words: &[u16], fill: u16) -> String {
    match words.iter().rposition(|&word| word != fill) {
        Some(last) => format!(":{}", spaced(&words[..=last])),
        None => String::new(),
    }
}
