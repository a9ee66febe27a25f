//! Text that grows word by word.

// No word is longer, with the space after it.
const WIDEST: usize = 40;

// So many bytes are written before it is asked again whether there is room.
const ROOM: usize = 512;

const PAIRS: [u8; 200] = {
    let mut pairs = [0; 200];
    let mut k = 0;
    while k < 100 {
        pairs[2 * k] = b'0' + (k / 10) as u8;
        pairs[2 * k + 1] = b'0' + (k % 10) as u8;
        k += 1;
    }
    pairs
};

/// A word and the space after it, in as many bytes as the widest one has, so that it can be copied at one go.
#[derive(Clone, Copy)]
pub struct Word {
    bytes: [u8; WIDEST],
    len: usize,
}

impl Word {
    pub const fn new(word: &[u8]) -> Word {
        let mut bytes = [b' '; WIDEST];
        let mut k = 0;
        while k < word.len() {
            bytes[k] = word[k];
            k += 1;
        }
        Word { bytes, len: word.len() + 1 }
    }
}

/// The bytes so far, and behind them some that are written next.
pub struct Text {
    bytes: Vec<u8>,
    len: usize,
}

impl Text {
    /// An empty text, with room for so many bytes.
    pub fn new(room: usize) -> Text {
        Text { bytes: vec![0; room + ROOM], len: 0 }
    }

    pub fn bytes(&self) -> &[u8] {
        &self.bytes[..self.len]
    }

    pub fn into_bytes(mut self) -> Vec<u8> {
        self.bytes.truncate(self.len);
        self.bytes
    }

    pub fn len(&self) -> usize {
        self.len
    }

    pub fn clear(&mut self) {
        self.len = 0;
    }

    /// Adds bytes of another text.
    pub fn add(&mut self, bytes: &[u8]) {
        while self.bytes.len() < self.len + bytes.len() + ROOM {
            self.bytes.resize(2 * self.bytes.len(), 0);
        }
        self.bytes[self.len..self.len + bytes.len()].copy_from_slice(bytes);
        self.len += bytes.len();
    }

    #[inline]
    pub fn word(&mut self, word: &Word) {
        let to = &mut self.bytes[self.len..self.len + WIDEST];
        to[..16].copy_from_slice(&word.bytes[..16]);
        if word.len > 16 {
            to[16..].copy_from_slice(&word.bytes[16..]);
        }
        self.len += word.len;
    }

    #[inline]
    pub fn number(&mut self, number: u32) {
        if number < 10 {
            self.bytes[self.len..self.len + 2].copy_from_slice(&[b'0' + number as u8, b' ']);
            self.len += 2;
        } else {
            self.long_number(number);
        }
    }

    // A number of two digits or more.
    fn long_number(&mut self, mut number: u32) {
        let mut digits = [b' '; 32];
        let mut first = 16;
        while number >= 100 {
            first -= 2;
            let pair = 2 * (number % 100) as usize;
            digits[first..first + 2].copy_from_slice(&PAIRS[pair..pair + 2]);
            number /= 100;
        }
        if number >= 10 {
            first -= 2;
            let pair = 2 * number as usize;
            digits[first..first + 2].copy_from_slice(&PAIRS[pair..pair + 2]);
        } else {
            first -= 1;
            digits[first] = b'0' + number as u8;
        }
        self.bytes[self.len..self.len + 16].copy_from_slice(&digits[first..first + 16]);
        self.len += 17 - first;
    }

    /// Ends a line: its last word has a space too much.
    #[inline]
    pub fn end_line(&mut self) {
        self.bytes[self.len - 1] = b'\n';
        if self.bytes.len() < self.len + ROOM {
            self.bytes.resize(2 * self.bytes.len(), 0);
        }
    }
}
