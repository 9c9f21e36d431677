//! The words of a key, asked of the port or of what is put in its place. Key and list are lent out of the middle
//! of larger ones.
use crate::guarded::Guarded;

/// Fills a list with the words of a key from a number on, and returns what `sicklephlox_words` returns.
pub type Source = fn(&[u8], u64, &mut [u64]) -> usize;

const WORD_BYTES: usize = 8;

/// What came of a call.
#[derive(Clone, Debug, PartialEq)]
pub struct Filled {
    pub returned: usize,
    /// The words written: one for each 8 bytes returned, if the number is no refusal.
    pub written: Vec<u64>,
    /// What changed and should not have.
    pub harm: Option<String>,
}

/// A key and a list of words, lent to a source.
pub struct WordsLent {
    key: Guarded<u8>,
    words: Guarded<u64>,
    returned: usize,
}

impl WordsLent {
    /// `turn` shifts both buffers and changes what lies around them from call to call.
    pub fn new(key: &[u8], length: usize, turn: usize) -> Self {
        WordsLent {
            key: Guarded::holding(key, turn),
            words: Guarded::empty(length, turn / 8),
            returned: 0,
        }
    }

    pub fn call(&mut self, source: Source, start: u64) {
        self.returned = source(self.key.lent(), start, self.words.lent_mut());
    }

    /// What came of the call.
    pub fn filled(&self) -> Filled {
        let count = match self.returned % WORD_BYTES {
            0 => self.returned / WORD_BYTES,
            _ => 0,
        };
        let lent = self.words.lent();
        let harm = if count > lent.len() {
            Some("more words returned than lent".to_string())
        } else {
            let key = self.key.changed(0..0).map(|at| format!("the key at {at}"));
            let words = || self.words.changed(0..count);
            key.or_else(|| words().map(|at| format!("the words' list at {at}")))
        };
        Filled {
            returned: self.returned,
            written: lent[..count.min(lent.len())].to_vec(),
            harm,
        }
    }

    /// Flips a bit of the words' list, before, in or after the lent part: what a faulty port would do.
    pub fn spoil_words(&mut self, place: isize) {
        self.words.spoil(place);
    }

    /// The same in the key's buffer.
    pub fn spoil_key(&mut self, place: isize) {
        self.key.spoil(place);
    }

    /// Another number returned.
    pub fn spoil_returned(&mut self, number: usize) {
        self.returned = number;
    }
}

/// One call of the port, with nothing around what it is lent.
#[allow(unsafe_code)]
pub fn words_of_port(key: &[u8], start: u64, words: &mut [u64]) -> usize {
    extern "C" {
        fn sicklephlox_words(
            key: *const u8,
            key_length: usize,
            start: u64,
            words: *mut u64,
            words_length: usize,
        ) -> usize;
    }
    // Both slices are valid for their lengths and do not overlap, and the function keeps neither.
    unsafe {
        sicklephlox_words(
            key.as_ptr(),
            key.len(),
            start,
            words.as_mut_ptr(),
            words.len(),
        )
    }
}
