//! Quotes, in a class and outside: between `\Q` and the next `\E`, or the pattern's end, every byte
//! stands for itself.
//!
//! A place is an index with the knowledge whether a quote is open there. `\Q` and `\E` only change
//! that knowledge, so passing over them is all there is to do: an empty quote and an `\E` that ends
//! no quote leave a place as if they were not there.

#[derive(Clone, Copy, Debug, PartialEq, Eq)]
pub struct Place {
    pub at: usize,
    pub quoted: bool,
}

impl Place {
    /// A place outside quotes.
    pub fn plain(at: usize) -> Place {
        Place { at, quoted: false }
    }

    /// The place of the next byte that is no part of a `\Q` or `\E`.
    pub fn settled(mut self, pattern: &[u8]) -> Place {
        loop {
            match pattern.get(self.at..self.at + 2) {
                Some(b"\\E") => self.quoted = false,
                Some(b"\\Q") if !self.quoted => self.quoted = true,
                _ => return self,
            }
            self.at += 2;
        }
    }

    /// Does this byte stand here, outside quotes?
    pub fn has(self, pattern: &[u8], byte: u8) -> bool {
        !self.quoted && pattern.get(self.at) == Some(&byte)
    }
}
