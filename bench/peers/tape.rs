//! A plain reader of JSON (RFC 8259) that leaves a tape: an entry for each value and each name, in the order of the
//! text. `tape N` reads standard input so many times and prints what `rtb_bench json N` prints: how many values it had
//! in all, and how many bytes its strings and names had behind their escapes; or `fault`.
//!
//! It takes and refuses what ours does: strings are UTF-8, arrays and objects nest at most 64 deep, a lone surrogate is
//! U+FFFD, and a number is kept as its text. It says no place of a fault. Its rooms are kept from reading to reading.

use std::io::Read;

#[derive(Clone, Copy, PartialEq)]
enum Kind {
    Null,
    False,
    True,
    Number,
    /// Lies in the text.
    Text,
    /// Lies in the rooms of what was put together.
    MadeText,
    Name,
    MadeName,
    /// Its length is the place of the entry behind its last one.
    Array,
    Object,
}

struct Entry {
    kind: Kind,
    length: u32,
    at: usize,
}

#[derive(Default)]
struct Tape {
    entries: Vec<Entry>,
    /// The entries of the arrays and objects that are not closed.
    open: Vec<usize>,
    /// The texts that have escapes.
    made: Vec<u8>,
}

const DEEPEST: usize = 64;

/// The text with a byte 0 behind it, at which every loop over the text stops.
struct Ended<'a> {
    bytes: &'a [u8],
}

impl Ended<'_> {
    fn length(&self) -> usize {
        self.bytes.len() - 1
    }

    #[inline(always)]
    fn byte(&self, at: usize) -> u8 {
        debug_assert!(at < self.bytes.len());
        // A place grows only behind a byte that is not the one at the end.
        unsafe { *self.bytes.get_unchecked(at) }
    }

    #[inline(always)]
    fn spaces_end(&self, at: usize) -> usize {
        let mut at = at;
        while matches!(self.byte(at), b' ' | b'\t' | b'\n' | b'\r') {
            at += 1;
        }
        at
    }

    #[inline(always)]
    fn digits_end(&self, at: usize) -> usize {
        let mut at = at;
        while self.byte(at).is_ascii_digit() {
            at += 1;
        }
        at
    }

    /// Behind digits, of which there has to be one.
    #[inline(always)]
    fn some_digits_end(&self, at: usize) -> Option<usize> {
        let end = self.digits_end(at);
        if end == at { None } else { Some(end) }
    }

    #[inline(always)]
    fn number_end(&self, at: usize) -> Option<usize> {
        let mut at = if self.byte(at) == b'-' { at + 1 } else { at };
        at = if self.byte(at) == b'0' { at + 1 } else { self.some_digits_end(at)? };
        if self.byte(at) == b'.' {
            at = self.some_digits_end(at + 1)?;
        }
        if matches!(self.byte(at), b'e' | b'E') {
            at += 1;
            if matches!(self.byte(at), b'+' | b'-') {
                at += 1;
            }
            at = self.some_digits_end(at)?;
        }
        Some(at)
    }

    /// Four hexadecimal digits.
    fn unit(&self, at: usize) -> Option<u32> {
        let mut unit = 0;
        for &byte in self.bytes.get(at..at + 4)? {
            unit = unit * 16 + char::from(byte).to_digit(16)?;
        }
        Some(unit)
    }
}

/// Whether a byte of a string says itself: no quotation mark, no backslash, no control character and of ASCII.
const PLAIN: [bool; 256] = {
    let mut plain = [false; 256];
    let mut byte = 0x20;
    while byte < 0x80 {
        plain[byte] = byte != b'"' as usize && byte != b'\\' as usize;
        byte += 1;
    }
    plain
};

impl Tape {
    /// Reads the whole text, and tells whether it is one.
    fn read(&mut self, text: &Ended) -> bool {
        self.entries.clear();
        self.entries.reserve(text.length() + 1);
        self.open.clear();
        self.made.clear();
        self.read_on(text).is_some()
    }

    fn read_on(&mut self, text: &Ended) -> Option<()> {
        let mut at = text.spaces_end(0);
        loop {
            at = match text.byte(at) {
                b'[' => {
                    self.begin(Kind::Array, at)?;
                    at = text.spaces_end(at + 1);
                    if text.byte(at) != b']' {
                        continue;
                    }
                    self.end(at)
                }
                b'{' => {
                    self.begin(Kind::Object, at)?;
                    at = text.spaces_end(at + 1);
                    if text.byte(at) != b'}' {
                        at = self.name_end(text, at)?;
                        continue;
                    }
                    self.end(at)
                }
                _ => self.scalar_end(text, at)?,
            };
            match self.after(text, at)? {
                Some(next) => at = next,
                None => return Some(()),
            }
        }
    }

    fn begin(&mut self, kind: Kind, at: usize) -> Option<()> {
        if self.open.len() == DEEPEST {
            return None;
        }
        self.open.push(self.entries.len());
        self.put(kind, 0, at);
        Some(())
    }

    #[inline(always)]
    fn put(&mut self, kind: Kind, length: usize, at: usize) {
        self.entries.push(Entry { kind, length: length as u32, at });
    }

    #[inline(always)]
    fn end(&mut self, at: usize) -> usize {
        if let Some(place) = self.open.pop() {
            self.entries[place].length = self.entries.len() as u32;
        }
        at + 1
    }

    /// Where the next value begins behind one that ends here, if there is one.
    #[inline(always)]
    fn after(&mut self, text: &Ended, at: usize) -> Option<Option<usize>> {
        let mut at = text.spaces_end(at);
        loop {
            let Some(&place) = self.open.last() else {
                return if at == text.length() { Some(None) } else { None };
            };
            let is_object = self.entries[place].kind == Kind::Object;
            match text.byte(at) {
                b',' => {
                    at = text.spaces_end(at + 1);
                    return Some(Some(if is_object { self.name_end(text, at)? } else { at }));
                }
                b'}' if is_object => at = self.end(at),
                b']' if !is_object => at = self.end(at),
                _ => return None,
            }
            at = text.spaces_end(at);
        }
    }

    /// Behind the name of a member and its colon.
    #[inline(always)]
    fn name_end(&mut self, text: &Ended, at: usize) -> Option<usize> {
        if text.byte(at) != b'"' {
            return None;
        }
        let at = self.text_end(text, at + 1, Kind::Name, Kind::MadeName)?;
        let at = text.spaces_end(at);
        if text.byte(at) != b':' {
            return None;
        }
        Some(text.spaces_end(at + 1))
    }

    #[inline(always)]
    fn scalar_end(&mut self, text: &Ended, at: usize) -> Option<usize> {
        match text.byte(at) {
            b'"' => self.text_end(text, at + 1, Kind::Text, Kind::MadeText),
            b'-' | b'0'..=b'9' => {
                let end = text.number_end(at)?;
                self.put(Kind::Number, end - at, at);
                Some(end)
            }
            b'n' => self.word_end(text, at, b"null", Kind::Null),
            b't' => self.word_end(text, at, b"true", Kind::True),
            b'f' => self.word_end(text, at, b"false", Kind::False),
            _ => None,
        }
    }

    fn word_end(&mut self, text: &Ended, at: usize, word: &[u8], kind: Kind) -> Option<usize> {
        if !text.bytes[at..].starts_with(word) {
            return None;
        }
        self.put(kind, word.len(), at);
        Some(at + word.len())
    }

    /// Behind the quotation mark that ends the string.
    #[inline(always)]
    fn text_end(&mut self, text: &Ended, begin: usize, plain: Kind, made: Kind) -> Option<usize> {
        let mut at = begin;
        while PLAIN[usize::from(text.byte(at))] {
            at += 1;
        }
        if text.byte(at) != b'"' {
            return self.any_text_end(text, begin, plain, made);
        }
        self.put(plain, at - begin, begin);
        Some(at + 1)
    }

    /// The same of a string that has more than plain bytes.
    fn any_text_end(&mut self, text: &Ended, begin: usize, plain: Kind, made: Kind) -> Option<usize> {
        let before = self.made.len();
        let mut run = begin;
        let mut at = begin;
        loop {
            match text.byte(at) {
                b'"' => break,
                b'\\' => {
                    self.run(&text.bytes[run..at])?;
                    at = self.escape_end(text, at + 1)?;
                    run = at;
                }
                0..=0x1F => return None,
                _ => at += 1,
            }
        }
        if run == begin {
            std::str::from_utf8(&text.bytes[begin..at]).ok()?;
            self.put(plain, at - begin, begin);
        } else {
            self.run(&text.bytes[run..at])?;
            self.put(made, self.made.len() - before, before);
        }
        Some(at + 1)
    }

    fn run(&mut self, run: &[u8]) -> Option<()> {
        std::str::from_utf8(run).ok()?;
        self.made.extend_from_slice(run);
        Some(())
    }

    fn escape_end(&mut self, text: &Ended, at: usize) -> Option<usize> {
        let byte = match text.byte(at) {
            b'u' => return self.unit_end(text, at + 1),
            b'b' => 0x08,
            b'f' => 0x0C,
            b'n' => b'\n',
            b'r' => b'\r',
            b't' => b'\t',
            other @ (b'"' | b'\\' | b'/') => other,
            _ => return None,
        };
        self.made.push(byte);
        Some(at + 1)
    }

    /// Behind a unit of UTF-16, or behind two that are a pair.
    fn unit_end(&mut self, text: &Ended, at: usize) -> Option<usize> {
        let first = text.unit(at)?;
        let mut end = at + 4;
        let mut code = first;
        if (0xD800..0xDC00).contains(&first) && text.bytes[end..].starts_with(b"\\u") {
            let second = text.unit(end + 2)?;
            if (0xDC00..0xE000).contains(&second) {
                code = 0x10000 + (first - 0xD800) * 0x400 + (second - 0xDC00);
                end += 6;
            }
        }
        let character = char::from_u32(code).unwrap_or(char::REPLACEMENT_CHARACTER);
        self.made.extend_from_slice(character.encode_utf8(&mut [0; 4]).as_bytes());
        Some(end)
    }

    /// How many values there are, and how many bytes the strings and the names have.
    fn counts(&self, text: &Ended) -> (u64, u64) {
        let mut values = 0u64;
        let mut length = 0u64;
        for entry in &self.entries {
            length += self.text(entry, text).len() as u64;
            values += u64::from(!matches!(entry.kind, Kind::Name | Kind::MadeName));
        }
        (values, length)
    }

    /// What a string or a name says; of other entries nothing.
    fn text<'a>(&'a self, entry: &Entry, text: &'a Ended) -> &'a [u8] {
        let rooms = match entry.kind {
            Kind::Text | Kind::Name => text.bytes,
            Kind::MadeText | Kind::MadeName => &self.made,
            _ => return &[],
        };
        &rooms[entry.at..entry.at + entry.length as usize]
    }
}

/// The sums of so many readings, or nothing where the bytes are no text.
fn sums(text: &Ended, times: u64) -> Option<(u64, u64)> {
    let mut tape = Tape::default();
    let mut sums = Some((0u64, 0u64));
    for _ in 0..times {
        let read = tape.read(text);
        sums = sums.filter(|_| read).map(|before| {
            let (values, length) = tape.counts(text);
            (before.0.wrapping_add(values), before.1.wrapping_add(length))
        });
    }
    sums
}

fn main() {
    let times = std::env::args().nth(1).and_then(|word| word.parse().ok()).expect("tape N");
    let mut bytes = Vec::new();
    std::io::stdin().read_to_end(&mut bytes).expect("standard input");
    bytes.push(0);
    match sums(&Ended { bytes: &bytes }, times) {
        Some((values, length)) => println!("values={values} bytes={length}"),
        None => println!("fault"),
    }
}
