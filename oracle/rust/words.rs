//! The files: words of 16 hex digits with one byte after each, records with their length in front.
use std::fs;

/// Above every problem of 01's sizes with its answer. Stored records are shorter: `store` sees to that.
pub const LONGEST: u64 = 1 << 19;
const NAN: u64 = 0x7ff8_0000_0000_0000;

struct Reader<'a> {
    bytes: &'a [u8],
    at: usize,
}

impl Reader<'_> {
    /// One word and the byte after it; `place` is said where it is damaged.
    fn word(&mut self, place: &dyn Fn() -> String) -> Result<(u64, u8), String> {
        let wrong = |what: &str| format!("{}: {what}", place());
        let chunk = self.bytes.get(self.at..self.at + 17).ok_or_else(|| wrong("the file ends here"))?;
        if !chunk[..16].iter().all(|b| matches!(b, b'0'..=b'9' | b'a'..=b'f')) {
            return Err(wrong("not 16 lowercase hex digits"));
        }
        if !matches!(chunk[16], b' ' | b'\n') {
            return Err(wrong("not followed by a space or a newline"));
        }
        self.at += 17;
        let text = std::str::from_utf8(&chunk[..16]).unwrap();
        Ok((u64::from_str_radix(text, 16).unwrap(), chunk[16]))
    }
}

/// The records of a file, each without its length. Records and words are counted from 0; word 0 is the length.
pub fn read(path: &str) -> Result<Vec<Vec<u64>>, String> {
    let bytes = fs::read(path).map_err(|e| format!("{path}: {e}"))?;
    let mut reader = Reader { bytes: &bytes, at: 0 };
    let (count, _) = reader.word(&|| format!("{path}: first word"))?;
    let mut records = Vec::new();
    for record in 0..count {
        let (length, _) = reader.word(&|| place(path, record, 0))?;
        if length == 0 || length > LONGEST {
            return Err(format!("{}: a record of {length} words", place(path, record, 0)));
        }
        let (mut words, mut last) = (Vec::new(), 0);
        for word in 1..=length {
            let (value, end) = reader.word(&|| place(path, record, word))?;
            words.push(value);
            last = end;
        }
        if last != b'\n' {
            return Err(format!("{}: no newline ends the record", place(path, record, length)));
        }
        records.push(words);
    }
    if reader.at != bytes.len() {
        return Err(format!("{path}: {} bytes after the last record", bytes.len() - reader.at));
    }
    Ok(records)
}

pub fn place(path: &str, record: u64, word: u64) -> String {
    format!("{path}: record {record}, word {word}")
}

/// A record as text: its length, then its lines.
pub fn record_text(lines: &[Vec<u64>]) -> String {
    let length: usize = lines.iter().map(Vec::len).sum();
    let body: Vec<String> = lines.iter().filter(|line| !line.is_empty()).map(|line| line_text(line)).collect();
    format!("{length:016x} {}\n", body.join("\n"))
}

pub fn line_text(words: &[u64]) -> String {
    words.iter().map(|word| format!("{word:016x}")).collect::<Vec<_>>().join(" ")
}

/// Whole or not at all: a temporary name first.
pub fn write(path: &str, text: &str) -> Result<(), String> {
    let part = format!("{path}.tmp");
    fs::write(&part, text).map_err(|e| format!("{part}: {e}"))?;
    fs::rename(&part, path).map_err(|e| format!("{path}: {e}"))
}

/// NaN has one pattern in every answer. Not inlined: LLVM 22 shortens "NaN where x < 0, else root of x" to the
/// root's own NaN, which on x86 has its sign set.
#[inline(never)]
pub fn bits(x: f64) -> u64 {
    if x.is_nan() { NAN } else { x.to_bits() }
}

/// A function on bits, for each word of each record.
pub fn map(input: &str, out: &str, f: impl Fn(f64) -> f64) -> Result<String, String> {
    let mut text = String::new();
    for word in read(input)?.concat() {
        text += &format!("{:016x}\n", bits(f(f64::from_bits(word))));
    }
    write(out, &text)?;
    Ok(String::new())
}
