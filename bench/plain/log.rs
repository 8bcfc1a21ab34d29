//! The reader of log files.

/// A record: its kind by the second byte of its mark, and its body.
pub struct Record<'a> {
    pub kind: u8,
    pub body: &'a [u8],
}

/// Hands out one record after another, and stops at the first that cannot be read.
pub struct LogReader<'a> {
    file: &'a [u8],
    at: usize,
}

impl<'a> LogReader<'a> {
    pub fn new(file: &'a [u8]) -> Self {
        LogReader { file, at: 0 }
    }

    /// The next record, none at the file's end, or the place of a record that cannot be read.
    pub fn next(&mut self) -> Result<Option<Record<'a>>, usize> {
        let place = self.at;
        match self.file[place..] {
            [] => Ok(None),
            [0x5A, kind @ 1..=3, high, low, ..] => {
                let len = usize::from(u16::from_be_bytes([high, low]));
                let body = self.file[place + 4..].get(..len).ok_or(place)?;
                self.at += 4 + len;
                Ok(Some(Record { kind, body }))
            }
            _ => Err(place),
        }
    }
}
