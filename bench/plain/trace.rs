//! Traces: what an instant shows, the interface by which a trace is read, and the three records.

pub const MAX_INSTANTS: usize = 1024;
pub const SYMBOLS: u8 = 64;

const BAD_CODE: u32 = 1;
const CUT_SHORT: u32 = 2;
const TOO_LONG: u32 = 3;
const NO_INSTANT: u32 = 5;

/// Why an instant cannot be read.
#[derive(Clone, Copy, PartialEq, Eq, Debug)]
#[allow(dead_code)]
pub struct Fault {
    pub cause: u32,
    pub place: usize,
    pub layers: u8,
}

/// What an instant shows: the symbols that hold, as bits, or a fault.
#[derive(Clone, Copy, PartialEq, Eq, Debug)]
pub enum Reading {
    Readable(u64),
    Unreadable(Fault),
}

impl Reading {
    pub fn shows(&self, symbol: u8) -> bool {
        match self {
            Reading::Readable(symbols) => symbol < SYMBOLS && symbols >> symbol & 1 == 1,
            Reading::Unreadable(_) => false,
        }
    }

    fn fault(cause: u32, place: usize) -> Reading {
        Reading::Unreadable(Fault { cause, place, layers: 0 })
    }

    fn outside(instant: usize) -> Reading {
        Reading::fault(NO_INSTANT, instant)
    }

    fn alone(cause: u32, place: usize, instant: usize) -> Reading {
        if instant == 1 { Reading::fault(cause, place) } else { Reading::outside(instant) }
    }

    fn code(code: u8, place: usize) -> Reading {
        if code < SYMBOLS { Reading::Readable(1 << code) } else { Reading::fault(BAD_CODE, place) }
    }
}

/// Whatever a trace can be read from. Instants count from 1.
pub trait Source {
    fn len(&self) -> usize;
    fn reading(&self, instant: usize) -> Reading;

    fn first_unreadable(&self) -> Option<(usize, Fault)> {
        (1..=self.len()).find_map(|instant| match self.reading(instant) {
            Reading::Readable(_) => None,
            Reading::Unreadable(fault) => Some((instant, fault)),
        })
    }
}

/// A record of codes: each byte is an instant.
pub struct Codes<'a>(&'a [u8]);

impl<'a> Codes<'a> {
    pub fn new(bytes: &'a [u8]) -> Self {
        Codes(bytes)
    }
}

impl Source for Codes<'_> {
    fn len(&self) -> usize {
        if self.0.len() > MAX_INSTANTS { 1 } else { self.0.len() }
    }

    fn reading(&self, instant: usize) -> Reading {
        if self.0.len() > MAX_INSTANTS {
            return Reading::alone(TOO_LONG, MAX_INSTANTS, instant);
        }
        let place = instant.wrapping_sub(1);
        match self.0.get(place) {
            Some(&code) => Reading::code(code, place),
            None => Reading::outside(instant),
        }
    }
}

/// A record of snapshots: two bytes, the high one first, are an instant.
pub struct Snapshots<'a>(&'a [u8]);

impl<'a> Snapshots<'a> {
    pub fn new(bytes: &'a [u8]) -> Self {
        Snapshots(bytes)
    }

    fn count(&self) -> usize {
        self.0.len().div_ceil(2)
    }
}

impl Source for Snapshots<'_> {
    fn len(&self) -> usize {
        let n = self.count();
        if n > MAX_INSTANTS { 1 } else { n }
    }

    fn reading(&self, instant: usize) -> Reading {
        let n = self.count();
        if n > MAX_INSTANTS {
            return Reading::alone(TOO_LONG, 2 * MAX_INSTANTS, instant);
        }
        if instant == 0 || instant > n {
            return Reading::outside(instant);
        }
        let place = 2 * (instant - 1);
        match self.0[place..] {
            [high, low, ..] => Reading::Readable(u16::from_be_bytes([high, low]).into()),
            _ => Reading::fault(CUT_SHORT, place),
        }
    }
}

/// How many instants a record of runs has, or the place where instant 1,025 begins.
enum Extent {
    Within(usize),
    Overlong(usize),
}

/// A record of runs: a code byte and a count byte stand for that many equal instants.
pub struct Runs<'a> {
    bytes: &'a [u8],
    extent: Extent,
}

impl<'a> Runs<'a> {
    pub fn new(bytes: &'a [u8]) -> Self {
        Runs { bytes, extent: measure(bytes) }
    }

    /// The place of the pair or the lone byte of an instant, which here counts from 0.
    fn find(&self, index: usize) -> Option<usize> {
        let mut left = index;
        let pairs = self.bytes.chunks_exact(2);
        let lone = !pairs.remainder().is_empty();
        for (i, pair) in pairs.enumerate() {
            let count = usize::from(pair[1]);
            if left < count {
                return Some(2 * i);
            }
            left -= count;
        }
        (lone && left == 0).then(|| self.bytes.len() - 1)
    }
}

fn measure(bytes: &[u8]) -> Extent {
    let mut total = 0;
    for (i, pair) in bytes.chunks(2).enumerate() {
        total += pair.get(1).map_or(1, |&count| usize::from(count));
        if total > MAX_INSTANTS {
            return Extent::Overlong(2 * i);
        }
    }
    Extent::Within(total)
}

impl Source for Runs<'_> {
    fn len(&self) -> usize {
        match self.extent {
            Extent::Within(n) => n,
            Extent::Overlong(_) => 1,
        }
    }

    fn reading(&self, instant: usize) -> Reading {
        if let Extent::Overlong(place) = self.extent {
            return Reading::alone(TOO_LONG, place, instant);
        }
        match instant.checked_sub(1).and_then(|index| self.find(index)) {
            None => Reading::outside(instant),
            Some(at) if at + 1 < self.bytes.len() => Reading::code(self.bytes[at], at),
            Some(at) => Reading::fault(CUT_SHORT, at),
        }
    }
}
