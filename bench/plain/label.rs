//! Labelling: the verdict of every row at every instant, by two sweeps over a strip of cells.
use super::sheet::{Row, Sheet};
use super::trace::{MAX_INSTANTS, Reading, Source};

/// The cells of the longest trace under the longest sheet.
pub const CELLS: usize = MAX_INSTANTS * 32;

/// Whether a row holds at an instant, in one byte.
#[derive(Clone, Copy, PartialEq, Eq, PartialOrd, Ord, Debug)]
#[repr(u8)]
pub enum Verdict {
    No,
    Open,
    Yes,
}

impl Verdict {
    fn not(self) -> Verdict {
        match self {
            Verdict::No => Verdict::Yes,
            Verdict::Open => Verdict::Open,
            Verdict::Yes => Verdict::No,
        }
    }

    fn yes_if(flag: bool) -> Verdict {
        if flag { Verdict::Yes } else { Verdict::No }
    }
}

/// The verdict of row `r` at an instant, from the rows before it there, and from the neighbouring instant if there is one.
/// The compiler does not inline it by itself; the second program of `bench/run` has it inlined.
#[cfg_attr(inlined, inline(always))]
fn verdict(
    row: Row,
    r: usize,
    reading: &Reading,
    here: &[Verdict],
    near: Option<&[Verdict]>,
    beyond: Verdict,
) -> Verdict {
    let at = |a: u8| here[usize::from(a)];
    let beside = |a: usize, none: Verdict| near.map_or(none, |cells| cells[a]);
    match row {
        Row::True => Verdict::Yes,
        Row::False => Verdict::No,
        Row::Symbol(s) => Verdict::yes_if(reading.shows(s)),
        Row::Not(a) => at(a).not(),
        Row::And(a, b) => at(a).min(at(b)),
        Row::Or(a, b) => at(a).max(at(b)),
        Row::Next(a) => beside(a.into(), beyond),
        Row::Yest(a) => beside(a.into(), Verdict::No),
        Row::Until(a, b) => at(b).max(at(a).min(beside(r, beyond))),
        Row::Since(a, b) => at(b).max(at(a).min(beside(r, Verdict::No))),
        Row::Start => Verdict::yes_if(near.is_none()),
        Row::End => near.map_or(beyond.not(), |_| Verdict::No),
    }
}

/// Labels every instant; `beyond` stands after the last. Answers how many there are, or none where the strip is too short.
pub fn label<S: Source>(
    sheet: &Sheet,
    source: &S,
    beyond: Verdict,
    strip: &mut [Verdict],
) -> Option<usize> {
    let n = source.len();
    let m = sheet.rows.len();
    let strip = strip.get_mut(..n * m)?;
    for i in 0..n {
        let reading = source.reading(i + 1);
        let (before, rest) = strip.split_at_mut(i * m);
        let near = if i > 0 { Some(&before[(i - 1) * m..]) } else { None };
        let here = &mut rest[..m];
        for (r, (&row, class)) in sheet.rows.iter().zip(&sheet.classes).enumerate() {
            if class.looks_back() {
                here[r] = verdict(row, r, &reading, here, near, beyond);
            }
        }
    }
    for i in (0..n).rev() {
        let reading = source.reading(i + 1);
        let (front, after) = strip.split_at_mut((i + 1) * m);
        let near = if i + 1 < n { Some(&after[..m]) } else { None };
        let here = &mut front[i * m..];
        for (r, (&row, class)) in sheet.rows.iter().zip(&sheet.classes).enumerate() {
            if !class.looks_back() {
                here[r] = verdict(row, r, &reading, here, near, beyond);
            }
        }
    }
    Some(n)
}
