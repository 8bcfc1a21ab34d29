//! The register: it adds up the labels of traces, rule by rule.
use super::label::{CELLS, Verdict, label};
use super::sheet::{Rule, Sheet};
use super::trace::{Codes, MAX_INSTANTS, SYMBOLS, Source};
use crate::figures::Figures;

const BLANK: u8 = 1;
const UNREADABLE: u8 = 2;
const SHORT_STRIP: u8 = 3;
const NO_CODE: u8 = 7;
const LONG: u8 = 8;
const NO_INSTANT: u8 = 9;
const NO_RULE: u8 = 10;

pub struct Register {
    sheet: Sheet,
    codes: Vec<u8>,
    pub figures: Vec<Figures>,
}

impl Register {
    pub fn new(sheet: Sheet) -> Register {
        let figures = vec![Figures::default(); sheet.rules.len()];
        Register { sheet, codes: Vec::with_capacity(MAX_INSTANTS), figures }
    }

    /// Labels the trace behind a source into the strip, adds it, and answers how many instants it has.
    pub fn take_in<S: Source>(&mut self, source: &S, strip: &mut [Verdict]) -> Result<usize, u8> {
        if source.len() == 0 {
            return Err(BLANK);
        }
        if source.first_unreadable().is_some() {
            return Err(UNREADABLE);
        }
        let n = label(&self.sheet, source, Verdict::No, strip).ok_or(SHORT_STRIP)?;
        let m = self.sheet.rows.len();
        for (&rule, figures) in self.sheet.rules.iter().zip(&mut self.figures) {
            figures.add(&own(rule, &strip[..n * m], m));
        }
        Ok(n)
    }

    /// Notes codes, and looks at an instant of them.
    pub fn peek_at(
        &mut self,
        codes: &[u8],
        rule: usize,
        instant: usize,
    ) -> Result<(Verdict, Verdict), u8> {
        self.codes.clear();
        for &code in codes {
            self.note(code)?;
        }
        self.peek(rule, instant)
    }

    fn note(&mut self, code: u8) -> Result<(), u8> {
        if code >= SYMBOLS {
            return Err(NO_CODE);
        }
        if self.codes.len() >= MAX_INSTANTS {
            return Err(LONG);
        }
        self.codes.push(code);
        Ok(())
    }

    fn peek(&self, rule: usize, instant: usize) -> Result<(Verdict, Verdict), u8> {
        let rule = self.sheet.rules.get(rule).ok_or(NO_RULE)?;
        if instant == 0 || instant > self.codes.len() {
            return Err(NO_INSTANT);
        }
        let mut strip = [Verdict::No; CELLS];
        label(&self.sheet, &Codes::new(&self.codes), Verdict::Open, &mut strip).ok_or(SHORT_STRIP)?;
        let m = self.sheet.rows.len();
        let cells = &strip[(instant - 1) * m..instant * m];
        Ok((cells[usize::from(rule.activator)], cells[usize::from(rule.target)]))
    }
}

/// A rule's own figures of a trace, from the cells of a strip that has `m` cells for each instant.
fn own(rule: Rule, strip: &[Verdict], m: usize) -> Figures {
    let mut f = Figures::default();
    for cells in strip.chunks_exact(m) {
        let act = cells[usize::from(rule.activator)] == Verdict::Yes;
        let tgt = cells[usize::from(rule.target)] == Verdict::Yes;
        match (act, tgt) {
            (true, true) => f.both += 1,
            (true, false) => f.act += 1,
            (false, true) => f.tgt += 1,
            (false, false) => f.none += 1,
        }
    }
    let held = f.both + f.act;
    if held > 0 {
        f.triggered = 1;
        f.degrees = f.both * 1_000_000 / held;
    }
    f
}
