//! The same calls as the library exports, in plain Rust.
mod label;
mod log;
mod register;
mod report;
mod sheet;
mod text;
mod trace;

use crate::figures::Figures;
use label::{CELLS, Verdict};
use register::Register;
use sheet::Sheet;
use trace::{Codes, Runs, Snapshots};

const DONE: u32 = 0;
const NO_KIND: u32 = 253;
const SHORT_SLICE: u32 = 254;

/// Reads rule lines, and answers how many rules they write, or the number of the refusal.
#[inline(never)]
pub fn rule_text(rules: &[u8]) -> u32 {
    match report::read_rules(rules) {
        Ok(sheet) => sheet.rules.len() as u32,
        Err((_, refusal)) => refusal.into(),
    }
}

/// Takes in the trace of one record into a register of its own, and writes the figures of each rule.
#[inline(never)]
pub fn take_in(rules: &[u8], kind: u8, body: &[u8], figures: &mut [Figures]) -> u32 {
    if !(1..=3).contains(&kind) {
        return NO_KIND;
    }
    let sheet: Sheet = match report::read_rules(rules) {
        Ok(sheet) => sheet,
        Err((_, refusal)) => return refusal.into(),
    };
    let Some(figures) = figures.get_mut(..sheet.rules.len()) else {
        return SHORT_SLICE;
    };
    let mut register = Register::new(sheet);
    let mut strip = [Verdict::No; CELLS];
    let taken = match kind {
        1 => register.take_in(&Codes::new(body), &mut strip),
        2 => register.take_in(&Snapshots::new(body), &mut strip),
        _ => register.take_in(&Runs::new(body), &mut strip),
    };
    match taken {
        Ok(_) => {
            figures.copy_from_slice(&register.figures);
            DONE
        }
        Err(refusal) => refusal.into(),
    }
}

/// The standing verdicts of a rule's activator and target at an instant of the codes.
#[inline(never)]
pub fn peek(
    rules: &[u8],
    codes: &[u8],
    rule: usize,
    instant: usize,
    activator: &mut u8,
    target: &mut u8,
) -> u32 {
    let sheet = match report::read_rules(rules) {
        Ok(sheet) => sheet,
        Err((_, refusal)) => return refusal.into(),
    };
    let mut register = Register::new(sheet);
    match register.peek_at(codes, rule, instant) {
        Ok((a, t)) => {
            *activator = a as u8;
            *target = t as u8;
            DONE
        }
        Err(refusal) => refusal.into(),
    }
}

/// Writes the report on a log by a rules file, and answers how many bytes it has.
#[inline(never)]
pub fn report(rules: &[u8], log: &[u8], out: &mut [u8]) -> usize {
    let text = report::report(rules, log);
    if let Some(room) = out.get_mut(..text.len()) {
        room.copy_from_slice(&text);
    }
    text.len()
}
