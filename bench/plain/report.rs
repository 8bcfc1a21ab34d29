//! The whole report on a log.
use super::label::{CELLS, Verdict};
use super::log::LogReader;
use super::register::Register;
use super::sheet::Sheet;
use super::text::add_rule_text;
use super::trace::{Codes, Runs, Snapshots};
use std::io::Write;

const MAX_RULES_TEXT: usize = 8192;
const MAX_LOG: usize = 65536;

/// The sheet of a rules file, or the number of the first refused line and the refusal's number.
pub fn read_rules(text: &[u8]) -> Result<Sheet, (usize, u8)> {
    let mut sheet = Sheet::new();
    if text.is_empty() {
        return Ok(sheet);
    }
    let text = text.strip_suffix(b"\n").unwrap_or(text);
    for (i, line) in text.split(|&b| b == b'\n').enumerate() {
        add_rule_text(&mut sheet, line).map_err(|refusal| (i + 1, refusal))?;
    }
    Ok(sheet)
}

/// All that a rules file and a log come to, as the bytes of a text.
pub fn report(rules: &[u8], log: &[u8]) -> Vec<u8> {
    let mut out = Vec::new();
    if rules.len() > MAX_RULES_TEXT || log.len() > MAX_LOG {
        out.extend_from_slice(b"too long\n");
        return out;
    }
    match read_rules(rules) {
        Ok(sheet) => report_log(sheet, log, &mut out),
        Err((line, refusal)) => writeln!(out, "line {line} refused {refusal}"),
    }
    .expect("a vector takes all that is written");
    out
}

fn report_log(sheet: Sheet, log: &[u8], out: &mut Vec<u8>) -> std::io::Result<()> {
    let mut register = Register::new(sheet);
    let mut strip = [Verdict::No; CELLS];
    let mut reader = LogReader::new(log);
    let (mut records, mut traces, mut instants) = (0u64, 0u64, 0u64);
    let stop = loop {
        let record = match reader.next() {
            Ok(None) => break None,
            Err(place) => break Some(place),
            Ok(Some(record)) => record,
        };
        records += 1;
        let taken = match record.kind {
            1 => register.take_in(&Codes::new(record.body), &mut strip),
            2 => register.take_in(&Snapshots::new(record.body), &mut strip),
            _ => register.take_in(&Runs::new(record.body), &mut strip),
        };
        match taken {
            Ok(n) => {
                traces += 1;
                instants += n as u64;
            }
            Err(refusal) => writeln!(out, "record {records} refused {refusal}")?,
        }
    };
    if let Some(place) = stop {
        writeln!(out, "log refused 16 at {place}")?;
    }
    writeln!(out, "traces {traces} instants {instants}")?;
    for (k, f) in register.figures.iter().enumerate() {
        writeln!(
            out,
            "rule {k} both {} act {} tgt {} none {} trig {} deg {}",
            f.both, f.act, f.tgt, f.none, f.triggered, f.degrees
        )?;
    }
    Ok(())
}
