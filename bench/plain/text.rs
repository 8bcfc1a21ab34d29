//! The reader of rule texts.
use super::sheet::{Row, Rule, SHEET_FULL, Sheet};

const BAD_TEXT: u8 = 14;
const TOO_DEEP: u8 = 15;
const MAX_DEPTH: usize = 16;

/// Adds the rows of the rule that a text writes, and then the rule; a refusal leaves the sheet as it was.
pub fn add_rule_text(sheet: &mut Sheet, text: &[u8]) -> Result<(), u8> {
    let rows = sheet.rows.len();
    let mut reader = Reader { text, at: 0, sheet, refusal: None };
    let read = reader.rule();
    let refusal = reader.refusal;
    let full = if sheet.is_full_of_rules() { Some(SHEET_FULL) } else { None };
    match (read, refusal.or(full)) {
        (Ok(rule), None) => {
            sheet.rules.push(rule);
            Ok(())
        }
        (Err(refusal), _) | (Ok(_), Some(refusal)) => {
            sheet.truncate(rows);
            Err(refusal)
        }
    }
}

/// A reader at a place of a text, which adds rows to a sheet up to the first that is refused.
struct Reader<'a> {
    text: &'a [u8],
    at: usize,
    sheet: &'a mut Sheet,
    refusal: Option<u8>,
}

impl Reader<'_> {
    fn rule(&mut self) -> Result<Rule, u8> {
        let activator = self.formula(MAX_DEPTH)?;
        self.word(b" => ")?;
        let target = self.formula(MAX_DEPTH)?;
        if self.at < self.text.len() {
            return Err(BAD_TEXT);
        }
        Ok(Rule { activator, target })
    }

    fn formula(&mut self, left: usize) -> Result<u8, u8> {
        let row = match self.peek() {
            Some(b'(') => {
                let left = left.checked_sub(1).ok_or(TOO_DEEP)?;
                self.at += 1;
                return self.group(left);
            }
            Some(b't') => self.word(b"true").map(|()| Row::True)?,
            Some(b'f') => self.word(b"false").map(|()| Row::False)?,
            Some(b'e') => self.word(b"end").map(|()| Row::End)?,
            Some(b's') => self.name()?,
            _ => return Err(BAD_TEXT),
        };
        Ok(self.put(row))
    }

    fn name(&mut self) -> Result<Row, u8> {
        self.at += 1;
        match self.peek() {
            Some(b't') => self.word(b"tart").map(|()| Row::Start),
            Some(b'0') => {
                self.at += 1;
                Ok(Row::Symbol(0))
            }
            Some(d @ b'1'..=b'9') => {
                self.at += 1;
                let mut symbol = d - b'0';
                if let Some(e @ b'0'..=b'9') = self.peek() {
                    self.at += 1;
                    symbol = 10 * symbol + (e - b'0');
                }
                Ok(Row::Symbol(symbol))
            }
            _ => Err(BAD_TEXT),
        }
    }

    fn group(&mut self, left: usize) -> Result<u8, u8> {
        let unary: Option<fn(u8) -> Row> = match self.text[self.at..] {
            [b'n', b'e', ..] => Some((self.word(b"next "), Row::Next as fn(u8) -> Row)),
            [b'n', ..] => Some((self.word(b"not "), Row::Not as fn(u8) -> Row)),
            [b'y', ..] => Some((self.word(b"yest "), Row::Yest as fn(u8) -> Row)),
            _ => None,
        }
        .map(|(read, row)| read.map(|()| row))
        .transpose()?;
        if let Some(row) = unary {
            let a = self.formula(left)?;
            self.word(b")")?;
            return Ok(self.put(row(a)));
        }
        let a = self.formula(left)?;
        self.word(b" ")?;
        let binary: fn(u8, u8) -> Row = match self.peek() {
            Some(b'a') => self.word(b"and ").map(|()| Row::And)?,
            Some(b'o') => self.word(b"or ").map(|()| Row::Or)?,
            Some(b'u') => self.word(b"until ").map(|()| Row::Until)?,
            Some(b's') => self.word(b"since ").map(|()| Row::Since)?,
            _ => return Err(BAD_TEXT),
        };
        let b = self.formula(left)?;
        self.word(b")")?;
        Ok(self.put(binary(a, b)))
    }

    fn peek(&self) -> Option<u8> {
        self.text.get(self.at).copied()
    }

    fn word(&mut self, word: &[u8]) -> Result<(), u8> {
        if self.text[self.at..].starts_with(word) {
            self.at += word.len();
            Ok(())
        } else {
            Err(BAD_TEXT)
        }
    }

    /// Adds a row, unless one was refused before.
    fn put(&mut self, row: Row) -> u8 {
        if self.refusal.is_some() {
            return 0;
        }
        self.sheet.add_row(row).unwrap_or_else(|refusal| {
            self.refusal = Some(refusal);
            0
        })
    }
}
