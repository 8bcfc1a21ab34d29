//! Sheets of rows and rules.
use super::trace::SYMBOLS;

const MAX_ROWS: usize = 32;
const MAX_RULES: usize = 8;

pub const SHEET_FULL: u8 = 11;
const BAD_OPERAND: u8 = 12;
const UNSEPARATED: u8 = 13;

/// A formula over the earlier rows of its sheet.
#[derive(Clone, Copy, Debug)]
pub enum Row {
    True,
    False,
    Symbol(u8),
    Not(u8),
    And(u8, u8),
    Or(u8, u8),
    Next(u8),
    Yest(u8),
    Until(u8, u8),
    Since(u8, u8),
    Start,
    End,
}

/// Where the row `activator` holds, the row `target` should hold too.
#[derive(Clone, Copy, Debug)]
pub struct Rule {
    pub activator: u8,
    pub target: u8,
}

/// Which way a row looks along a trace.
#[derive(Clone, Copy, PartialEq, Eq, Debug)]
pub enum Class {
    Present,
    Past,
    Future,
    Mixed,
}

impl Class {
    pub fn looks_back(self) -> bool {
        matches!(self, Class::Present | Class::Past)
    }

    fn looks_ahead(self) -> bool {
        matches!(self, Class::Present | Class::Future)
    }

    fn joined(self, other: Class) -> Class {
        match (self, other) {
            (Class::Present, class) | (class, Class::Present) => class,
            (a, b) if a == b => a,
            _ => Class::Mixed,
        }
    }
}

/// Rows, the class of each, and rules over them.
pub struct Sheet {
    pub rows: Vec<Row>,
    pub classes: Vec<Class>,
    pub rules: Vec<Rule>,
}

impl Sheet {
    pub fn new() -> Sheet {
        Sheet {
            rows: Vec::with_capacity(MAX_ROWS),
            classes: Vec::with_capacity(MAX_ROWS),
            rules: Vec::with_capacity(MAX_RULES),
        }
    }

    pub fn add_row(&mut self, row: Row) -> Result<u8, u8> {
        if self.rows.len() >= MAX_ROWS {
            return Err(SHEET_FULL);
        }
        let class = self.class_of(row)?;
        self.rows.push(row);
        self.classes.push(class);
        Ok(self.rows.len() as u8 - 1)
    }

    pub fn is_full_of_rules(&self) -> bool {
        self.rules.len() >= MAX_RULES
    }

    /// Takes the last rows off again.
    pub fn truncate(&mut self, rows: usize) {
        self.rows.truncate(rows);
        self.classes.truncate(rows);
    }

    fn class_of(&self, row: Row) -> Result<Class, u8> {
        let class = |a: u8| self.classes.get(usize::from(a)).copied().ok_or(BAD_OPERAND);
        let separated = |fits: bool, class: Class| if fits { Ok(class) } else { Err(UNSEPARATED) };
        match row {
            Row::True | Row::False => Ok(Class::Present),
            Row::Symbol(s) if s < SYMBOLS => Ok(Class::Present),
            Row::Symbol(_) => Err(BAD_OPERAND),
            Row::Not(a) => class(a),
            Row::And(a, b) | Row::Or(a, b) => Ok(class(a)?.joined(class(b)?)),
            Row::Next(a) => separated(class(a)?.looks_ahead(), Class::Future),
            Row::Yest(a) => separated(class(a)?.looks_back(), Class::Past),
            Row::Until(a, b) => {
                let (a, b) = (class(a)?, class(b)?);
                separated(a.looks_ahead() && b.looks_ahead(), Class::Future)
            }
            Row::Since(a, b) => {
                let (a, b) = (class(a)?, class(b)?);
                separated(a.looks_back() && b.looks_back(), Class::Past)
            }
            Row::Start => Ok(Class::Past),
            Row::End => Ok(Class::Future),
        }
    }
}
