//! Reading a text: comment lines, the header, and the tokens of the body.
//! Every refusal is given at the first offset at which the text is wrong,
//! because the reader only moves forward.

use crate::refusal::{refuse, Refusal};
use crate::tables::{MOST_CLAUSES, MOST_LITERALS, MOST_VARIABLES};

const GRAMMAR: u32 = 2;
pub const LIMIT: u32 = 3;

/// What a text says: V and the clauses as written.
pub struct Written {
    pub variables: usize,
    pub clauses: Vec<Vec<i32>>,
}

pub fn read(text: &[u8]) -> Result<Written, Refusal> {
    let mut reader = Reader { text, offset: 0 };
    reader.comments()?;
    for byte in b"p cnf " {
        reader.expect(*byte)?;
    }
    let variables = reader.header_number(MOST_VARIABLES)?;
    reader.expect(b' ')?;
    let clause_count = reader.header_number(MOST_CLAUSES)?;
    if !reader.at_end() {
        reader.expect(b'\n')?;
    }
    let clauses = reader.body(variables, clause_count)?;
    Ok(Written { variables, clauses })
}

/// A reader that stands on the text at an offset.
struct Reader<'a> {
    text: &'a [u8],
    offset: usize,
}

impl<'a> Reader<'a> {
    fn at_end(&self) -> bool {
        self.offset == self.text.len()
    }

    fn byte(&self) -> Option<u8> {
        self.text.get(self.offset).copied()
    }

    /// Passes the lines that begin with `c`. Such a line ends with LF.
    fn comments(&mut self) -> Result<(), Refusal> {
        while self.byte() == Some(b'c') {
            while self.byte() != Some(b'\n') {
                if self.at_end() {
                    return refuse(GRAMMAR, self.text.len());
                }
                self.offset += 1;
            }
            self.offset += 1;
        }
        Ok(())
    }

    fn expect(&mut self, byte: u8) -> Result<(), Refusal> {
        if self.byte() != Some(byte) {
            return refuse(GRAMMAR, self.offset);
        }
        self.offset += 1;
        Ok(())
    }

    /// A number of the header. A `0` is complete by itself; any other number
    /// is a maximal run of digits.
    fn header_number(&mut self, most: usize) -> Result<usize, Refusal> {
        let first = self.offset;
        match self.byte() {
            Some(b'0') => {
                self.offset += 1;
                return Ok(0);
            }
            Some(b'1'..=b'9') => {}
            _ => return refuse(GRAMMAR, self.offset),
        }
        while matches!(self.byte(), Some(b'0'..=b'9')) {
            self.offset += 1;
        }
        let number = number_of(&self.text[first..self.offset]);
        if number > most as u64 {
            return refuse(LIMIT, first);
        }
        Ok(number as usize)
    }

    /// The next token and its offset: a maximal run of bytes that are not
    /// space, tab, CR or LF.
    fn token(&mut self) -> Option<(usize, &'a [u8])> {
        let separates = |byte: u8| matches!(byte, b' ' | b'\t' | b'\r' | b'\n');
        while self.byte().is_some_and(separates) {
            self.offset += 1;
        }
        if self.at_end() {
            return None;
        }
        let first = self.offset;
        while self.byte().is_some_and(|byte| !separates(byte)) {
            self.offset += 1;
        }
        Some((first, &self.text[first..self.offset]))
    }

    fn body(&mut self, variables: usize, clause_count: usize) -> Result<Vec<Vec<i32>>, Refusal> {
        let mut clauses = Vec::new();
        let mut clause = Vec::new();
        let mut literal_count = 0;
        while let Some((offset, token)) = self.token() {
            if !is_grammatical(token) {
                return refuse(GRAMMAR, offset);
            }
            if clauses.len() == clause_count {
                return refuse(LIMIT, offset);
            }
            if token == b"0" {
                clauses.push(clause);
                clause = Vec::new();
                continue;
            }
            let (negative, digits) = split_sign(token);
            let variable = number_of(digits);
            if variable > variables as u64 || literal_count == MOST_LITERALS {
                return refuse(LIMIT, offset);
            }
            literal_count += 1;
            let variable = variable as i32;
            clause.push(if negative { -variable } else { variable });
        }
        if !clause.is_empty() {
            return refuse(GRAMMAR, self.text.len());
        }
        if clauses.len() < clause_count {
            return refuse(LIMIT, self.text.len());
        }
        Ok(clauses)
    }
}

fn split_sign(token: &[u8]) -> (bool, &[u8]) {
    match token {
        [b'-', digits @ ..] => (true, digits),
        digits => (false, digits),
    }
}

/// A token is `0`, or an optional `-` and digits without a leading zero.
fn is_grammatical(token: &[u8]) -> bool {
    let (_, digits) = split_sign(token);
    token == b"0"
        || (!digits.is_empty() && digits[0] != b'0' && digits.iter().all(|d| d.is_ascii_digit()))
}

/// The number that digits say. Numbers too large for the type all become its
/// largest one, which is over every limit.
fn number_of(digits: &[u8]) -> u64 {
    digits.iter().fold(0u64, |number, digit| {
        number
            .saturating_mul(10)
            .saturating_add((digit - b'0') as u64)
    })
}
