//! A sheet being written.

pub const NUMBER: u8 = 0;
pub const READING: u8 = 1;
pub const ADD: u8 = 2;
pub const SUBTRACT: u8 = 3;
pub const MULTIPLY: u8 = 4;
pub const DIVIDE: u8 = 5;
pub const ROOT: u8 = 6;
pub const LESS_THAN: u8 = 7;
pub const STATED: u8 = 8;

pub type Record = [i8; 32];

/// A record with one exponent that is not 0.
pub fn one(column: usize, exponent: i8) -> Record {
    let mut record = [0; 32];
    record[column] = exponent;
    record
}

#[derive(Clone, Default)]
pub struct Draft {
    pub v: usize,
    pub records: Vec<Record>,
    pub channels: Vec<u8>,
    pub lines: Vec<[u8; 4]>,
}

impl Draft {
    pub fn new(v: usize) -> Draft {
        Draft {
            v,
            ..Draft::default()
        }
    }

    pub fn bytes(&self) -> Vec<u8> {
        let mut bytes: Vec<u8> = self.records.concat().iter().map(|&e| e as u8).collect();
        bytes.extend(&self.channels);
        bytes.extend(self.lines.concat());
        let third = 16 + 4 * self.lines.len();
        let second = third + self.channels.len();
        let first = second + 32 * self.records.len();
        for distance in [first, second, third] {
            bytes.extend((distance as u16).to_le_bytes());
        }
        bytes.extend([self.v, self.records.len(), self.channels.len(), 0].map(|n| n as u8));
        bytes.extend((self.lines.len() as u16).to_le_bytes());
        bytes.extend(b"CSH1");
        bytes
    }

    pub fn record(&mut self, record: Record) -> u8 {
        self.records.push(record);
        (self.records.len() - 1) as u8
    }

    pub fn line(&mut self, code: u8, a: u8, b: u8) -> u8 {
        self.lines.push([code, a, b, 0]);
        (self.lines.len() - 1) as u8
    }

    /// A record, a channel that uses it and a line that reads it.
    pub fn reading(&mut self, record: Record) -> u8 {
        let index = self.record(record);
        self.channels.push(index);
        self.line(READING, (self.channels.len() - 1) as u8, 0)
    }

    pub fn stated(&mut self, line: u8, record: Record) -> u8 {
        let index = self.record(record);
        self.line(STATED, line, index)
    }

    /// The line to the power n, n at least 1: for n up to the limit at most 52 lines.
    pub fn power(&mut self, line: u8, n: i64) -> u8 {
        let mut result = line;
        for bit in (0..n.ilog2()).rev() {
            result = self.line(MULTIPLY, result, result);
            if n >> bit & 1 == 1 {
                result = self.line(MULTIPLY, result, line);
            }
        }
        result
    }
}
