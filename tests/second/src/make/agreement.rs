//! Sheets whose lines agree under hidden units, and clashes made from them.

use super::draft::*;
use super::random::Random;

type Value = [i64; 8];

const EXPONENTS: [i64; 13] = [1, 1, 1, 2, 2, 3, 4, 5, 8, 13, 21, 34, 55];

pub struct Agreement {
    pub draft: Draft,
    /// The unit in the bases of each unknown.
    hidden: Vec<Value>,
    /// The unit in the bases of each line.
    values: Vec<Value>,
}

impl Agreement {
    pub fn new(random: &mut Random, v: usize) -> Agreement {
        let mut hidden = vec![[0; 8]; v];
        for _ in 0..random.range(1, 3) {
            let column = random.below(8);
            for value in &mut hidden {
                value[column] = random.range(-2, 2);
            }
        }
        Agreement {
            draft: Draft::new(v),
            hidden,
            values: Vec::new(),
        }
    }

    fn full(&self) -> bool {
        self.draft.records.len() > 58
            || self.draft.lines.len() > 240
            || self.draft.channels.len() > 12
    }

    fn value_of(&self, record: &Record) -> Value {
        let mut value = [0; 8];
        for (column, sum) in value.iter_mut().enumerate() {
            *sum = i64::from(record[24 + column]);
            for (exponent, unit) in record.iter().zip(&self.hidden) {
                *sum += i64::from(*exponent) * unit[column];
            }
        }
        value
    }

    /// A record with random unknowns, each to a multiple of `multiple`.
    fn unknowns(&self, random: &mut Random, multiple: i64) -> Record {
        let mut record = [0; 32];
        if self.draft.v > 0 {
            for _ in 0..random.range(1, 4) {
                let exponent = random.sign() * random.pick(&EXPONENTS);
                let fitting = (exponent * multiple).clamp(-64, 64) / multiple * multiple;
                record[random.below(self.draft.v)] = fitting as i8;
            }
        }
        record
    }

    /// A record with random unknowns whose hidden value is the target.
    fn record(&self, random: &mut Random, target: Value, multiple: i64) -> Option<Record> {
        for attempt in 0..8 {
            let mut record = match attempt {
                7 => [0; 32],
                _ => self.unknowns(random, multiple),
            };
            let value = self.value_of(&record);
            let bases = [0, 1, 2, 3, 4, 5, 6, 7].map(|i| target[i] - value[i]);
            if bases.iter().all(|x| x.abs() <= 64) {
                record[24..].copy_from_slice(&bases.map(|x| x as i8));
                return Some(record);
            }
        }
        None
    }

    fn reading(&mut self, record: Record) -> u8 {
        self.values.push(self.value_of(&record));
        self.draft.reading(record)
    }

    fn line(&mut self, code: u8, a: u8, b: u8, value: Value) -> u8 {
        self.values.push(value);
        self.draft.line(code, a, b)
    }

    fn product(&mut self, code: u8, a: u8, b: u8) -> u8 {
        let (left, right) = (self.values[a as usize], self.values[b as usize]);
        let sign = if code == MULTIPLY { 1 } else { -1 };
        let value = [0, 1, 2, 3, 4, 5, 6, 7].map(|i| left[i] + sign * right[i]);
        self.line(code, a, b, value)
    }

    fn stated(&mut self, line: u8, record: Record) {
        let index = self.draft.record(record);
        self.line(STATED, line, index, self.value_of(&record));
    }

    fn some_line(&mut self, random: &mut Random) -> u8 {
        let lines = self.draft.lines.len();
        if lines == 0 || random.one_in(2) {
            let mut record = self.unknowns(random, 1);
            record[random.base()] = random.range(-3, 3) as i8;
            return self.reading(record);
        }
        let (a, b) = (random.below(lines) as u8, random.below(lines) as u8);
        match random.below(4) {
            0 => a,
            1 => self.line(NUMBER, random.bits() as u8, random.bits() as u8, [0; 8]),
            2 => self.product(DIVIDE, a, b),
            _ => self.product(MULTIPLY, a, b),
        }
    }

    /// Adds lines with one more equation that the hidden units satisfy.
    pub fn add_equation(&mut self, random: &mut Random) {
        if self.full() {
            return;
        }
        let left = self.some_line(random);
        let value = self.values[left as usize];
        match random.below(6) {
            0 if self.draft.v > 0 => {
                let unknown = random.below(self.draft.v);
                let root = self.hidden[unknown];
                if let Some(record) = self.record(random, root.map(|x| 2 * x), 1) {
                    let line = self.reading(record);
                    self.line(ROOT, line, unknown as u8, root);
                }
            }
            1 => {
                if let Some(record) = self.record(random, value, 1) {
                    let right = self.reading(record);
                    let code = random.pick(&[ADD, SUBTRACT, LESS_THAN]);
                    let unit = if code == LESS_THAN { [0; 8] } else { value };
                    self.line(code, left, right, unit);
                }
            }
            _ => {
                if let Some(record) = self.record(random, value, 1) {
                    self.stated(left, record);
                }
            }
        }
    }

    /// States one line as two records that differ in a base: a clash in step 1.
    pub fn clash_in_step_1(&mut self, random: &mut Random) {
        let line = self.some_line(random);
        let Some(mut record) = self.record(random, self.values[line as usize], 1) else {
            return;
        };
        self.stated(line, record);
        let column = random.base();
        record[column] += if record[column] > 0 { -1 } else { 1 };
        self.stated(line, record);
    }

    /// States a power as something that is no such power: a clash in step 4
    /// where unknowns are left.
    pub fn clash_in_step_4(&mut self, random: &mut Random) {
        let multiple = random.range(2, 5);
        let root = self.unknowns(random, 1);
        let line = self.reading(root);
        let mut power = line;
        for _ in 1..multiple {
            power = self.product(MULTIPLY, power, line);
        }
        let target = self.values[power as usize];
        let Some(mut record) = self.record(random, target, multiple) else {
            return;
        };
        let column = random.base();
        record[column] += if record[column] > 0 { -1 } else { 1 };
        self.stated(power, record);
    }
}
