//! Reading a sheet: document 01, "The sheet", and checks 1 to 7.

use crate::answer::{refuse_if, Cause, Refusal};
use crate::elimination::{Row, COLUMNS, UNKNOWNS};

const TRAILER: usize = 16;
const LONGEST: usize = 3104;

pub struct Sheet {
    pub v: usize,
    pub records: Vec<Row>,
    pub channels: Vec<usize>,
    pub lines: Vec<[u8; 4]>,
    /// Where the first line begins.
    pub lines_start: usize,
}

struct Trailer {
    distances: [usize; 3],
    v: usize,
    u: usize,
    c: usize,
    byte9: u8,
    n: usize,
}

impl Sheet {
    pub fn read(bytes: &[u8]) -> Result<Sheet, Refusal> {
        let length = bytes.len();
        refuse_if(!(TRAILER..=LONGEST).contains(&length), Cause::Length, 0)?;
        refuse_if(!bytes.ends_with(b"CSH1"), Cause::LastFourBytes, 0)?;
        let trailer = Trailer::read(&bytes[length - TRAILER..]);
        trailer.check_limits()?;
        refuse_if(!trailer.agrees_with(length), Cause::Distance, 0)?;
        let sheet = Sheet::split(bytes, &trailer);
        sheet.check_records()?;
        sheet.check_channels()?;
        sheet.check_lines()?;
        Ok(sheet)
    }

    fn split(bytes: &[u8], trailer: &Trailer) -> Sheet {
        let (records, rest) = bytes.split_at(COLUMNS * trailer.u);
        let (channels, rest) = rest.split_at(trailer.c);
        let lines = &rest[..4 * trailer.n];
        let exponent = |&byte: &u8| i128::from(byte as i8);
        Sheet {
            v: trailer.v,
            records: records
                .chunks(COLUMNS)
                .map(|record| record.iter().map(exponent).collect())
                .collect(),
            channels: channels.iter().map(|&byte| usize::from(byte)).collect(),
            lines: lines
                .chunks(4)
                .map(|line| [line[0], line[1], line[2], line[3]])
                .collect(),
            lines_start: COLUMNS * trailer.u + trailer.c,
        }
    }

    fn check_records(&self) -> Result<(), Refusal> {
        for (place, record) in self.records.iter().enumerate() {
            let out_of_range = record.iter().any(|x| x.abs() > 64);
            let above = record[self.v..UNKNOWNS].iter().any(|&x| x != 0);
            refuse_if(out_of_range, Cause::RecordRange, place)?;
            refuse_if(above, Cause::ColumnAboveUnknowns, place)?;
        }
        Ok(())
    }

    fn check_channels(&self) -> Result<(), Refusal> {
        for (place, &record) in self.channels.iter().enumerate() {
            refuse_if(record >= self.records.len(), Cause::Channel, place)?;
        }
        Ok(())
    }

    fn check_lines(&self) -> Result<(), Refusal> {
        for (place, &[code, a, b, last]) in self.lines.iter().enumerate() {
            let (a, b) = (usize::from(a), usize::from(b));
            let operands_in_range = match code {
                0 => true,
                1 => a < self.channels.len(),
                2..=5 | 7 => a < place && b < place,
                6 => a < place && b < self.v,
                8 => a < place && b < self.records.len(),
                _ => return refuse_if(true, Cause::LineCode, place),
            };
            let unused_byte = last != 0 || (code == 1 && b != 0);
            refuse_if(!operands_in_range, Cause::LineOperand, place)?;
            refuse_if(unused_byte, Cause::LineUnusedByte, place)?;
        }
        Ok(())
    }
}

impl Trailer {
    fn read(bytes: &[u8]) -> Trailer {
        let word =
            |offset: usize| usize::from(bytes[offset]) + 256 * usize::from(bytes[offset + 1]);
        Trailer {
            distances: [word(0), word(2), word(4)],
            v: usize::from(bytes[6]),
            u: usize::from(bytes[7]),
            c: usize::from(bytes[8]),
            byte9: bytes[9],
            n: word(10),
        }
    }

    fn check_limits(&self) -> Result<(), Refusal> {
        refuse_if(self.v > 24, Cause::TooManyUnknowns, 0)?;
        refuse_if(self.u > 64, Cause::TooManyRecords, 0)?;
        refuse_if(self.c > 16, Cause::TooManyChannels, 0)?;
        refuse_if(self.n > 256, Cause::TooManyLines, 0)?;
        refuse_if(self.byte9 != 0, Cause::TrailerByteNine, 0)
    }

    fn agrees_with(&self, length: usize) -> bool {
        let third = 16 + 4 * self.n;
        let second = third + self.c;
        let first = second + 32 * self.u;
        self.distances == [first, second, third] && length == first
    }
}
