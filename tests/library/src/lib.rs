//! The proved library, called through its C interface, beside the second solver.

use second::{lent_table, Answer, Case};

#[repr(C)]
struct BenchAnswer {
    number: u32,
    rounds: u32,
    place: u64,
    free: u64,
}

#[repr(C)]
struct BenchPart {
    start: u64,
    length: u64,
}

extern "C" {
    fn bench_check(sheet: *const u8, length: usize, table: *mut i32, room: usize) -> BenchAnswer;
    fn bench_line(
        sheet: *const u8,
        length: usize,
        k: usize,
        table: *mut i32,
        room: usize,
    ) -> BenchAnswer;
    fn bench_lines(sheet: *const u8, length: usize) -> BenchPart;
    fn bench_eliminate(
        v: usize,
        numbers: *const i32,
        count: usize,
        table: *mut i32,
        room: usize,
    ) -> BenchAnswer;
}

fn heard(answer: BenchAnswer) -> Answer {
    Answer {
        number: answer.number,
        place: u32::try_from(answer.place).expect("few equations"),
        rounds: answer.rounds,
        mask: u32::try_from(answer.free).expect("at most 24 unknowns"),
    }
}

pub fn eliminate(v: usize, numbers: &[i32], table: &mut [i32]) -> Answer {
    // Both slices are valid for the call and do not overlap.
    heard(unsafe {
        bench_eliminate(
            v,
            numbers.as_ptr(),
            numbers.len(),
            table.as_mut_ptr(),
            table.len(),
        )
    })
}

pub fn check(sheet: &[u8], table: &mut [i32]) -> Answer {
    heard(unsafe { bench_check(sheet.as_ptr(), sheet.len(), table.as_mut_ptr(), table.len()) })
}

pub fn line(sheet: &[u8], k: usize, table: &mut [i32]) -> Answer {
    heard(unsafe { bench_line(sheet.as_ptr(), sheet.len(), k, table.as_mut_ptr(), table.len()) })
}

pub fn lines(sheet: &[u8]) -> (usize, usize) {
    let part = unsafe { bench_lines(sheet.as_ptr(), sheet.len()) };
    (part.start as usize, part.length as usize)
}

/// Both calls on tables lent alike: what differs in the answers or in the tables after the calls.
fn compare(
    name: &str,
    room: u32,
    ours: impl FnOnce(&mut [i32]) -> Answer,
    theirs: impl FnOnce(&mut [i32]) -> Answer,
) -> Option<String> {
    let (mut our_table, mut their_table) = (lent_table(room), lent_table(room));
    let (our_answer, their_answer) = (ours(&mut our_table), theirs(&mut their_table));
    let same = our_answer == their_answer && our_table == their_table;
    (!same).then(|| format!("{name}: {our_answer:?}, second {their_answer:?}"))
}

/// What differs between the library and the second solver on a case, if anything.
pub fn difference(case: &Case) -> Option<String> {
    match case {
        Case::System { room, v, numbers } => compare(
            "eliminate",
            *room,
            |table| eliminate(*v as usize, numbers, table),
            |table| second::eliminate(*v, numbers, table),
        ),
        Case::Sheet {
            room,
            questions,
            sheet,
        } => {
            let checked = compare(
                "check",
                *room,
                |table| check(sheet, table),
                |table| second::check(sheet, table),
            );
            let asked = questions.iter().find_map(|question| {
                compare(
                    &format!("line {}", question.line),
                    question.room,
                    |table| line(sheet, question.line as usize, table),
                    |table| second::line_question(sheet, question.line, table),
                )
            });
            let (ours, theirs) = (lines(sheet), second::lines_part(sheet));
            let parted = (ours != theirs).then(|| format!("lines: {ours:?}, second {theirs:?}"));
            checked.or(asked).or(parted)
        }
    }
}
