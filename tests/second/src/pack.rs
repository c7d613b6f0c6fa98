//! Packs, as PACK.md states them.

const MAGIC: &[u8; 8] = b"BENCHPK1";
const SHEET: u32 = 1;
const SYSTEM: u32 = 2;
const MOST_ROOM: u32 = 1024;
const MOST_QUESTIONS: u32 = 16;
const LONGEST_SHEET: u32 = 4096;
const LONGEST_BODY: u32 = 16_384;

#[derive(Clone, Debug, PartialEq, Eq)]
pub enum Case {
    Sheet {
        room: u32,
        questions: Vec<Question>,
        sheet: Vec<u8>,
    },
    System {
        room: u32,
        v: u32,
        numbers: Vec<i32>,
    },
}

#[derive(Clone, Copy, Debug, PartialEq, Eq)]
pub struct Question {
    pub line: u32,
    pub room: u32,
}

pub fn read_pack(bytes: &[u8]) -> Result<Vec<Case>, String> {
    let Some(mut rest) = bytes.strip_prefix(MAGIC) else {
        return Err("not a pack: it does not begin with BENCHPK1".to_string());
    };
    let mut cases = Vec::new();
    while !rest.is_empty() {
        let case = read_case(&mut rest);
        cases.push(case.map_err(|reason| format!("case {}: {reason}", cases.len()))?);
    }
    Ok(cases)
}

fn read_case(rest: &mut &[u8]) -> Result<Case, String> {
    let header = take(rest, 16, "header")?;
    let [kind, room, count, length] = [0, 4, 8, 12].map(|offset| number(&header[offset..]));
    at_most("room", room, MOST_ROOM)?;
    match kind {
        SHEET => {
            at_most("number of questions", count, MOST_QUESTIONS)?;
            at_most("sheet's body", length, 8 * count + LONGEST_SHEET)?;
            let mut body = take(rest, length, "body")?;
            let questions = take(&mut body, 8 * count, "questions")?;
            Ok(Case::Sheet {
                room,
                questions: read_questions(questions)?,
                sheet: body.to_vec(),
            })
        }
        SYSTEM => {
            at_most("number of questions", count, 0)?;
            at_most("system's body", length, LONGEST_BODY)?;
            if !length.is_multiple_of(4) {
                return Err(format!("the system's body is of {length} bytes"));
            }
            let mut body = take(rest, length, "body")?;
            Ok(Case::System {
                room,
                v: number(take(&mut body, 4, "V")?),
                numbers: body.chunks(4).map(|four| number(four) as i32).collect(),
            })
        }
        _ => Err(format!("there is no kind {kind}")),
    }
}

fn read_questions(bytes: &[u8]) -> Result<Vec<Question>, String> {
    let mut questions = Vec::new();
    for eight in bytes.chunks(8) {
        let (line, room) = (number(eight), number(&eight[4..]));
        at_most("question's room", room, MOST_ROOM)?;
        questions.push(Question { line, room });
    }
    Ok(questions)
}

fn take<'a>(rest: &mut &'a [u8], length: u32, what: &str) -> Result<&'a [u8], String> {
    let Some((part, after)) = rest.split_at_checked(length as usize) else {
        let left = rest.len();
        return Err(format!("the {what} needs {length} bytes, {left} are left"));
    };
    *rest = after;
    Ok(part)
}

fn at_most(what: &str, value: u32, most: u32) -> Result<(), String> {
    if value > most {
        return Err(format!("the {what} is {value}, above {most}"));
    }
    Ok(())
}

fn number(bytes: &[u8]) -> u32 {
    u32::from_le_bytes([bytes[0], bytes[1], bytes[2], bytes[3]])
}

pub fn write_pack(cases: &[Case]) -> Vec<u8> {
    let mut pack = MAGIC.to_vec();
    for case in cases {
        let (kind, room, count, body) = parts(case);
        for header_number in [kind, room, count, body.len() as u32] {
            pack.extend(header_number.to_le_bytes());
        }
        pack.extend(body);
    }
    pack
}

fn parts(case: &Case) -> (u32, u32, u32, Vec<u8>) {
    let mut body = Vec::new();
    match case {
        Case::Sheet {
            room,
            questions,
            sheet,
        } => {
            for question in questions {
                body.extend(question.line.to_le_bytes());
                body.extend(question.room.to_le_bytes());
            }
            body.extend(sheet);
            (SHEET, *room, questions.len() as u32, body)
        }
        Case::System { room, v, numbers } => {
            body.extend(v.to_le_bytes());
            for number in numbers {
                body.extend(number.to_le_bytes());
            }
            (SYSTEM, *room, 0, body)
        }
    }
}
