//! The independent second solver: document 01 taken literally.

mod answer;
mod answers;
mod count;
mod elimination;
mod listing;
mod pack;
mod rules;
mod sheet;

pub mod judge;
pub mod make;

pub use answer::{Answer, Cause, Refusal};
pub use answers::{answer_line, lent_table};
pub use count::count;
pub use elimination::{eliminate, solve_system, Row, Table, COLUMNS, LIMIT, UNKNOWNS};
pub use listing::listing;
pub use pack::{read_pack, write_pack, Case, Question};
pub use rules::{
    ask_line, check, line_question, line_rule, lines_part, solve_sheet, solve_with_room, Solved,
};
pub use sheet::Sheet;
