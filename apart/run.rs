// The command `run`: a book replayed from its journal.

use crate::command_line::Given;
use crate::files::at_line;
use crate::journal::read_journal;
use crate::print::{json, refusal_text, text};
use crate::replay::Replay;
use crate::statement::statement;
use crate::tables::write_tables;

/// What a run prints, and the refusal that ended it where it is strict.
pub struct Output {
    pub print: String,
    pub refused: Option<String>,
}

pub fn run(file: &str, given: &Given) -> Result<Output, String> {
    let (mut replay, calls) = Replay::new(read_journal(file)?);
    let mut output = Output { print: String::new(), refused: None };
    for line in &calls {
        let answer = replay.answer(line);
        output.print += &if given.json {
            json(line, &answer)
        } else {
            text(line, &answer, &replay.book)
        };
        if given.strict {
            if let Some(refusal) = refusal_text(&answer) {
                output.refused = Some(at_line(file, line.line, &refusal));
                break;
            }
        }
    }
    if !given.json {
        output.print += &statement(&replay);
    }
    if let Some(folder) = given.csv {
        write_tables(&replay, folder)?;
    }
    Ok(output)
}
