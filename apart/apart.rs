// The program `settle` a second time: written from docs/RULES.md and docs/PROGRAM.md alone, every
// rule in the plainest way, one step at a time.

mod book;
mod calendar;
mod command_line;
mod correct;
mod dates;
mod figures;
mod files;
mod interest;
mod journal;
mod office;
mod prices;
mod print;
mod rates;
mod refusals;
mod replay;
mod run;
mod sheet;
mod statement;
mod tables;
mod words;

use std::env;
use std::ffi::OsString;
use std::io::Write;
use std::process::ExitCode;

use command_line::{given, Options};
use figures::{factor_text, price_text};
use interest::{day_factor, trade_price, MAX_DEALT_RATE, MAX_DI_RATE, MAX_RESERVE_DAYS};
use run::Output;

/// The command `price`.
fn price(rate: &str, days: &str) -> Result<String, String> {
    let dealt_rate = words::dealt_rate(rate)?;
    let reserve_days = words::number(days)?;
    if dealt_rate > MAX_DEALT_RATE {
        return Err("rate over 99.999 %".to_string());
    }
    if reserve_days > MAX_RESERVE_DAYS {
        return Err("over 2520 reserve days".to_string());
    }
    Ok(price_text(trade_price(dealt_rate, reserve_days)) + "\n")
}

/// The command `factor`.
fn factor(rate: &str) -> Result<String, String> {
    let di_rate = words::di_rate(rate)?;
    if di_rate > MAX_DI_RATE {
        return Err("rate over 99.999999 %".to_string());
    }
    Ok(factor_text(day_factor(di_rate)) + "\n")
}

const COMMANDS: [[&str; 2]; 8] = [
    [
        "settle run [--strict] [--json] [--csv DIR] JOURNAL",
        "replays a book from its journal, and says what each call answered",
    ],
    [
        "settle prices [--json] [--csv DIR] OFFICE SHEET",
        "prices every line of a sheet on the office's calendar",
    ],
    [
        "settle correct OFFICE FROM TO PRICE",
        "carries a settlement price over the reserve days of a gap",
    ],
    ["settle sheet show FILE", "prints a sheet as text"],
    ["settle sheet make TEXTFILE FILE", "writes the sheet that a text describes"],
    ["settle price RATE DAYS", "the price of a dealt rate over a number of reserve days"],
    ["settle factor RATE", "the day factor of a DI rate"],
    ["settle help", "this list"],
];

fn help() -> String {
    let width = COMMANDS.iter().map(|[words, _]| words.len()).max().unwrap_or(0);
    COMMANDS.iter().map(|[words, what]| format!("{words:<width$}  {what}\n")).collect()
}

/// Why there is no print: the command line is bad, or a message after `settle: `.
enum Refused {
    CommandLine,
    Message(String),
}

impl From<String> for Refused {
    fn from(message: String) -> Refused {
        Refused::Message(message)
    }
}

/// What the command prints.
fn command(arguments: &[OsString]) -> Result<Output, Refused> {
    let texts: Option<Vec<&str>> = arguments.iter().map(|argument| argument.to_str()).collect();
    let words = texts.ok_or(Refused::CommandLine)?;
    let (name, rest) = match words[..] {
        ["--help" | "-h" | "--version" | "-V", ..] => ("help", &[][..]),
        ["sheet", name @ ("show" | "make"), ref rest @ ..] => (name, rest),
        [name, ref rest @ ..] => (name, rest),
        [] => return Err(Refused::CommandLine),
    };
    if let ["--help" | "-h", ..] = rest {
        return Ok(Output { print: help(), refused: None });
    }
    let options = Options { strict: name == "run", tables: name == "run" || name == "prices" };
    let given = given(rest, options).ok_or(Refused::CommandLine)?;
    let in_sheet = words[0] == "sheet";
    let print = match (name, in_sheet, &given.words[..]) {
        ("run", false, [journal]) => return Ok(run::run(journal, &given)?),
        ("prices", false, [office, sheet]) => prices::prices(office, sheet, &given),
        ("correct", false, [office, from, to, price]) => correct::correct(office, from, to, price),
        ("show", true, [file]) => sheet::show(file),
        ("make", true, [text_file, file]) => sheet::make(text_file, file),
        ("price", false, [rate, days]) => price(rate, days),
        ("factor", false, [rate]) => factor(rate),
        ("help", false, []) => Ok(help()),
        _ => return Err(Refused::CommandLine),
    };
    Ok(Output { print: print?, refused: None })
}

/// Prints, and tells the refusal that ended a run.
fn print(output: Output) -> Result<(), Refused> {
    let mut out = std::io::stdout();
    out.write_all(output.print.as_bytes())
        .and_then(|_| out.flush())
        .map_err(|_| "cannot write standard output".to_string())?;
    output.refused.map_or(Ok(()), |refused| Err(refused.into()))
}

fn main() -> ExitCode {
    let arguments: Vec<OsString> = env::args_os().skip(1).collect();
    let (message, status) = match command(&arguments).and_then(print) {
        Ok(()) => return ExitCode::SUCCESS,
        Err(Refused::CommandLine) => ("bad command line; try: settle help".to_string(), 2),
        Err(Refused::Message(message)) => (message, 1),
    };
    let _ = writeln!(std::io::stderr(), "settle: {message}");
    ExitCode::from(status)
}
