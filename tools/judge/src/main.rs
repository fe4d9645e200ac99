//! The command `judge`; `--help` describes it.

mod answers;
mod examination;
mod explain;
mod failure;
mod format;
mod key;
mod needs;
mod notation;
mod numbers;
mod options;
mod pair;
mod parallel;
mod place;
mod programs;
mod progress;
mod report;
mod trace;
mod verdict;

use std::env;
use std::ffi::OsString;
use std::io::{self, ErrorKind, Read, Write};
use std::process::ExitCode;

use failure::Failure;
use notation::Notation;
use options::{Settings, Task, STANDARD_INPUT};
use unit::limits::WORKSPACE;
use unit::{bits_text, encoding_text, read_bits, table, table_text, words_text, Names, Term};

const HELP: &str = include_str!("help.txt");

fn main() -> ExitCode {
    let done = run(env::args_os().skip(1).collect());
    match done.and_then(|(text, status)| print(&text).map(|()| status)) {
        Ok(status) => ExitCode::from(status),
        Err(failure) => {
            if !failure.message.is_empty() {
                tell(&failure.message);
            }
            ExitCode::from(failure.status)
        }
    }
}

/// Says something beside what is printed. Where standard error is closed nobody listens.
fn tell(message: &str) {
    let _ = writeln!(io::stderr(), "judge: {message}");
}

fn print(text: &str) -> Result<(), Failure> {
    let mut output = io::stdout();
    let text = format!("{text}\n");
    let written = output.write_all(text.as_bytes());
    written.and_then(|()| output.flush()).map_err(unwritten)
}

/// Standard output that cannot be written.
fn unwritten(error: io::Error) -> Failure {
    match error.kind() {
        // Whoever reads it has read enough.
        ErrorKind::BrokenPipe => Failure::program(String::new()),
        _ => Failure::program(format!("standard output cannot be written: {error}")),
    }
}

/// What is printed, and the exit status.
fn run(arguments: Vec<OsString>) -> Result<(String, u8), Failure> {
    let texts: Option<Vec<&str>> = arguments.iter().map(|text| text.to_str()).collect();
    let texts = texts.ok_or_else(|| Failure::usage("an argument is not UTF-8".to_string()))?;
    let (task, settings) = options::read(&texts)?;
    let (mut notation, declarations) = match task {
        Task::Help | Task::Version | Task::Explain(_) => (Notation::Indices, Vec::new()),
        _ => notation(&settings)?,
    };
    let text = match task {
        Task::Help => HELP.trim_end().to_string(),
        Task::Version => concat!("judge ", env!("CARGO_PKG_VERSION")).to_string(),
        Task::Explain(subject) => explained(&subject)?,
        Task::Table(text) => table_text(&table(&term(text, &mut notation)?)),
        Task::Words(text) => {
            let words = term(text, &mut notation)?.words();
            words_text(&words.map_err(Failure::text)?)
        }
        Task::Text(texts) => {
            let term = Term::from_words(&numbers::words(&all(texts)?)?);
            text_of(&term.map_err(Failure::text)?, &notation)
        }
        Task::Encoding(text) => encoding_text(&bits(text, &mut notation)?),
        Task::FromEncoding(texts) => imported(&numbers::encoding(&all(texts)?)?, &notation)?,
        Task::Bits(text) => bits_text(&bits(text, &mut notation)?),
        Task::FromBits(texts) => {
            let bits = read_bits(&all(texts)?);
            imported(&bits.map_err(Failure::text)?, &notation)?
        }
        Task::Judge(terms) => return pair::judge(terms, &settings, notation),
        Task::Forms(terms) => return pair::forms(terms, &settings, notation),
        Task::Trace(terms) => return pair::trace(terms, &settings, notation),
        Task::Needs(terms) => return pair::needs(terms, &settings, notation),
        Task::Key(file, format) => {
            return examination::examine(&file, format, &settings, notation, declarations);
        }
    };
    Ok((text, 0))
}

/// The notation that is asked for, and the declarations that it takes from files.
fn notation(settings: &Settings) -> Result<(Notation, Vec<String>), Failure> {
    if !settings.named {
        return Ok((Notation::Indices, Vec::new()));
    }
    let mut notation = Notation::Named(Box::new(Names::new()));
    let mut declarations = Vec::new();
    for path in &settings.using {
        let bytes = examination::read(path)?;
        let name = path.display().to_string();
        let declared = key::declarations(&bytes, &name, &mut notation);
        declarations.extend(declared.map_err(Failure::text)?);
    }
    Ok((notation, declarations))
}

fn explained(subject: &str) -> Result<String, Failure> {
    explain::explain(subject).ok_or_else(|| {
        Failure::usage(format!(
            "--explain needs one of {}, found `{subject}`",
            explain::subjects()
        ))
    })
}

/// The text of an argument, or what stands on standard input in its place.
fn given(text: String) -> Result<String, Failure> {
    match text == STANDARD_INPUT {
        true => standard_text(),
        false => Ok(text),
    }
}

fn standard_text() -> Result<String, Failure> {
    String::from_utf8(standard_input()?)
        .map_err(|_| Failure::text("standard input cannot be read: it is not UTF-8"))
}

fn standard_input() -> Result<Vec<u8>, Failure> {
    let mut bytes = Vec::new();
    match io::stdin().read_to_end(&mut bytes) {
        Ok(_) => Ok(bytes),
        Err(error) => Err(Failure::text(format!(
            "standard input cannot be read: {error}"
        ))),
    }
}

/// Reads the one term that is asked about.
fn term(text: String, notation: &mut Notation) -> Result<Term, Failure> {
    let text = given(text)?;
    let term = notation.term(&text, &mut Vec::new(), 0);
    term.map_err(|fault| Failure::text(fault.told("term", &text)))
}

/// The bits of a term's encoding.
fn bits(text: String, notation: &mut Notation) -> Result<Vec<bool>, Failure> {
    term(text, notation)?.bits().map_err(Failure::text)
}

/// The text of a term without free names.
fn text_of(term: &Term, notation: &Notation) -> String {
    notation.printed(term, &[]).text
}

/// The text of the term that the bits make. That the unit refuses it in every workspace is said beside
/// it.
fn imported(bits: &[bool], notation: &Notation) -> Result<String, Failure> {
    let term = Term::from_bits(bits).map_err(Failure::text)?;
    let (words, most) = (term.length(), *WORKSPACE.end());
    let refusal = match term.bits() {
        _ if words > most => Some((
            8,
            format!("{words} words, and a workspace has {most} at most"),
        )),
        Err(error) => Some((13, error.to_string())),
        Ok(_) => None,
    };
    if let Some((number, reason)) = refusal {
        tell(&format!(
            "the unit refuses to import it (refusal {number}): {reason}"
        ));
    }
    Ok(text_of(&term, notation))
}

/// The texts of several arguments, a blank between two.
fn all(texts: Vec<String>) -> Result<String, Failure> {
    let texts: Result<Vec<String>, Failure> = texts.into_iter().map(given).collect();
    Ok(texts?.join(" "))
}
