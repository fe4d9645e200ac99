//! What the command line asks for.

use std::iter::Peekable;
use std::path::PathBuf;
use std::slice::Iter;

use crate::failure::Failure;
use crate::verdict::Limits;

/// The bench pair 2,2,1,1,8,0,8 against the free variable 0.
const DEFAULT_PAIR: [&str; 2] = [r"(\\1) 0 1", "0"];
const DEFAULT_BUDGET: u32 = 1_000;
const DEFAULT_WORDS: u32 = 2_048;

/// Stands for text that is read from standard input.
pub const STANDARD_INPUT: &str = "-";

#[derive(Debug, PartialEq, Eq)]
pub enum Task {
    Help,
    Version,
    Explain(String),
    Table(String),
    Words(String),
    Text(Vec<String>),
    Encoding(String),
    FromEncoding(Vec<String>),
    Bits(String),
    FromBits(Vec<String>),
    /// The line of a pair.
    Judge(Terms),
    Forms(Terms),
    Trace(Terms),
    Needs(Terms),
    /// A key file, or standard input.
    Key(String, Format),
}

/// The terms to be judged.
#[derive(Debug, PartialEq, Eq)]
pub enum Terms {
    /// None were given.
    Default(String, String),
    /// Both stand on standard input, a line each.
    Lines,
    Given(String, String),
}

/// How a judged key is printed.
#[derive(Clone, Copy, Debug, PartialEq, Eq)]
pub enum Format {
    Text,
    Csv,
    Html,
}

/// How terms are read and judged.
#[derive(Debug, Default, PartialEq, Eq)]
pub struct Settings {
    pub limits: Limits,
    pub program: Option<PathBuf>,
    pub repository: Option<PathBuf>,
    /// The verdict decides the exit status.
    pub exit_code: bool,
    /// Terms have names, not indices.
    pub named: bool,
    /// Files with declarations.
    pub using: Vec<PathBuf>,
}

/// What is done with the arguments that are no options.
#[derive(Clone, Debug, PartialEq, Eq)]
enum Mode {
    Judge,
    Table,
    Words,
    Text,
    Encoding,
    FromEncoding,
    Bits,
    FromBits,
    Forms,
    Trace,
    Needs,
    Key(String),
    Explain(String),
}

/// Reads the arguments after the command's name.
pub fn read(arguments: &[&str]) -> Result<(Task, Settings), Failure> {
    let mut mode = Mode::Judge;
    let mut given = Given::default();
    let mut settings = Settings::default();
    let mut texts = Vec::new();
    let mut rest = arguments.iter().peekable();
    while let Some(&argument) = rest.next() {
        if argument == "--" {
            texts.extend(rest.by_ref());
        } else if argument == STANDARD_INPUT || !argument.starts_with('-') {
            texts.push(argument);
        } else {
            let mut option = Argument::new(argument, &mut rest);
            match option.name {
                "--help" | "-h" => return option.is_alone().map(|_| (Task::Help, settings)),
                "--version" | "-V" => return option.is_alone().map(|_| (Task::Version, settings)),
                "--table" => option.mode(&mut mode, Mode::Table)?,
                "--show-words" => option.mode(&mut mode, Mode::Words)?,
                "--text" => option.mode(&mut mode, Mode::Text)?,
                "--encoding" => option.mode(&mut mode, Mode::Encoding)?,
                "--from-encoding" => option.mode(&mut mode, Mode::FromEncoding)?,
                "--bits" => option.mode(&mut mode, Mode::Bits)?,
                "--from-bits" => option.mode(&mut mode, Mode::FromBits)?,
                "--forms" => option.mode(&mut mode, Mode::Forms)?,
                "--trace" => option.mode(&mut mode, Mode::Trace)?,
                "--needs" => option.mode(&mut mode, Mode::Needs)?,
                "--key" => {
                    let file = option.value()?.to_string();
                    option.sole_mode(&mut mode, Mode::Key(file))?;
                }
                "--explain" => {
                    let subject = option.value()?.to_string();
                    option.sole_mode(&mut mode, Mode::Explain(subject))?;
                }
                "--format" => given.format = Some(option.format()?),
                "--named" => settings.named = option.is_alone()?,
                "--using" => settings.using.push(option.value()?.into()),
                "--exit-code" => settings.exit_code = option.is_alone()?,
                "--budget" => given.budget = Some(option.number()?),
                "--words" => given.words = Some(option.number()?),
                "--program" => settings.program = Some(option.value()?.into()),
                "--repository" => settings.repository = Some(option.value()?.into()),
                name => return Err(Failure::usage(format!("{name} is no option"))),
            }
        }
    }
    given.suit(&mode, &settings, &texts)?;
    settings.limits.budget = given.budget.unwrap_or(DEFAULT_BUDGET);
    settings.limits.words = given.words.unwrap_or(DEFAULT_WORDS);
    let task = task(mode, &texts, given.format.unwrap_or(Format::Text))?;
    Ok((task, settings))
}

/// Values that were given, and have defaults.
#[derive(Default)]
struct Given {
    budget: Option<u32>,
    words: Option<u32>,
    format: Option<Format>,
}

impl Given {
    /// Whether each option has something to do with what is asked for.
    fn suit(&self, mode: &Mode, settings: &Settings, texts: &[&str]) -> Result<(), Failure> {
        let is_key = matches!(mode, Mode::Key(_));
        let is_pair = matches!(mode, Mode::Judge | Mode::Forms | Mode::Trace | Mode::Needs);
        let reason = if self.format.is_some() && !is_key {
            "--format goes with --key"
        } else if settings.exit_code && is_key {
            "--exit-code goes with one pair; the exit status of --key says whether every pair was decided"
        } else if !settings.using.is_empty() && !settings.named {
            "--using goes with --named"
        } else if settings.named && is_pair && texts.is_empty() {
            "--named needs two terms, each in single quotes, or --key FILE"
        } else if *mode == Mode::Needs && (self.budget.is_some() || self.words.is_some()) {
            "--needs finds the budget and the words; it takes neither"
        } else {
            return Ok(());
        };
        Err(Failure::usage(reason.to_string()))
    }
}

/// An option, and its value behind `=` or in the next argument.
struct Argument<'a, 'r> {
    name: &'a str,
    value: Option<&'a str>,
    rest: &'r mut Peekable<Iter<'a, &'a str>>,
}

impl<'a, 'r> Argument<'a, 'r> {
    fn new(argument: &'a str, rest: &'r mut Peekable<Iter<'a, &'a str>>) -> Argument<'a, 'r> {
        let (name, value) = match argument.split_once('=') {
            Some((name, value)) => (name, Some(value)),
            None => (argument, None),
        };
        Argument { name, value, rest }
    }

    fn is_alone(&self) -> Result<bool, Failure> {
        match self.value {
            None => Ok(true),
            Some(_) => Err(Failure::usage(format!("{} takes no value", self.name))),
        }
    }

    /// Sets the mode that it asks for, unless an option before it asked for one.
    fn mode(&self, mode: &mut Mode, asked: Mode) -> Result<(), Failure> {
        self.is_alone()?;
        self.sole_mode(mode, asked)
    }

    /// The same of an option with a value.
    fn sole_mode(&self, mode: &mut Mode, asked: Mode) -> Result<(), Failure> {
        if *mode != Mode::Judge {
            return Err(Failure::usage(format!(
                "{} and another option ask for two things at once",
                self.name
            )));
        }
        *mode = asked;
        Ok(())
    }

    /// The next argument is none if it is an option itself.
    fn value(&mut self) -> Result<&'a str, Failure> {
        let is_value = |argument: &&&str| !argument.starts_with("--");
        let value = self.value.or_else(|| self.rest.next_if(is_value).copied());
        value.ok_or_else(|| Failure::usage(format!("{} needs a value", self.name)))
    }

    fn format(&mut self) -> Result<Format, Failure> {
        match self.value()? {
            "text" => Ok(Format::Text),
            "csv" => Ok(Format::Csv),
            "html" => Ok(Format::Html),
            other => Err(Failure::usage(format!(
                "--format needs text, csv or html, found `{other}`"
            ))),
        }
    }

    fn number(&mut self) -> Result<u32, Failure> {
        let text = self.value()?;
        text.parse().map_err(|_| {
            let (name, limit) = (self.name, u32::MAX);
            Failure::usage(format!(
                "{name} needs a number from 0 to {limit} in digits alone, found `{text}`"
            ))
        })
    }
}

fn task(mode: Mode, texts: &[&str], format: Format) -> Result<Task, Failure> {
    match mode {
        Mode::Judge => terms(texts).map(Task::Judge),
        Mode::Forms => terms(texts).map(Task::Forms),
        Mode::Trace => terms(texts).map(Task::Trace),
        Mode::Needs => terms(texts).map(Task::Needs),
        Mode::Key(file) => none(texts, "--key").map(|()| Task::Key(file, format)),
        Mode::Explain(subject) => none(texts, "--explain").map(|()| Task::Explain(subject)),
        Mode::Table => term(texts).map(Task::Table),
        Mode::Words => term(texts).map(Task::Words),
        Mode::Text => Ok(Task::Text(all(texts))),
        Mode::Encoding => term(texts).map(Task::Encoding),
        Mode::FromEncoding => Ok(Task::FromEncoding(all(texts))),
        Mode::Bits => term(texts).map(Task::Bits),
        Mode::FromBits => Ok(Task::FromBits(all(texts))),
    }
}

fn none(texts: &[&str], option: &str) -> Result<(), Failure> {
    match texts {
        [] => Ok(()),
        [text, ..] => Err(Failure::usage(format!(
            "{option} takes one value; `{text}` is too much"
        ))),
    }
}

fn term(texts: &[&str]) -> Result<String, Failure> {
    match texts {
        [text] => Ok(text.to_string()),
        _ => Err(Failure::usage(format!(
            "one term in single quotes is needed; found {} arguments",
            texts.len()
        ))),
    }
}

fn all(texts: &[&str]) -> Vec<String> {
    texts.iter().map(|text| text.to_string()).collect()
}

fn terms(texts: &[&str]) -> Result<Terms, Failure> {
    match texts {
        [] => {
            let [left, right] = DEFAULT_PAIR.map(str::to_string);
            Ok(Terms::Default(left, right))
        }
        [STANDARD_INPUT] => Ok(Terms::Lines),
        [STANDARD_INPUT, STANDARD_INPUT] => Err(Failure::usage(format!(
            "`{STANDARD_INPUT}` can be one of two terms, or stand alone for both"
        ))),
        [left, right] => Ok(Terms::Given(left.to_string(), right.to_string())),
        _ => Err(Failure::usage(format!(
            "two terms are needed, each in single quotes, or none; found {} (a file of pairs goes with --key)",
            texts.len()
        ))),
    }
}
