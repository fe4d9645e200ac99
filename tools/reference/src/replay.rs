//! The replaying program as a function from a script to its printed text.

use crate::encoding::{export, import};
use crate::input::{workspace, Words};
use crate::line::read_line;
use crate::press::{press, show, Answer, Session, Side, Verdict};
use crate::refusal::Refusal;
use crate::table::{load, write};

/// Every word of a scratch or of a table to be written, and every byte of a
/// encoding to be exported, before the call.
const FILLING: u8 = 7;
/// The verdicts in the order of their numbers in a script.
pub const VERDICTS: [Verdict; 4] = [
    Verdict::Same,
    Verdict::Different,
    Verdict::Budget,
    Verdict::Full,
];

/// One operation of a script.
#[derive(Clone, Debug, PartialEq, Eq)]
pub enum Operation {
    Load {
        side: Side,
        table: Vec<u32>,
    },
    Press {
        scratch: usize,
        lengths: (u32, u32),
        budget: u32,
    },
    Show {
        lengths: (u32, u32),
    },
    Write {
        side: Side,
        length: u32,
        table: usize,
    },
    SetSession(Session),
    Store {
        side: Side,
        at: u32,
        word: u32,
    },
    Print,
    Line {
        side: Side,
        line: Vec<u8>,
    },
    Import {
        side: Side,
        count: u32,
        bytes: Vec<u8>,
    },
    Export {
        side: Side,
        length: u32,
        bytes: usize,
    },
}

/// What came of one operation, or of a script that breaks off.
#[derive(Clone, Copy, Debug, PartialEq, Eq)]
pub enum Event {
    Load(Result<u32, Refusal>),
    Press(Result<Answer, Refusal>),
    Show(Option<(Side, usize)>),
    Write(Result<u32, Refusal>),
    SetSession,
    Store,
    Print,
    Line(Result<u32, Refusal>),
    Import(Result<u32, Refusal>),
    Export(Result<u32, Refusal>),
    Script,
}

/// The printed text and what came of each operation.
#[derive(Clone, Debug, Default, PartialEq, Eq)]
pub struct Transcript {
    pub text: String,
    pub events: Vec<Event>,
}

/// Runs everything that stands on the standard input.
pub fn run(input: &[u8]) -> Transcript {
    run_watched(input, |_, _| {})
}

/// The same, with each operation shown before it is made.
pub fn run_watched(input: &[u8], mut watch: impl FnMut(&Machine, &Operation)) -> Transcript {
    let mut transcript = Transcript::default();
    let Some((mut machine, mut script)) = start(input) else {
        return transcript.broken_off();
    };
    while !script.at_end() {
        let Some(operation) = script.operation() else {
            return transcript.broken_off();
        };
        watch(&machine, &operation);
        let event = machine.apply(&operation, &mut transcript.text);
        transcript.events.push(event);
    }
    transcript
}

/// The machine that a script starts with and the script's operations, unless
/// the script is too short to be started.
pub fn start(input: &[u8]) -> Option<(Machine, Script<'_>)> {
    let mut words = Words { ahead: input };
    let machine = Machine::new(words.word()?, words.word()?);
    Some((machine, Script { words }))
}

impl Transcript {
    fn broken_off(mut self) -> Self {
        self.text.push_str("Script\n");
        self.events.push(Event::Script);
        self
    }
}

/// The operations of a script that are still to be read.
pub struct Script<'a> {
    words: Words<'a>,
}

impl Script<'_> {
    pub fn at_end(&self) -> bool {
        self.unread() == 0
    }

    /// The bytes that are still to be read.
    pub fn unread(&self) -> usize {
        self.words.ahead.len()
    }

    /// The next operation, if it is whole and known.
    pub fn operation(&mut self) -> Option<Operation> {
        let words = &mut self.words;
        Some(match words.word()? {
            1 => Operation::Load {
                side: side(words)?,
                table: words.table()?,
            },
            2 => Operation::Press {
                scratch: words.length()?,
                lengths: (words.word()?, words.word()?),
                budget: words.word()?,
            },
            3 => Operation::Show {
                lengths: (words.word()?, words.word()?),
            },
            4 => Operation::Write {
                side: side(words)?,
                length: words.word()?,
                table: words.length()?,
            },
            5 => Operation::SetSession(Session {
                total: words.word()?,
                left: words.word()?,
                right: words.word()?,
                verdict: *VERDICTS.get(words.word()? as usize)?,
            }),
            6 => Operation::Store {
                side: side(words)?,
                at: words.word()?,
                word: words.word()?,
            },
            7 => Operation::Print,
            8 => Operation::Line {
                side: side(words)?,
                line: words.bytes()?,
            },
            9 => Operation::Import {
                side: side(words)?,
                count: words.word()?,
                bytes: words.bytes()?,
            },
            10 => Operation::Export {
                side: side(words)?,
                length: words.word()?,
                bytes: words.length()?,
            },
            _ => return None,
        })
    }
}

fn side(words: &mut Words<'_>) -> Option<Side> {
    match words.word()? {
        0 => Some(Side::Left),
        1 => Some(Side::Right),
        _ => None,
    }
}

/// Everything that is lent to the calls of a script.
#[derive(Clone, Debug, PartialEq, Eq)]
pub struct Machine {
    pub left: Vec<u32>,
    pub right: Vec<u32>,
    /// The last press's scratch at its exit.
    pub scratch: Vec<u32>,
    pub session: Session,
}

impl Machine {
    pub fn new(left: u32, right: u32) -> Self {
        Machine {
            left: workspace(left),
            right: workspace(right),
            scratch: Vec::new(),
            session: Session::fresh(),
        }
    }

    fn workspace(&mut self, side: Side) -> &mut Vec<u32> {
        match side {
            Side::Left => &mut self.left,
            Side::Right => &mut self.right,
        }
    }

    /// Makes one call and adds what is printed about it.
    pub fn apply(&mut self, operation: &Operation, text: &mut String) -> Event {
        match operation {
            Operation::Load { side, table } => self.load(*side, table, text),
            Operation::Press {
                scratch,
                lengths,
                budget,
            } => self.press(*scratch, *lengths, *budget, text),
            Operation::Show { lengths } => self.show(*lengths, text),
            Operation::Write {
                side,
                length,
                table,
            } => self.write(*side, *length, *table, text),
            Operation::SetSession(session) => {
                self.session = *session;
                row(text, "session", &[]);
                Event::SetSession
            }
            Operation::Store { side, at, word } => {
                if let Some(place) = self.workspace(*side).get_mut(*at as usize) {
                    *place = *word;
                }
                row(text, "store", &[]);
                Event::Store
            }
            Operation::Print => self.print(text),
            Operation::Line { side, line } => self.read_line(*side, line, text),
            Operation::Import { side, count, bytes } => self.import(*side, *count, bytes, text),
            Operation::Export {
                side,
                length,
                bytes,
            } => self.export(*side, *length, *bytes, text),
        }
    }

    fn load(&mut self, side: Side, table: &[u32], text: &mut String) -> Event {
        let answer = load(table, self.workspace(side));
        row(text, &returned("load", answer), &[]);
        Event::Load(answer)
    }

    fn press(
        &mut self,
        scratch: usize,
        lengths: (u32, u32),
        budget: u32,
        text: &mut String,
    ) -> Event {
        self.scratch = vec![u32::from(FILLING); scratch];
        let answer = press(
            &mut self.left,
            &mut self.right,
            &mut self.scratch,
            lengths,
            budget,
            &mut self.session,
        );
        let head = match answer {
            Ok(answer) => format!("{answer} {}", answer.position),
            Err(refusal) => format!("refused {refusal}"),
        };
        row(text, &head, &[]);
        Event::Press(answer)
    }

    fn show(&self, lengths: (u32, u32), text: &mut String) -> Event {
        let part = show(&self.left, &self.right, lengths);
        match part {
            Some((Side::Left, length)) => row(text, "show 0", &self.left[..length]),
            Some((Side::Right, length)) => row(text, "show 1", &self.right[..length]),
            None => row(text, "show 0", &[]),
        }
        Event::Show(part)
    }

    fn write(&mut self, side: Side, length: u32, table: usize, text: &mut String) -> Event {
        let mut table = vec![u32::from(FILLING); table];
        let answer = write(self.workspace(side), length, &mut table);
        row(text, &returned("write", answer), &table);
        Event::Write(answer)
    }

    fn print(&self, text: &mut String) -> Event {
        row(text, "left", &self.left);
        row(text, "right", &self.right);
        row(text, "scratch", &self.scratch);
        let Session {
            total,
            left,
            right,
            verdict,
        } = self.session;
        row(
            text,
            &format!("session {total} {left} {right} {verdict}"),
            &[],
        );
        Event::Print
    }

    fn read_line(&mut self, side: Side, line: &[u8], text: &mut String) -> Event {
        let answer = read_line(line, self.workspace(side));
        row(text, &returned("line", answer), &[]);
        Event::Line(answer)
    }

    fn import(&mut self, side: Side, count: u32, bytes: &[u8], text: &mut String) -> Event {
        let answer = import(bytes, count, self.workspace(side));
        row(text, &returned("import", answer), &[]);
        Event::Import(answer)
    }

    fn export(&mut self, side: Side, length: u32, bytes: usize, text: &mut String) -> Event {
        let mut bytes = vec![FILLING; bytes];
        let answer = export(self.workspace(side), length, &mut bytes);
        let bytes: Vec<u32> = bytes.into_iter().map(u32::from).collect();
        row(text, &returned("export", answer), &bytes);
        Event::Export(answer)
    }
}

fn returned(call: &str, answer: Result<u32, Refusal>) -> String {
    match answer {
        Ok(number) => format!("{call} {number}"),
        Err(refusal) => format!("refused {refusal}"),
    }
}

/// Adds one line: its head and then words, separated by single spaces.
fn row(text: &mut String, head: &str, words: &[u32]) {
    text.push_str(head);
    for word in words {
        text.push(' ');
        text.push_str(&word.to_string());
    }
    text.push('\n');
}
