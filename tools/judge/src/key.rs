//! A key file: pairs to be judged, one a line, headings, and in the named notation declarations.

use std::rc::Rc;

use crate::answers::Pair;
use crate::notation::{Fault, Notation, BLANKS};
use unit::Names;

/// Stands between the two terms of a pair.
const BETWEEN: char = '|';
/// From here to the end of its line stands a comment; with a third dash, alone on its line, a heading.
const COMMENT: &str = "--";
const DASH: char = '-';
const DASHES: &[u8] = b"-";
/// Stands in every declaration.
const DECLARES: char = '=';
/// May stand before the first line and means nothing.
const BYTE_ORDER_MARK: &str = "\u{feff}";

pub struct Key {
    pub lines: Vec<Line>,
    /// The declarations as they are written.
    pub declarations: Vec<String>,
}

/// A line with a pair, or one that cannot be read.
pub struct Line {
    /// Counted from 1.
    pub number: usize,
    /// The heading above it.
    pub heading: Rc<str>,
    /// The line without its comment.
    pub text: String,
    pub comment: String,
    pub content: Result<Content, Fault>,
}

pub struct Content {
    pub pair: Pair,
    /// The names that are free in the pair, in the order of their numbers.
    pub free: Vec<String>,
}

impl Line {
    /// The two terms as they are written.
    pub fn sides(&self) -> [&str; 2] {
        let (left, right) = self.text.split_once(BETWEEN).unwrap_or((&self.text, ""));
        [left.trim(), right.trim()]
    }
}

/// Reads a key file of this name. Lines that cannot be read are among the others.
pub fn read(bytes: &[u8], file: &str, notation: &mut Notation) -> Key {
    let mut key = Key {
        lines: Vec::new(),
        declarations: Vec::new(),
    };
    let mut heading: Rc<str> = "".into();
    // The last line that is not blank.
    let mut above = Above::Other;
    for written in written_lines(bytes, file, notation) {
        if written.is_blank() {
            if let Some(below) = written.heading() {
                heading = match above {
                    Above::Heading => format!("{heading}, {below}").into(),
                    _ => below.into(),
                };
                above = Above::Heading;
            }
            continue;
        }
        let content = match (written.decoded.clone(), written.is_declaration()) {
            (Err(fault), _) => Err(fault),
            (Ok(()), true) if notation.is_named() => match notation.declare(&written) {
                Ok(()) => {
                    key.declarations.push(written.text.trim().to_string());
                    above = Above::Declaration(written);
                    continue;
                }
                Err(fault) => Err(fault),
            },
            (Ok(()), _) => pair(&written.text, written.number, notation),
        };
        let content = match &above {
            Above::Part(part) if written.indent() > part.indent() => Err(Fault {
                column: 1,
                reason: format!(
                    "line {} may be its start; a pair stands on one line",
                    part.number
                ),
            }),
            _ => content,
        };
        let is_part = content.is_err() && !written.is_pair() && !notation.revoke(&written);
        let is_part = is_part && !written.text.contains(DECLARES);
        if is_part {
            key.doubt(&above, &written, notation);
        }
        let is_pair = content.is_ok();
        key.lines.push(Line {
            number: written.number,
            heading: heading.clone(),
            text: written.text.clone(),
            comment: written.comment.clone(),
            content,
        });
        above = match is_part {
            true => Above::Part(written),
            false if is_pair => Above::Pair(written),
            false => Above::Other,
        };
    }
    key
}

/// What stands above a line.
enum Above {
    Declaration(Written),
    Pair(Written),
    Heading,
    /// A line that is neither a pair nor meant to declare something.
    Part(Written),
    Other,
}

impl Key {
    /// Takes back what stands above a line that looks like the rest of it: one that is indented further, or
    /// starts with the sign between two terms.
    fn doubt(&mut self, above: &Above, rest: &Written, notation: &mut Notation) {
        let has_sign = rest.text.contains(BETWEEN);
        let is_below = |line: &Written| rest.indent() > line.indent();
        match (above, self.lines.last_mut()) {
            (Above::Declaration(declaration), _) if is_below(declaration) || has_sign => {
                self.declarations.pop();
                notation.revoke(declaration);
            }
            (Above::Pair(pair), Some(line)) if is_below(pair) && !has_sign => {
                let number = rest.number;
                line.content = Err(Fault {
                    column: line.text.chars().count() + 1,
                    reason: format!("line {number} may be the rest; a pair stands on one line"),
                });
            }
            _ => {}
        }
    }
}

/// Takes the declarations of a key file and leaves its pairs: the declarations as they are written, or
/// what is wrong with the first that cannot be taken.
pub fn declarations(
    bytes: &[u8],
    file: &str,
    notation: &mut Notation,
) -> Result<Vec<String>, String> {
    let mut declarations = Vec::new();
    for written in written_lines(bytes, file, notation) {
        if written.is_blank() || written.is_pair() {
            continue;
        }
        let declared = match (written.decoded.clone(), written.is_declaration()) {
            (Err(fault), _) => Err(fault),
            (Ok(()), true) => notation.declare(&written),
            (Ok(()), false) => Err(Fault::no_declaration()),
        };
        declared.map_err(|fault| fault.told_on(file, written.number, &written.text))?;
        declarations.push(written.text.trim().to_string());
    }
    Ok(declarations)
}

/// A line as it is written.
struct Written {
    number: usize,
    text: String,
    comment: String,
    /// A third dash stands right behind the two.
    has_third_dash: bool,
    /// Whether all bytes before the comment are text.
    decoded: Result<(), Fault>,
}

/// The lines of a file, after all that they declare is announced.
fn written_lines(bytes: &[u8], file: &str, notation: &mut Notation) -> Vec<Written> {
    let mark = BYTE_ORDER_MARK.as_bytes();
    let bytes = bytes.strip_prefix(mark).unwrap_or(bytes);
    let lines = (1..).zip(split_lines(bytes));
    let lines: Vec<Written> = lines
        .map(|(number, line)| Written::new(number, line))
        .collect();
    if let Notation::Named(names) = notation {
        names.begin(file);
        for line in lines.iter().filter(|line| !line.is_pair()) {
            names.announce(&line.text, line.number);
        }
    }
    lines
}

/// A line ends in LF, CR LF or CR.
fn split_lines(bytes: &[u8]) -> Vec<&[u8]> {
    let mut lines = Vec::new();
    let mut rest = bytes;
    while let Some(end) = rest.iter().position(|byte| b"\r\n".contains(byte)) {
        lines.push(&rest[..end]);
        let is_double = rest[end..].starts_with(b"\r\n");
        rest = &rest[end + 1 + usize::from(is_double)..];
    }
    lines.push(rest);
    lines
}

impl Written {
    fn new(number: usize, line: &[u8]) -> Written {
        let mut starts = line.windows(COMMENT.len());
        let end = starts.position(|bytes| bytes == COMMENT.as_bytes());
        let (code, comment) = match end {
            Some(end) => (&line[..end], &line[end + COMMENT.len()..]),
            None => (line, &[][..]),
        };
        Written {
            number,
            text: String::from_utf8_lossy(code)
                .trim_end_matches(BLANKS)
                .to_string(),
            comment: comment_text(comment),
            has_third_dash: comment.starts_with(DASHES),
            decoded: decoded(code),
        }
    }

    fn is_blank(&self) -> bool {
        self.text.is_empty() && self.decoded.is_ok()
    }

    /// The blanks that it starts with.
    fn indent(&self) -> usize {
        let blanks = self.text.chars();
        blanks.take_while(|blank| BLANKS.contains(blank)).count()
    }

    fn is_declaration(&self) -> bool {
        Names::is_declaration(&self.text)
    }

    /// Whether it is meant as a pair.
    fn is_pair(&self) -> bool {
        let text = self.text.trim_start();
        text.contains(BETWEEN) && !text.starts_with(BETWEEN) && !self.is_declaration()
    }

    /// The heading that a blank line with a comment is, if it is one.
    fn heading(&self) -> Option<&str> {
        let is_heading = self.has_third_dash && !self.comment.is_empty();
        is_heading.then_some(&self.comment)
    }
}

/// A comment without further dashes around it.
fn comment_text(bytes: &[u8]) -> String {
    let text = String::from_utf8_lossy(bytes);
    let is_around = |character: char| character == DASH || character.is_whitespace();
    match bytes.starts_with(DASHES) {
        true => text.trim_matches(is_around).to_string(),
        false => text.trim().to_string(),
    }
}

/// Whether all bytes are text.
fn decoded(bytes: &[u8]) -> Result<(), Fault> {
    std::str::from_utf8(bytes).map(|_| ()).map_err(|error| {
        let end = error.valid_up_to();
        let valid = String::from_utf8_lossy(&bytes[..end]);
        Fault {
            column: valid.chars().count() + 1,
            reason: format!(
                "expected UTF-8, found the byte {}; save the file as UTF-8",
                bytes[end]
            ),
        }
    })
}

impl Notation {
    fn is_named(&self) -> bool {
        matches!(self, Notation::Named(_))
    }

    /// Takes a declaration, if the notation has names.
    fn declare(&mut self, line: &Written) -> Result<(), Fault> {
        let Notation::Named(names) = self else {
            return Err(Fault::no_declaration());
        };
        let declared = names.declare(&line.text, line.number);
        declared.map_err(|error| {
            let fault = self.hinted(error.into(), &line.text);
            fault.of_declaration()
        })
    }

    /// Takes away what a line was meant to declare; whether there is something.
    fn revoke(&mut self, line: &Written) -> bool {
        match self {
            Notation::Indices => false,
            Notation::Named(names) => names.revoke(&line.text, line.number),
        }
    }
}

fn pair(text: &str, number: usize, notation: &mut Notation) -> Result<Content, Fault> {
    let parts: Vec<&str> = text.split(BETWEEN).collect();
    let mut free = Vec::new();
    let mut terms = Vec::new();
    // The column where a part starts.
    let mut column = 1;
    for (place, part) in parts.iter().take(2).enumerate() {
        let length = part.chars().count();
        let is_followed = place + 1 < parts.len();
        let term = notation.term(part, &mut free, number);
        terms.push(term.map_err(|fault| {
            let fault = match place {
                0 => fault.reworded("or the end,", "or `|`,"),
                _ => fault,
            };
            let fault = match is_followed && fault.column > length {
                true => fault.reworded("found the end", "found `|`"),
                false => fault,
            };
            Fault {
                column: fault.column + column - 1,
                ..fault
            }
        })?);
        column += length + 1;
    }
    let wrong = |column: usize, reason: &str| Fault {
        column,
        reason: reason.to_string(),
    };
    match <[_; 2]>::try_from(terms) {
        Ok([left, right]) if parts.len() == 2 => Ok(Content {
            pair: Pair::new(left, right),
            free,
        }),
        Ok(_) => Err(wrong(column - 1, "expected the end, found a second `|`")),
        Err(_) => {
            let reason =
                "expected `|` and the right term, found the end; a pair stands on one line";
            Err(wrong(column - 1, reason))
        }
    }
}

impl Fault {
    fn no_declaration() -> Fault {
        Fault {
            column: 1,
            reason: "expected `let`, `constructor` or a pair".to_string(),
        }
    }

    /// The same with a word to whoever goes on in the next line.
    fn of_declaration(self) -> Fault {
        let end = "found the end";
        self.reworded(end, &format!("{end}; a declaration stands on one line"))
    }

    /// The fault of a part of a line, in words of the whole line.
    fn reworded(self, part: &str, whole: &str) -> Fault {
        let reason = self.reason.replace(part, whole);
        Fault { reason, ..self }
    }
}
