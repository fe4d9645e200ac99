//! What decides the answer to an import or an export, as far as it tells wrong
//! ones from the right one.

use crate::encoding::{bits, bits_of, first_term, term_of, Fault};
use crate::generate::terms::subterms;
use crate::part::made;
use crate::press::{term_in, Side};
use crate::refusal::Refusal;
use crate::replay::{Event, Machine, Operation};
use crate::term::Term;
use crate::words::{kind, kind_of, words};
use std::fmt;

/// What an import or an export meets.
#[derive(Clone, Copy, Debug, PartialEq, Eq)]
pub enum Exchange {
    /// An import fills its workspace.
    ImportFull,
    /// More bytes are lent than the bits of the encoding fill.
    ImportSpare,
    /// A run of the encoding has at least [`WINDOW`] ones.
    ImportRun,
    /// The last one of such a run, or of a shorter one, is the last of so many
    /// bits.
    ImportEdge,
    /// The term that comes in is in a workspace already.
    ImportExported,
    /// An encoding is refused by nothing but this.
    ImportFault(Fault),
    /// The term is one word too long.
    ImportOneWord,
    /// No free number is above 0.
    ImportOneBinder,
    /// Both refusals are met; the first one counts.
    ImportOrder(Refusal, Refusal),
    /// The bits fill the lent bytes but for less than one.
    ExportExact,
    /// There are more bytes.
    ExportSpare,
    /// A run of the encoding has at least [`WINDOW`] ones.
    ExportRun,
    /// There is one byte too few.
    ExportOneByte,
    /// The term has no encoding by nothing but this.
    ExportOther(Other),
    /// Both refusals are met; the first one counts.
    ExportOrder(Refusal, Refusal),
}

/// What keeps a term from having an encoding.
#[derive(Clone, Copy, Debug, PartialEq, Eq)]
pub enum Other {
    Free,
    Constructor,
    Case,
    Numeral,
}

pub const OTHERS: [Other; 4] = [Other::Free, Other::Constructor, Other::Case, Other::Numeral];

/// Bits of a machine word.
const WINDOW: usize = 64;

impl fmt::Display for Other {
    fn fmt(&self, f: &mut fmt::Formatter<'_>) -> fmt::Result {
        f.write_str(match self {
            Other::Free => "a free variable",
            Other::Constructor => "a constructor",
            Other::Case => "a case",
            Other::Numeral => "a numeral",
        })
    }
}

impl fmt::Display for Exchange {
    fn fmt(&self, f: &mut fmt::Formatter<'_>) -> fmt::Result {
        match self {
            Exchange::ImportFull => write!(f, "import of C words"),
            Exchange::ImportSpare => write!(f, "import with bytes to spare"),
            Exchange::ImportRun => write!(f, "import of a run of {WINDOW} ones or more"),
            Exchange::ImportEdge => write!(f, "import of a run up to a multiple of {WINDOW} bits"),
            Exchange::ImportExported => write!(f, "import of what is exported"),
            Exchange::ImportFault(fault) => write!(f, "import refused 12 by {fault}"),
            Exchange::ImportOneWord => write!(f, "import refused 8 by one word"),
            Exchange::ImportOneBinder => write!(f, "import refused 13 by one binder"),
            Exchange::ImportOrder(first, second) => {
                write!(f, "import refused {first}, not {second}")
            }
            Exchange::ExportExact => write!(f, "export into bytes just enough"),
            Exchange::ExportSpare => write!(f, "export with bytes to spare"),
            Exchange::ExportRun => write!(f, "export of a run of {WINDOW} ones or more"),
            Exchange::ExportOneByte => write!(f, "export refused 8 by one byte"),
            Exchange::ExportOther(other) => write!(f, "export refused 13 by {other}"),
            Exchange::ExportOrder(first, second) => {
                write!(f, "export refused {first}, not {second}")
            }
        }
    }
}

/// What one call of a script meets, if it is an import or an export.
pub fn of_call(before: &Machine, operation: &Operation) -> Vec<Exchange> {
    let met = match (operation, made(before, operation)) {
        (Operation::Import { side, count, bytes }, Event::Import(answer)) => {
            let workspace = workspace(before, *side);
            match answer {
                Ok(_) => imported(before, workspace, bytes, *count),
                Err(refusal) => import_refused(workspace, bytes, *count, refusal),
            }
        }
        (
            Operation::Export {
                side,
                length,
                bytes,
            },
            Event::Export(answer),
        ) => {
            let workspace = workspace(before, *side);
            match answer {
                Ok(count) => exported(workspace, *length, *bytes, count),
                Err(refusal) => export_refused(workspace, *length, *bytes, refusal),
            }
        }
        _ => Vec::new(),
    };
    let met = met.into_iter().filter(|(met, _)| *met);
    met.map(|(_, exchange)| exchange).collect()
}

fn workspace(machine: &Machine, side: Side) -> &[u32] {
    match side {
        Side::Left => &machine.left,
        Side::Right => &machine.right,
    }
}

/// Whether each thing is met.
type Met = Vec<(bool, Exchange)>;

fn imported(before: &Machine, workspace: &[u32], bytes: &[u8], count: u32) -> Met {
    let Ok(term) = term_of(bytes, count) else {
        return Vec::new();
    };
    let words = words(&term);
    let holds = |workspace: &[u32]| workspace.starts_with(&words);
    let runs = runs(&bits(bytes));
    let filled = (count as usize).div_ceil(8);
    vec![
        (words.len() == workspace.len(), Exchange::ImportFull),
        (bytes.len() > filled, Exchange::ImportSpare),
        (runs.iter().any(long), Exchange::ImportRun),
        (runs.iter().any(up_to_edge), Exchange::ImportEdge),
        (
            holds(&before.left) || holds(&before.right),
            Exchange::ImportExported,
        ),
    ]
}

/// A run of ones in bits: where it begins and ends.
type Run = (usize, usize);

/// All runs of ones.
fn runs(bits: &[bool]) -> Vec<Run> {
    let mut runs = Vec::new();
    let mut start = None;
    for (at, bit) in bits.iter().chain([&false]).enumerate() {
        match (bit, start) {
            (true, None) => start = Some(at),
            (false, Some(first)) => {
                runs.push((first, at));
                start = None;
            }
            _ => {}
        }
    }
    runs
}

fn long((start, end): &Run) -> bool {
    end - start >= WINDOW
}

fn up_to_edge((_, end): &Run) -> bool {
    end % WINDOW == 0
}

fn import_refused(workspace: &[u32], bytes: &[u8], count: u32, refusal: Refusal) -> Met {
    let term = term_of(bytes, count);
    let bits = bits(bytes);
    match (refusal, &term) {
        (Refusal::Workspace, Err(_)) => {
            let order = Exchange::ImportOrder(Refusal::Workspace, Refusal::Bits);
            vec![(true, order)]
        }
        (Refusal::Bits, Err(fault)) => {
            let counted = bits.get(..count as usize);
            let padding = bits.get(count as usize..).unwrap_or(&[]);
            // Broken padding may come with another fault.
            let alone = *fault == Fault::Padding || !padding.contains(&true);
            let first = counted.and_then(first_term).map(|(term, _)| term);
            let order = |second| Exchange::ImportOrder(Refusal::Bits, second);
            let long = first
                .as_ref()
                .is_some_and(|term| term.size() > workspace.len());
            let open = first.as_ref().is_some_and(|term| !term.is_closed());
            vec![
                (alone, Exchange::ImportFault(*fault)),
                (long, order(Refusal::TooLong)),
                (open, order(Refusal::NoEncoding)),
            ]
        }
        (Refusal::TooLong, Ok(term)) => {
            let order = Exchange::ImportOrder(Refusal::TooLong, Refusal::NoEncoding);
            let one = term.size() == workspace.len() + 1;
            vec![(one, Exchange::ImportOneWord), (!term.is_closed(), order)]
        }
        (Refusal::NoEncoding, Ok(term)) => {
            let one = term.largest_free() == Some(0);
            vec![(one, Exchange::ImportOneBinder)]
        }
        _ => Vec::new(),
    }
}

fn exported(workspace: &[u32], length: u32, bytes: usize, count: u32) -> Met {
    let filled = (count as usize).div_ceil(8);
    let bits = term_in(workspace, length)
        .ok()
        .and_then(|term| bits_of(&term));
    let run = bits.is_some_and(|bits| runs(&bits).iter().any(long));
    vec![
        (bytes == filled, Exchange::ExportExact),
        (bytes > filled, Exchange::ExportSpare),
        (run, Exchange::ExportRun),
    ]
}

fn export_refused(workspace: &[u32], length: u32, bytes: usize, refusal: Refusal) -> Met {
    let order = |second| Exchange::ExportOrder(refusal, second);
    let term = term_in(workspace, length);
    match (refusal, &term) {
        (Refusal::Workspace, Err(_)) => vec![(true, order(Refusal::NotATerm))],
        (Refusal::NotATerm, _) => {
            let mut given = workspace.iter().take(length as usize);
            let other = |word: &u32| kind_of(*word) > kind::APPLICATION;
            vec![
                (given.any(other), order(Refusal::NoEncoding)),
                (bytes == 0, order(Refusal::TooLong)),
            ]
        }
        (Refusal::NoEncoding, Ok(term)) => {
            let mut met: Met = vec![(too_few(length, bytes), order(Refusal::TooLong))];
            let alone = |other: &Other| others(term) == [*other];
            met.extend(OTHERS.map(|other| (alone(&other), Exchange::ExportOther(other))));
            met
        }
        (Refusal::TooLong, Ok(term)) => {
            let filled = bits_of(term).map_or(0, |bits| bits.len().div_ceil(8));
            vec![(bytes + 1 == filled, Exchange::ExportOneByte)]
        }
        _ => Vec::new(),
    }
}

/// Whether bytes are too few even for two bits a word, the least.
fn too_few(length: u32, bytes: usize) -> bool {
    8 * bytes < 2 * length as usize
}

/// Everything that keeps the term from having an encoding.
pub fn others(term: &Term) -> Vec<Other> {
    let parts = subterms(term);
    let has = |other: &Other| match other {
        Other::Free => !term.is_closed(),
        Other::Constructor => parts.iter().any(|part| matches!(part.0, Term::Con { .. })),
        Other::Case => parts.iter().any(|part| matches!(part.0, Term::Case { .. })),
        Other::Numeral => parts.iter().any(|part| matches!(part.0, Term::Num(_))),
    };
    OTHERS.into_iter().filter(has).collect()
}
