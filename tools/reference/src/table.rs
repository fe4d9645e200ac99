//! The stored table: loading and writing.

use crate::press::{put, term_in};
use crate::refusal::Refusal;
use crate::term::{
    abs, app, branch, case, con, num, tags_rise, var, Branch, Term, LARGEST_INDEX, LARGEST_NUMERAL,
    MOST_ARGUMENTS, MOST_BRANCHES, TAGS, WORKSPACE,
};
use crate::words::{kind, tag_and_bound, COUNTS};

/// Words of a record, the header included.
pub const RECORD: usize = 4;
/// The header's first word.
pub const FORM: u32 = 1;
/// The most records after the header.
pub const MOST_RECORDS: usize = 2_048;
/// The most words of a table.
pub const LONGEST_TABLE: usize = RECORD * (MOST_RECORDS + 1);

#[derive(Clone, Copy)]
struct Record {
    kind: u32,
    value: u32,
    child: u32,
    next: u32,
}

/// Loads a table into a workspace and returns the term's length.
pub fn load(table: &[u32], workspace: &mut [u32]) -> Result<u32, Refusal> {
    if !WORKSPACE.contains(&workspace.len()) {
        return Err(Refusal::Workspace);
    }
    let term = term_of(table, workspace.len())?;
    Ok(put(workspace, &term))
}

/// The term of a table for a workspace of `capacity` words.
fn term_of(table: &[u32], capacity: usize) -> Result<Term, Refusal> {
    let count = records_after_header(table).ok_or(Refusal::TableLength)?;
    let root = root(table, count).ok_or(Refusal::Header)?;
    if count > capacity {
        return Err(Refusal::TooLong);
    }
    let records: Vec<Record> = table
        .chunks_exact(RECORD)
        .map(|words| Record {
            kind: words[0],
            value: words[1],
            child: words[2],
            next: words[3],
        })
        .collect();
    if !records[1..].iter().all(value_fits) {
        return Err(Refusal::Value);
    }
    if !links_fit(&records, root) {
        return Err(Refusal::Link);
    }
    let records = Records(records);
    let term = records.whole_term(root).ok_or(Refusal::Structure)?;
    if !term.frees_fit() {
        return Err(Refusal::FreeNumber);
    }
    Ok(term)
}

/// The header's count of records, if the table's length fits it.
fn records_after_header(table: &[u32]) -> Option<usize> {
    let header = table.get(..RECORD)?;
    let count = usize::try_from(header[1]).ok()?;
    let fits = (1..=MOST_RECORDS).contains(&count) && table.len() == RECORD * (count + 1);
    fits.then_some(count)
}

/// The root's index, if the rest of the header is right.
fn root(table: &[u32], count: usize) -> Option<usize> {
    let root = table[2] as usize;
    let fits = table[0] == FORM && table[3] == 0 && (1..=count).contains(&root);
    fits.then_some(root)
}

fn value_fits(record: &Record) -> bool {
    match record.kind {
        kind::VARIABLE => record.value <= LARGEST_INDEX,
        kind::CONSTRUCTOR => TAGS.contains(&record.value),
        kind::BRANCH => tag_and_bound(record.value).is_some(),
        kind::ABSTRACTION | kind::APPLICATION | kind::CASE => record.value == 0,
        kind::NUMERAL => record.value <= LARGEST_NUMERAL,
        _ => false,
    }
}

/// Whether every link points past its own record and into the table, and
/// every record after the header is named exactly once.
fn links_fit(records: &[Record], root: usize) -> bool {
    let mut named = vec![0; records.len()];
    named[root] += 1;
    for (own, record) in records.iter().enumerate().skip(1) {
        for link in [record.child as usize, record.next as usize] {
            if link == 0 {
                continue;
            }
            if link <= own || link >= records.len() {
                return false;
            }
            named[link] += 1;
        }
    }
    named[1..].iter().all(|&times| times == 1)
}

/// Records whose links form one tree.
struct Records(Vec<Record>);

impl Records {
    fn whole_term(&self, root: usize) -> Option<Term> {
        let alone = self.0[root].next == 0;
        alone.then(|| self.term(root)).flatten()
    }

    fn term(&self, index: usize) -> Option<Term> {
        let record = self.0[index];
        let children = self.children(record);
        match (record.kind, children.as_slice()) {
            (kind::VARIABLE, []) => Some(var(record.value)),
            (kind::ABSTRACTION, [body]) => Some(abs(self.term(*body)?)),
            (kind::APPLICATION, [function, argument]) => {
                Some(app(self.term(*function)?, self.term(*argument)?))
            }
            (kind::CONSTRUCTOR, args) if args.len() <= MOST_ARGUMENTS => {
                let args = args.iter().map(|arg| self.term(*arg));
                Some(con(record.value, args.collect::<Option<_>>()?))
            }
            (kind::CASE, [scrutinee, branches @ ..]) if branches.len() <= MOST_BRANCHES => {
                let scrutinee = self.term(*scrutinee)?;
                let branches = branches.iter().map(|index| self.branch(*index));
                let branches: Vec<_> = branches.collect::<Option<_>>()?;
                tags_rise(&branches).then(|| case(scrutinee, branches))
            }
            (kind::NUMERAL, []) => Some(num(record.value)),
            _ => None,
        }
    }

    fn branch(&self, index: usize) -> Option<Branch> {
        let record = self.0[index];
        match (record.kind, self.children(record).as_slice()) {
            (kind::BRANCH, [body]) => {
                let (tag, bound) = tag_and_bound(record.value)?;
                Some(branch(tag, bound, self.term(*body)?))
            }
            _ => None,
        }
    }

    /// The indices on a record's chain of children.
    fn children(&self, record: Record) -> Vec<usize> {
        let link = |to: u32| (to != 0).then_some(to as usize);
        std::iter::successors(link(record.child), |at| link(self.0[*at].next)).collect()
    }
}

/// Writes the term in a workspace as a table; returns the number of records.
pub fn write(workspace: &[u32], length: u32, table: &mut [u32]) -> Result<u32, Refusal> {
    if !WORKSPACE.contains(&workspace.len()) {
        return Err(Refusal::Workspace);
    }
    let term = term_in(workspace, length)?;
    if table.len() != RECORD * (length as usize + 1) {
        return Err(Refusal::TableLength);
    }
    let mut writer = Writer {
        words: vec![FORM, length, 1, 0],
    };
    writer.term(&term);
    table.copy_from_slice(&writer.words);
    Ok(length)
}

/// Appends records in prefix order.
struct Writer {
    words: Vec<u32>,
}

impl Writer {
    /// Appends a record without links; returns its index.
    fn record(&mut self, kind: u32, value: u32) -> usize {
        let index = self.words.len() / RECORD;
        self.words.extend([kind, value, 0, 0]);
        index
    }

    /// Appends a term with its parts; returns the index of its record.
    fn term(&mut self, term: &Term) -> usize {
        match term {
            Term::Var(index) => self.record(kind::VARIABLE, *index),
            Term::Abs(body) => self.parent(kind::ABSTRACTION, 0, [body.as_ref()]),
            Term::App(function, argument) => {
                self.parent(kind::APPLICATION, 0, [function.as_ref(), argument.as_ref()])
            }
            Term::Con { tag, args } => self.parent(kind::CONSTRUCTOR, *tag, args),
            Term::Case {
                scrutinee,
                branches,
            } => {
                let own = self.parent(kind::CASE, 0, [scrutinee.as_ref()]);
                let mut link = RECORD * (own + 1) + 3;
                for branch in branches {
                    let value = branch.tag * COUNTS + branch.bound;
                    let index = self.parent(kind::BRANCH, value, [&branch.body]);
                    link = self.link(link, index);
                }
                own
            }
            Term::Num(numeral) => self.record(kind::NUMERAL, *numeral),
        }
    }

    /// Appends a record and its chain of children; returns its index.
    fn parent<'a>(
        &mut self,
        kind: u32,
        value: u32,
        children: impl IntoIterator<Item = &'a Term>,
    ) -> usize {
        let own = self.record(kind, value);
        let mut link = RECORD * own + 2;
        for child in children {
            let index = self.term(child);
            link = self.link(link, index);
        }
        own
    }

    /// Lets the word at `link` name a record; returns the place of the link
    /// to the one after it.
    fn link(&mut self, link: usize, index: usize) -> usize {
        self.words[link] = index as u32;
        RECORD * index + 3
    }
}
