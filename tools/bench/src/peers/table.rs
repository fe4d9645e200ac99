//! Loading a stored table of form 1.

use unit::limits::{
    MAX_ARGUMENTS, MAX_BOUND, MAX_BRANCHES, MAX_FREE, MAX_INDEX, MAX_NUMERAL, TAGS, WORKSPACE,
};
use unit::word::*;
use unit::{FORM, RECORD};

#[derive(Clone, Copy)]
struct Record {
    kind: u32,
    value: u32,
    first: usize,
    next: usize,
}

/// A table whose length and header are right.
struct Table<'a> {
    words: &'a [u32],
    records: usize,
    root: usize,
}

impl Table<'_> {
    fn record(&self, at: usize) -> Record {
        let words = &self.words[at * RECORD..][..RECORD];
        Record {
            kind: words[0],
            value: words[1],
            first: words[2] as usize,
            next: words[3] as usize,
        }
    }

    fn all(&self) -> impl Iterator<Item = (usize, Record)> + '_ {
        (1..=self.records).map(|at| (at, self.record(at)))
    }
}

/// Loads the table and returns the term's length, or the number of the refusal.
pub fn load(words: &[u32], workspace: &mut [u32]) -> Result<usize, u32> {
    let c = workspace.len();
    refuse(7, !WORKSPACE.contains(&c))?;
    let table = header(words)?;
    refuse(8, table.records > c)?;
    refuse(3, !table.all().all(|(_, record)| value_fits(record)))?;
    refuse(4, !links_fit(&table))?;
    let root = table.record(table.root);
    refuse(5, root.kind == BRANCH || root.next != 0)?;
    refuse(
        5,
        !table.all().all(|(_, record)| children_fit(&table, record)),
    )?;
    let mut reader = Reader {
        table,
        workspace,
        length: 0,
        fits: true,
    };
    reader.term(reader.table.root, 0);
    refuse(6, !reader.fits)?;
    let length = reader.length;
    workspace[length..].fill(0);
    Ok(length)
}

fn refuse(number: u32, met: bool) -> Result<(), u32> {
    match met {
        true => Err(number),
        false => Ok(()),
    }
}

fn header(words: &[u32]) -> Result<Table<'_>, u32> {
    refuse(1, words.len() < RECORD)?;
    let records = words[1] as usize;
    refuse(1, !(1..=*WORKSPACE.end()).contains(&records))?;
    refuse(1, words.len() != RECORD * (records + 1))?;
    let root = words[2] as usize;
    refuse(2, words[0] != FORM || words[3] != 0)?;
    refuse(2, !(1..=records).contains(&root))?;
    Ok(Table {
        words,
        records,
        root,
    })
}

fn value_fits(record: Record) -> bool {
    match record.kind {
        VARIABLE => record.value <= MAX_INDEX,
        CONSTRUCTOR => TAGS.contains(&record.value),
        BRANCH => record.value == 0 || is_pattern(record.value),
        ABSTRACTION | APPLICATION | CASE => record.value == 0,
        NUMERAL => record.value <= MAX_NUMERAL,
        _ => false,
    }
}

/// Whether a branch other than a default may have the value.
fn is_pattern(value: u32) -> bool {
    TAGS.contains(&tag(value)) && count(value) <= MAX_BOUND
}

/// Whether links lead forward and name every record once.
fn links_fit(table: &Table) -> bool {
    let mut named = [false; *WORKSPACE.end() + 1];
    named[table.root] = true;
    let mut names = 1;
    for (at, record) in table.all() {
        for link in [record.first, record.next] {
            if link == 0 {
                continue;
            }
            if link <= at || link > table.records || named[link] {
                return false;
            }
            named[link] = true;
            names += 1;
        }
    }
    names == table.records
}

/// Whether the children are as many and of the kind that the record asks for.
fn children_fit(table: &Table, record: Record) -> bool {
    let mut children = 0;
    let mut least_tag = 0;
    let mut next = record.first;
    while next != 0 {
        let child = table.record(next);
        let branch_due = record.kind == CASE && children > 0;
        if (child.kind == BRANCH) != branch_due || (branch_due && tag(child.value) < least_tag) {
            return false;
        }
        if branch_due {
            least_tag = tag(child.value) + 1;
        }
        children += 1;
        next = child.next;
    }
    match record.kind {
        VARIABLE | NUMERAL => children == 0,
        ABSTRACTION | BRANCH => children == 1,
        APPLICATION => children == 2,
        CONSTRUCTOR => children <= MAX_ARGUMENTS,
        _ => (1..=MAX_BRANCHES + 1).contains(&children),
    }
}

/// Writes the words of a table that is in order but for its free numbers.
struct Reader<'t, 'w> {
    table: Table<'t>,
    workspace: &'w mut [u32],
    length: usize,
    /// No free number so far is above the limit.
    fits: bool,
}

impl Reader<'_, '_> {
    /// Term and chain are read by turns.
    fn term(&mut self, at: usize, depth: u32) {
        let record = self.table.record(at);
        let start = self.length;
        self.length += 1;
        let bound = match record.kind {
            ABSTRACTION => 1,
            BRANCH => count(record.value),
            _ => 0,
        };
        let children = self.chain(record.first, depth + bound);
        let payload = match record.kind {
            CONSTRUCTOR => tagged(record.value, children),
            CASE => children - 1,
            _ => record.value,
        };
        if record.kind == VARIABLE && record.value > depth + MAX_FREE {
            self.fits = false;
        }
        self.workspace[start] = word(record.kind, payload);
    }

    /// Reads the records of a chain and returns their number.
    fn chain(&mut self, first: usize, depth: u32) -> u32 {
        let mut children = 0;
        let mut next = first;
        while next != 0 {
            self.term(next, depth);
            children += 1;
            next = self.table.record(next).next;
        }
        children
    }
}
