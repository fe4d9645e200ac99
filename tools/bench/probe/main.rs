//! Measures the unit's calls alone: their machine stack, by painting it, and beside their peers those on
//! encodings. Standard input holds little-endian words. A pair is 0, budget, C, left length, left words,
//! right length, right words, length of the left table, its words; printed are what the press spends and
//! the bytes of stack that these take: the press, showing the first terms, loading the table and writing
//! it again. A line is 1, C, the number of its bytes, a word for each, the length of its term, the term's
//! words; printed are that length and the bytes of stack that reading it takes. An encoding is 2, what is
//! measured (0: nothing, 1: bytes of stack, 2: nanoseconds), the number of batches, the calls in a batch
//! of the unit's import, of its peer, of the unit's export and of its peer, the number of bits, then as a
//! line from C on; printed is what is measured of these four, batch by batch.

use std::arch::asm;
use std::hint::black_box;
use std::io::{self, Read};
use std::thread;
use std::time::Instant;

use bench::peers::bitwise;

// As firmware/fetsguin.h declares them.
extern "C" {
    fn fetsguin_fresh(session: *mut u32);

    fn fetsguin_press(
        left: *mut u32,
        left_c: usize,
        right: *mut u32,
        right_c: usize,
        scratch: *mut u32,
        scratch_c: usize,
        left_length: usize,
        right_length: usize,
        budget: u32,
        session: *mut u32,
        answer: *mut u32,
    ) -> u32;

    fn fetsguin_show(
        left: *const u32,
        left_c: usize,
        right: *const u32,
        right_c: usize,
        left_length: usize,
        right_length: usize,
        count: *mut usize,
    ) -> u32;

    fn fetsguin_load(
        table: *const u32,
        table_words: usize,
        workspace: *mut u32,
        c: usize,
        length: *mut usize,
    ) -> u32;

    fn fetsguin_write(
        workspace: *const u32,
        c: usize,
        length: usize,
        table: *mut u32,
        table_words: usize,
        records: *mut usize,
    ) -> u32;

    fn fetsguin_read_line(
        line: *const u8,
        bytes: usize,
        workspace: *mut u32,
        c: usize,
        length: *mut usize,
    ) -> u32;

    fn fetsguin_import(
        encoding: *const u8,
        bytes: usize,
        bits: usize,
        workspace: *mut u32,
        c: usize,
        length: *mut usize,
    ) -> u32;

    fn fetsguin_export(
        workspace: *const u32,
        c: usize,
        length: usize,
        encoding: *mut u8,
        bytes: usize,
        bits: *mut usize,
    ) -> u32;
}

/// The words of a session, of which the first is the total, and of an answer.
const SESSION: usize = 4;
const ANSWER: usize = 5;

/// Bytes that are painted, of a larger stack.
const PAINTED: usize = 512 << 10;
const STACK: usize = 2 << 20;
const PAINT: u64 = 0x7a11_b1a5_7e55_e11a;
/// Bytes below the stack pointer that belong to the running function all the same.
const RED_ZONE: usize = 128;

type Calls<'a> = dyn FnMut() + Send + 'a;

/// The bytes of stack that calls use, in a thread, whose stack has a known size.
fn used(calls: &mut Calls) -> usize {
    thread::scope(|scope| {
        let thread = thread::Builder::new().stack_size(STACK);
        let thread = thread.spawn_scoped(scope, || changed(calls));
        thread.expect("a thread").join().expect("the calls return")
    })
}

/// The bytes from the stack pointer here to the lowest that the calls change.
#[inline(never)]
fn changed(calls: &mut Calls) -> usize {
    let top: usize;
    // Safety: the stack pointer is only read.
    unsafe { asm!("mov {}, rsp", out(reg) top, options(nomem, nostack)) };
    let places = || (top - PAINTED..top - RED_ZONE).step_by(8);
    for place in places() {
        // Safety: the place is in this thread's stack, below all that is in use.
        unsafe { (place as *mut u64).write_volatile(PAINT) };
    }
    calls();
    // Safety: as above.
    let is_changed = |place: &usize| unsafe { (*place as *const u64).read_volatile() } != PAINT;
    places().find(is_changed).map_or(0, |lowest| top - lowest)
}

fn nanoseconds(calls: &mut Calls) -> usize {
    let start = Instant::now();
    calls();
    start.elapsed().as_nanos() as usize
}

/// For a run that is measured from outside.
fn nothing(calls: &mut Calls) -> usize {
    calls();
    0
}

type Measure = fn(&mut Calls) -> usize;

const MEASURES: [Measure; 3] = [nothing, used, nanoseconds];

struct Pair {
    budget: u32,
    left: Vec<u32>,
    left_length: usize,
    right: Vec<u32>,
    right_length: usize,
    table: Vec<u32>,
}

/// The bytes of a line or of an encoding.
struct Brought {
    bytes: Vec<u8>,
    length: usize,
    /// The workspace with the term in it.
    workspace: Vec<u32>,
}

struct Encoding {
    measure: Measure,
    batches: usize,
    /// How often each call is made in a batch.
    counts: [usize; 4],
    bits: usize,
    brought: Brought,
}

enum Input {
    Pair(Pair),
    Line(Brought),
    Encoding(Encoding),
}

fn read(bytes: &[u8]) -> Option<Input> {
    let words = bytes.chunks_exact(4);
    let mut words = words.map(|word| u32::from_le_bytes([word[0], word[1], word[2], word[3]]));
    match words.next()? {
        0 => read_pair(words).map(Input::Pair),
        1 => read_brought(words).map(Input::Line),
        _ => read_encoding(words).map(Input::Encoding),
    }
}

/// Words after their number.
fn counted(words: &mut impl Iterator<Item = u32>) -> Option<Vec<u32>> {
    let length = words.next()? as usize;
    Some(words.take(length).collect())
}

fn read_brought(mut words: impl Iterator<Item = u32>) -> Option<Brought> {
    let c = words.next()? as usize;
    let bytes = counted(&mut words)?.into_iter();
    let mut workspace = counted(&mut words)?;
    let length = workspace.len();
    workspace.resize(c, 0);
    Some(Brought {
        bytes: bytes.map(|byte| byte as u8).collect(),
        length,
        workspace,
    })
}

fn read_encoding(mut words: impl Iterator<Item = u32>) -> Option<Encoding> {
    let measure = *MEASURES.get(words.next()? as usize)?;
    let mut number = || Some(words.next()? as usize);
    let batches = number()?;
    let counts = [number()?, number()?, number()?, number()?];
    Some(Encoding {
        measure,
        batches,
        counts,
        bits: number()?,
        brought: read_brought(words)?,
    })
}

fn read_pair(mut words: impl Iterator<Item = u32>) -> Option<Pair> {
    let (budget, c) = (words.next()?, words.next()? as usize);
    let mut counted = || counted(&mut words);
    let (mut left, mut right, table) = (counted()?, counted()?, counted()?);
    let (left_length, right_length) = (left.len(), right.len());
    left.resize(c, 0);
    right.resize(c, 0);
    Some(Pair {
        budget,
        left,
        left_length,
        right,
        right_length,
        table,
    })
}

impl Pair {
    fn show(&self) -> usize {
        let (c, mut count) = (self.left.len(), 0);
        // Safety: each pointer is that of as many words as stand behind it, none lent twice.
        used(&mut || unsafe {
            let (left, right) = (self.left.as_ptr(), self.right.as_ptr());
            let (left_length, right_length) = (self.left_length, self.right_length);
            fetsguin_show(left, c, right, c, left_length, right_length, &mut count);
        })
    }

    fn load(&self) -> usize {
        let (c, mut length) = (self.left.len(), 0);
        let mut workspace = vec![7; c];
        // Safety: as above.
        let stack = used(&mut || unsafe {
            let (table, words) = (self.table.as_ptr(), self.table.len());
            fetsguin_load(table, words, workspace.as_mut_ptr(), c, &mut length);
        });
        assert!(workspace == self.left, "the table is loaded");
        stack
    }

    fn write(&self) -> usize {
        let (mut table, mut records) = (vec![7; self.table.len()], 0);
        // Safety: as above.
        let stack = used(&mut || unsafe {
            let (workspace, c) = (self.left.as_ptr(), self.left.len());
            let (words, count) = (table.as_mut_ptr(), table.len());
            fetsguin_write(workspace, c, self.left_length, words, count, &mut records);
        });
        assert!(table == self.table, "the table is written");
        stack
    }

    /// What the press spends, and its stack.
    fn press(&mut self) -> (u32, usize) {
        let c = self.left.len();
        let mut scratch = vec![7; c];
        let (mut session, mut answer) = ([0; SESSION], [0; ANSWER]);
        // Safety: as above.
        let stack = used(&mut || unsafe {
            fetsguin_fresh(session.as_mut_ptr());
            fetsguin_press(
                self.left.as_mut_ptr(),
                c,
                self.right.as_mut_ptr(),
                c,
                scratch.as_mut_ptr(),
                c,
                self.left_length,
                self.right_length,
                self.budget,
                session.as_mut_ptr(),
                answer.as_mut_ptr(),
            );
        });
        (session[0], stack)
    }
}

impl Brought {
    fn read_line(&self) -> usize {
        let (c, mut length) = (self.workspace.len(), 0);
        let mut workspace = vec![7; c];
        // Safety: as above.
        let stack = used(&mut || unsafe {
            let (line, bytes) = (self.bytes.as_ptr(), self.bytes.len());
            fetsguin_read_line(line, bytes, workspace.as_mut_ptr(), c, &mut length);
        });
        assert!(workspace == self.workspace, "the line is read");
        stack
    }
}

fn unit_import(bytes: &[u8], bits: usize, workspace: &mut [u32]) {
    let (words, c, mut length) = (workspace.as_mut_ptr(), workspace.len(), 0);
    // Safety: as above.
    unsafe { fetsguin_import(bytes.as_ptr(), bytes.len(), bits, words, c, &mut length) };
}

fn peer_import(bytes: &[u8], bits: usize, workspace: &mut [u32]) {
    let _ = black_box(bitwise::import(bytes, bits, workspace));
}

fn unit_export(workspace: &[u32], length: usize, bytes: &mut [u8]) {
    let (words, c, mut bits) = (workspace.as_ptr(), workspace.len(), 0);
    // Safety: as above.
    unsafe { fetsguin_export(words, c, length, bytes.as_mut_ptr(), bytes.len(), &mut bits) };
}

fn peer_export(workspace: &[u32], length: usize, bytes: &mut [u8]) {
    let _ = black_box(bitwise::export(workspace, length, bytes));
}

impl Encoding {
    fn import(&self, count: usize, import: fn(&[u8], usize, &mut [u32])) -> usize {
        let brought = &self.brought;
        let mut workspace = vec![7; brought.workspace.len()];
        let mut call = |_| import(&brought.bytes, self.bits, &mut workspace);
        let measured = (self.measure)(&mut || (0..count).for_each(&mut call));
        assert!(workspace == brought.workspace, "the encoding is imported");
        measured
    }

    fn export(&self, count: usize, export: fn(&[u32], usize, &mut [u8])) -> usize {
        let brought = &self.brought;
        let mut bytes = vec![7; brought.bytes.len()];
        let mut call = |_| export(&brought.workspace, brought.length, &mut bytes);
        let measured = (self.measure)(&mut || (0..count).for_each(&mut call));
        assert!(bytes == brought.bytes, "the encoding is exported");
        measured
    }

    fn batch(&self) -> [usize; 4] {
        let [unit_imports, peer_imports, unit_exports, peer_exports] = self.counts;
        [
            self.import(unit_imports, unit_import),
            self.import(peer_imports, peer_import),
            self.export(unit_exports, unit_export),
            self.export(peer_exports, peer_export),
        ]
    }

    fn measured(&self) -> String {
        let batches = (0..self.batches).flat_map(|_| self.batch());
        let numbers: Vec<String> = batches.map(|number| number.to_string()).collect();
        numbers.join(" ")
    }
}

fn measured(input: Input) -> String {
    let mut pair = match input {
        Input::Pair(pair) => pair,
        Input::Line(line) => return format!("{} {}", line.length, line.read_line()),
        Input::Encoding(encoding) => return encoding.measured(),
    };
    let (show, load, write) = (pair.show(), pair.load(), pair.write());
    let (spent, press) = pair.press();
    format!("{spent} {press} {show} {load} {write}")
}

fn main() {
    let mut bytes = Vec::new();
    io::stdin().read_to_end(&mut bytes).expect("an input");
    let input = read(&bytes).expect("a pair of terms and a table, a line or an encoding");
    println!("{}", measured(input));
}
