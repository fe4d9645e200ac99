//! The measurements as Markdown.

use std::fs;
use std::path::Path;
use std::process::Command;

use crate::cases::C;
use crate::elf::{function_size, text_size};
use crate::encodings::{EncodingRow, CALLS, EXCHANGERS};
use crate::keys::{KeyRow, WAYS};
use crate::lines::{LineRow, LONGEST, READERS};
use crate::measure::{spent, Bench, Each, Row, COUNTED, NAMES};
use crate::numbers::{grouped, rounded};
use crate::probe::{Stack, TIMED_BITS};
use crate::times::Estimate;

/// Stands where nothing was measured.
const NONE: &str = "n/a";

pub struct Report {
    pub contracting: Vec<Row>,
    pub untouched: Vec<Row>,
    pub normal: Vec<Row>,
    pub lines: Vec<LineRow>,
    pub encodings: Vec<EncodingRow>,
    /// None where no times are taken.
    pub keys: Vec<KeyRow>,
    /// The plot's path, seen from the page.
    pub plot: String,
}

impl Report {
    /// What was measured with the programs.
    pub fn markdown(&self, bench: &Bench) -> String {
        let mut parts = vec![
            introduction(),
            self.instructions(),
            growth(&self.plot),
            self.reading(),
            self.exchanging(),
        ];
        let mut rows = self.groups().into_iter().flat_map(|(_, rows)| rows);
        if rows.any(|row| row.times.is_some()) {
            parts.extend([
                self.times(),
                self.times_of_encodings(),
                self.times_of_keys(),
            ]);
        }
        parts.extend([
            self.stack(),
            self.stack_of_lines(),
            self.stack_of_encodings(),
        ]);
        parts.push(code(bench));
        parts.join("\n")
    }

    /// The groups of rows, each with its title.
    fn groups(&self) -> [(&'static str, &[Row]); 3] {
        [
            ("Contractions", &self.contracting),
            ("Contractions in long terms", &self.untouched),
            ("Normal terms, no contraction", &self.normal),
        ]
    }

    fn instructions(&self) -> String {
        let mut text = "## Instructions\n\n\
             Of each contraction; of the whole press where there is none.\n"
            .to_string();
        for (title, rows) in self.groups() {
            text += &format!("\n### {title}\n\n");
            text += &table(&["pair", "line"], &NAMES, rows, |row| {
                let pair = vec![row.name.clone(), format!("`{}`", row.line)];
                let whole = |count: f64| grouped(count.round() as usize);
                (pair, row.instructions.map(whole).into())
            });
        }
        text
    }

    fn reading(&self) -> String {
        let mut text = format!(
            "## Reading a line\n\n\
             Instructions of `replay`, in C over the archive, and of `{peer}`, a reader in Rust by recursive \
             descent into a tree: those of a run that reads the line into a workspace of {c} words, less \
             those of a run that refuses it by its workspace. Zeros, for the arrays of `replay` and for the \
             rest of the workspace, are a part that does not grow with the line.\n\n",
            peer = READERS[1],
            c = grouped(C as usize),
        );
        let titles = [&["bytes", "words"][..], &READERS].concat();
        text += &table(&["line"], &titles, &self.lines, |row| {
            let mut cells = [row.bytes, row.words].map(grouped).to_vec();
            cells.extend(row.instructions.map(count));
            (vec![row.shape.to_string()], cells)
        });
        text
    }

    fn exchanging(&self) -> String {
        let mut text = format!(
            "## Importing and exporting\n\n\
             Instructions of the unit's calls alone, and of those of `{peer}` in Rust, which read and write one \
             bit after the other. Both are in one program, the unit's from its archive; \
             counted is by how much a run that makes the call twice exceeds one that makes it once. The \
             workspace has {c} words, and export is lent the bytes that the encoding fills; the second call \
             finds them as the first has left them. Setting zeros is in the counts, where each byte of a long \
             stretch counts as one instruction: for the arrays of the unit's calls, for the rest of the \
             workspace, and for the bytes before the bits are put.\n\n\
             Encodings with runs of n ones have n abstractions around variables of index n - 1 in a row, \
             those with runs of 1 to n ones variables of each of the n indices by turns. Abstractions alone \
             stand around index 0. S is `\\\\\\2 0 (1 0)`.\n\n",
            peer = EXCHANGERS[1],
            c = grouped(C as usize),
        );
        let titles = [&["bits", "bytes", "words"][..], &CALLS].concat();
        text += &table(&["encoding"], &titles, &self.encodings, |row| {
            let mut cells = [row.bits, row.bytes, row.words].map(grouped).to_vec();
            cells.extend(row.instructions.map(count));
            (vec![row.shape.to_string()], cells)
        });
        text
    }

    fn times(&self) -> String {
        let mut text = "## Times\n\n\
             The press is the run less a run that loads the same tables and refuses the press, the \
             programs by turns. Each is a median of nine, with its standard error, and each of these \
             the shortest of several runs.\n"
            .to_string();
        text += &format!("{NONE}: the press does not stand out.\n");
        for (title, rows) in self.groups() {
            let unit = match rows.iter().all(|row| spent(&row.line) > 0) {
                true => "contractions a second",
                false => "microseconds a press",
            };
            text += &format!("\n### {title}: {unit}\n\n");
            text += &table(&["pair"], &NAMES, rows, |row| {
                (vec![row.name.clone()], row_times(row).into())
            });
        }
        text
    }

    fn times_of_encodings(&self) -> String {
        let mut text = format!(
            "### Encodings: bits a second\n\n\
             Of the same calls in the same program. Timed is here a batch of calls, of some {bits} bits \
             together, the four calls by turns. Workspace and bytes are filled with 7s before each batch; \
             within it each call finds them as the one before has left them.\n\n",
            bits = grouped(TIMED_BITS),
        );
        let titles = [&["bits"][..], &CALLS].concat();
        text += &table(&["encoding"], &titles, &self.encodings, |row| {
            let times = row.times.unwrap_or_default();
            let rate = |time: Estimate| estimated(row.bits as f64 / time.value, time);
            let mut cells = vec![grouped(row.bits)];
            cells.extend(times.map(|time| time.map_or(NONE.to_string(), rate)));
            (vec![row.shape.to_string()], cells)
        });
        text
    }

    fn times_of_keys(&self) -> String {
        let mut text = "### Keys: pairs a second\n\n\
             Of `judge --key` on a file of small pairs, on all processors, beside a run of `verdict` for each \
             of the same pairs, one after the other. Timed is all of it: reading, starting programs, judging, \
             printing.\n\n"
            .to_string();
        text += &table(&["pairs"], &WAYS, &self.keys, |row| {
            let rate = |time: Estimate| estimated(row.pairs as f64 / time.value, time);
            let cells = row.times.map(|time| time.map_or(NONE.to_string(), rate));
            (vec![grouped(row.pairs)], cells.into())
        });
        text
    }

    fn stack(&self) -> String {
        let mut text = "## Machine stack\n\n\
             KiB. Of the unit's calls alone, by painting the stack below the call (loading and writing: of \
             the left side); and the smallest \
             limit, in steps of 4 KiB, under which each whole program prints its line, start and \
             loading included.\n\n"
            .to_string();
        let rows = self.groups().into_iter().flat_map(|(_, rows)| rows);
        let calls = ["a press", "showing", "loading", "writing"];
        let titles = [&calls[..], &NAMES].concat();
        text += &table(&["pair"], &titles, rows, |row| {
            let Stack {
                press,
                show,
                load,
                write,
            } = row.stack;
            let mut cells = [press, show, load, write].map(kib).to_vec();
            cells.extend(row.limit_kib.map(limit));
            (vec![row.name.clone()], cells)
        });
        text
    }

    fn stack_of_lines(&self) -> String {
        let mut text = format!("Of lines of {} bytes:\n\n", grouped(LONGEST));
        let titles = [&["reading"][..], &READERS].concat();
        let longest = self.lines.iter().filter(|row| row.bytes == LONGEST);
        text += &table(&["line"], &titles, longest, |row| {
            let mut cells = vec![kib(row.stack)];
            cells.extend(row.limit_kib.map(limit));
            (vec![row.shape.to_string()], cells)
        });
        text
    }

    fn stack_of_encodings(&self) -> String {
        let mut text =
            "Of the longest encoding of each shape; the programs import it and export it again:\n\n"
                .to_string();
        let titles = [&CALLS[..], &EXCHANGERS].concat();
        let longest = self.encodings.iter().filter(|row| row.is_longest);
        text += &table(&["encoding"], &titles, longest, |row| {
            let mut cells = row.stack.map(kib).to_vec();
            cells.extend(row.limit_kib.map(limit));
            (vec![row.shape.to_string()], cells)
        });
        text
    }
}

fn introduction() -> String {
    format!(
        "# Benchmarks\n\n\
         - Machine: {machine}.\n\
         - Rattle kit: `{kit}`.\n\
         - `verdict` is the unit's program. Its peers, in Rust by {compiler} at opt-level 3, read and \
         print the same. `flat` keeps flat words, as the unit does, compares and searches both from \
         the first word in every round and contracts through a scratch. `graph` keeps trees of \
         shared nodes that know their size, their free indices and whether they are normal, as one \
         would who need not keep flat words; it makes them while it loads.\n\
         - All ran on the same inputs, with C {c}, and printed the line shown.\n\
         - Instructions of the press alone: those of a run less those of a run that loads the same \
         tables and refuses the press, counted by `valgrind --tool=callgrind` over at most {counted} \
         contractions. They are the same in every run.\n",
        counted = grouped(COUNTED as usize),
        c = grouped(C as usize),
        machine = machine(),
        kit = version("rt", "version"),
        compiler = version("rustc", "--version"),
    )
}

fn number(number: Option<usize>) -> String {
    number.map_or(NONE.to_string(), grouped)
}

/// A number of instructions.
fn count(count: u64) -> String {
    grouped(count as usize)
}

/// Bytes in KiB.
fn kib(bytes: usize) -> String {
    format!("{:.1}", bytes as f64 / 1024.0)
}

/// A stack limit in KiB.
fn limit(kib: Option<u32>) -> String {
    kib.map_or(NONE.to_string(), |kib| kib.to_string())
}

/// Contractions a second, or microseconds where there is no contraction.
fn row_times(row: &Row) -> Each<String> {
    let spent = f64::from(spent(&row.line));
    let text = |press: Option<Estimate>| {
        let Some(press) = press else {
            return NONE.to_string();
        };
        let value = match spent > 0.0 {
            true => spent / press.value,
            false => press.value * 1e6,
        };
        estimated(value, press)
    };
    row.times.unwrap_or_default().map(text)
}

/// A value that follows from a time, with the time's error.
fn estimated(value: f64, time: Estimate) -> String {
    let percent = 100.0 * time.error / time.value;
    format!("{} ±{percent:.0}%", rounded(value))
}

/// A table of rows: cells to the left, then cells to the right.
fn table<'a, R: 'a>(
    left: &[&str],
    right: &[&str],
    rows: impl IntoIterator<Item = &'a R>,
    cells: impl Fn(&R) -> (Vec<String>, Vec<String>),
) -> String {
    let mut text = format!(
        "| {} |\n|{}{}\n",
        [left, right].concat().join(" | "),
        "---|".repeat(left.len()),
        "---:|".repeat(right.len())
    );
    for row in rows {
        let (left, right) = cells(row);
        text += &format!("| {} |\n", [left, right].concat().join(" | "));
    }
    text
}

fn growth(plot: &str) -> String {
    format!(
        "## Growth\n\n\
         Instructions of a contraction, those of a press less those of a press with budget 0. Left: loops that touch more and more words, those of the redex \
         and of what replaces it. Right: Loop, which touches 18 words, under more and more \
         abstractions.\n\n\
         ![Instructions of a contraction by the words touched and by the words not touched]({plot})\n"
    )
}

/// Calls in the code of `replay`, and what they call.
const CALLED: [&str; 4] = [
    "fetsguin_read_line",
    "fetsguin_import",
    "fetsguin_export",
    "terms::is_term",
];

fn code(bench: &Bench) -> String {
    let mut text = "## Code\n\n\
         Those of the peers have the standard library's parts in them.\n\n"
        .to_string();
    let size = |file: &Option<Vec<u8>>, size: &dyn Fn(&[u8]) -> Option<usize>| {
        number(file.as_deref().and_then(size))
    };
    let programs = NAMES.iter().zip(&bench.programs);
    let programs = programs.chain(READERS.iter().zip(&bench.readers));
    // Without `replay`, which is a reader.
    let peers = EXCHANGERS.iter().zip(&bench.exchangers).skip(1);
    let programs: Vec<_> = programs.chain(peers).collect();
    text += &table(
        &["program"],
        &["bytes of `.text`"],
        &programs,
        |(name, path)| {
            let size = size(&fs::read(path).ok(), &text_size);
            (vec![format!("`{name}`")], vec![size])
        },
    );
    let replay = fs::read(&bench.readers[0]).ok();
    let [read, import, export, check] =
        CALLED.map(|name| size(&replay, &|file| function_size(file, name)));
    text += &format!(
        "\nIn `{}`, the call that reads a line has {read} bytes, importing {import} and exporting {export}; \
         `{}`, which the first and the last call, has {check}.\n",
        READERS[0], CALLED[3]
    );
    text
}

/// The processors and the kernel, as the kernel names them.
fn machine() -> String {
    let read = |path| fs::read_to_string(Path::new(path)).unwrap_or_default();
    let processors = read("/proc/cpuinfo");
    let fields = processors.lines().filter_map(|line| line.split_once(": "));
    let models = fields.filter(|(field, _)| field.trim_end() == "model name");
    let models: Vec<&str> = models.map(|(_, model)| model).collect();
    format!(
        "{} × {}, Linux {}",
        models.len(),
        models.first().unwrap_or(&"an unnamed processor"),
        read("/proc/sys/kernel/osrelease").trim()
    )
}

/// What a command says it is, or its name where it cannot be asked.
fn version(command: &str, asked: &str) -> String {
    let output = Command::new(command).arg(asked).output();
    let version = output.map(|output| String::from_utf8_lossy(&output.stdout).trim().to_string());
    version.unwrap_or(command.to_string())
}

#[cfg(test)]
mod tests {
    use super::*;
    use crate::probe::Probe;
    use std::path::PathBuf;

    fn row(name: &str, line: &str, press: Option<Estimate>) -> Row {
        Row {
            name: name.to_string(),
            line: line.to_string(),
            times: Some([press; NAMES.len()]),
            instructions: [1234.5, 7.4, 8.0],
            stack: Stack {
                press: 10_240,
                show: 1_100,
                load: 20_480,
                write: 512,
            },
            limit_kib: [Some(136), Some(56), None],
        }
    }

    fn report(rows: [Row; 3]) -> String {
        let [contracting, untouched, normal] = rows.map(|row| vec![row]);
        let report = Report {
            contracting,
            untouched,
            normal,
            lines: vec![line("short", 256), line("long", LONGEST)],
            encodings: vec![encoding("few", false), encoding("many", true)],
            keys: vec![KeyRow {
                pairs: 1_000,
                times: [press(0.5), None],
            }],
            plot: "growth.svg".to_string(),
        };
        let path = |name| PathBuf::from(format!("/no/{name}"));
        report.markdown(&Bench {
            programs: NAMES.map(path),
            readers: READERS.map(path),
            exchangers: EXCHANGERS.map(path),
            probe: Probe {
                program: path("probe"),
            },
            is_timed: true,
        })
    }

    fn encoding(shape: &'static str, is_longest: bool) -> EncodingRow {
        EncodingRow {
            shape,
            is_longest,
            bits: 4_096,
            bytes: 512,
            words: 2_048,
            instructions: [12_345, 67_890, 5, 7],
            times: Some([press(4.096e-6), None, press(4.096e-5), press(1.0)]),
            stack: [12_288, 1_024, 512, 100],
            limit_kib: [Some(124), None],
        }
    }

    fn line(shape: &'static str, bytes: usize) -> LineRow {
        LineRow {
            shape,
            bytes,
            words: 1,
            instructions: [12_345, 6],
            stack: 2_048,
            limit_kib: [Some(148), None],
        }
    }

    fn press(value: f64) -> Option<Estimate> {
        Some(Estimate {
            value,
            error: value / 50.0,
        })
    }

    #[test]
    fn every_measurement_has_its_cell() {
        let page = report([
            row("Loop", "Budget 100 9 1", press(1e-4)),
            row("Long", "Same 2 1 1", None),
            row("Normal", "Different 0 1 1 0", press(2e-6)),
        ]);
        for line in [
            "| Loop | `Budget 100 9 1` | 1,235 | 7 | 8 |",
            "| Loop | 1,000,000 ±2% | 1,000,000 ±2% | 1,000,000 ±2% |",
            "| Loop | 10.0 | 1.1 | 20.0 | 0.5 | 136 | 56 | n/a |",
            "| Long | n/a | n/a | n/a |",
            "| Normal | `Different 0 1 1 0` | 1,235 | 7 | 8 |",
            "| Normal | 2.00 ±2% | 2.00 ±2% | 2.00 ±2% |",
            "### Contractions: contractions a second",
            "### Normal terms, no contraction: microseconds a press",
            "| `flat` | n/a |",
            "| `replay` | n/a |",
            "| `bitwise` | n/a |",
            "In `replay`, the call that reads a line has n/a bytes, importing n/a and exporting n/a; \
             `terms::is_term`, which the first and the last call, has n/a.",
            "| line | bytes | words | replay | descent |",
            "|---|---:|---:|---:|---:|",
            "| short | 256 | 1 | 12,345 | 6 |",
            "| long | 1,024 | 1 | 12,345 | 6 |",
            "| line | reading | replay | descent |",
            "| long | 2.0 | 148 | n/a |",
            "| encoding | bits | bytes | words | import | import by bitwise | export | export by bitwise |",
            "| few | 4,096 | 512 | 2,048 | 12,345 | 67,890 | 5 | 7 |",
            "| many | 4,096 | 512 | 2,048 | 12,345 | 67,890 | 5 | 7 |",
            "### Encodings: bits a second",
            "### Keys: pairs a second",
            "| pairs | judge --key | a run of verdict for each |",
            "| 1,000 | 2,000 ±2% | n/a |",
            "| encoding | bits | import | import by bitwise | export | export by bitwise |",
            "| few | 4,096 | 1,000,000,000 ±2% | n/a | 100,000,000 ±2% | 4,100 ±2% |",
            "| encoding | import | import by bitwise | export | export by bitwise | replay | bitwise |",
            "| many | 12.0 | 1.0 | 0.5 | 0.1 | 124 | n/a |",
            "| pair | line | verdict | flat | graph |",
            "|---|---|---:|---:|---:|",
            "| pair | verdict | flat | graph |",
            "|---|---:|---:|---:|",
            "|---|---:|---:|---:|---:|---:|---:|---:|",
        ] {
            assert!(
                page.lines().any(|printed| printed == line),
                "{line}\n{page}"
            );
        }
        assert!(!page.contains("| short | 2.0"), "{page}");
        assert!(!page.contains("| few | 12.0"), "{page}");
        assert_eq!(page.matches("| `replay` |").count(), 1);
        assert!(page.contains("](growth.svg)"));
        assert!(page.contains("counted by `valgrind --tool=callgrind` over at most 10,000 "));
    }

    #[test]
    fn no_times_are_printed_where_none_were_taken() {
        let untimed = |name| Row {
            times: None,
            ..row(name, "Same 2 1 1", None)
        };
        let page = report(["One", "Two", "Three"].map(untimed));
        assert!(!page.contains("## Times"));
        assert!(page.contains("## Machine stack"));
        let timed = row("One", "Same 2 1 1", press(1e-6));
        let page = report([timed, untimed("Two"), untimed("Three")]);
        let times = |name, cell| format!("| {name} | {cell} | {cell} | {cell} |\n");
        assert!(page.contains(&times("One", "2,000,000 ±2%")), "{page}");
        assert!(page.contains(&times("Two", "n/a")), "{page}");
    }
}
