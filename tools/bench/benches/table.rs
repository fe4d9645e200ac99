//! Prints the benchmark as Markdown and writes its plot.

use std::env;
use std::fs;
use std::path::{Path, PathBuf};
use std::process::{Command, ExitCode};

use bench::cases::{contracting, growing_touched, growing_untouched, normal, untouched};
use bench::cases::{Case, Point};
use bench::encodings::growing_encodings;
use bench::keys::{self, Judges, KeyRow};
use bench::lines::growing_lines;
use bench::measure::{Bench, Each};
use bench::plot::{svg, Panel};
use bench::probe::Probe;
use bench::report::Report;
use unit::repository;

const USAGE: &str = "\
usage: cargo bench --manifest-path tools/Cargo.toml --package bench [-- --untimed]
  --untimed  takes no times, which need an idle machine; all else is the same in every run
Builds the unit's programs, prints docs/BENCHMARKS.md and writes docs/growth.svg.";

/// The plot, seen from the repository and from the page.
const PLOT: &str = "docs/growth.svg";
const PLOT_FROM_PAGE: &str = "growth.svg";

fn main() -> ExitCode {
    if env::args_os().any(|argument| argument == "--help") {
        println!("{USAGE}");
        return ExitCode::SUCCESS;
    }
    match run() {
        Ok(markdown) => {
            print!("{markdown}");
            ExitCode::SUCCESS
        }
        Err(reason) => {
            eprintln!("bench: {reason}");
            ExitCode::FAILURE
        }
    }
}

fn run() -> Result<String, String> {
    let mut is_timed = true;
    // Cargo adds `--bench`.
    for option in env::args_os().skip(1).filter(|text| text != "--bench") {
        match option.to_str() {
            Some("--untimed") => is_timed = false,
            _ => return Err(format!("cannot use {option:?}\n{USAGE}")),
        }
    }
    let here = env::current_dir().map_err(|error| error.to_string())?;
    let root = repository::find(&here).ok_or("no repository is here or above")?;
    let built = |name| repository::program(&root, name, &mut |line| eprintln!("bench: {line}"));
    let (verdict, replay) = (built("verdict")?, built("replay")?);
    let judges = Judges {
        judge: judge()?,
        replay: replay.clone(),
        verdict: verdict.clone(),
    };
    let [flat, graph, descent, bitwise] = [
        env!("CARGO_BIN_EXE_flat"),
        env!("CARGO_BIN_EXE_graph"),
        env!("CARGO_BIN_EXE_descent"),
        env!("CARGO_BIN_EXE_bitwise"),
    ]
    .map(PathBuf::from);
    let bench = Bench {
        programs: [verdict, flat, graph],
        readers: [replay.clone(), descent],
        exchangers: [replay, bitwise],
        probe: Probe::build(&root)?,
        is_timed,
    };
    report(&bench, &judges, &root)
}

/// The text command, built from its sources.
fn judge() -> Result<PathBuf, String> {
    let tools = Path::new(env!("CARGO_MANIFEST_DIR")).join("..");
    let built = Command::new(env!("CARGO"))
        .args(["build", "--quiet", "--release", "--package", "judge"])
        .current_dir(&tools)
        .status();
    match built {
        Ok(status) if status.success() => {
            let target = env::var_os("CARGO_TARGET_DIR").map(PathBuf::from);
            let target = target.unwrap_or_else(|| tools.join("target"));
            Ok(target.join("release/judge"))
        }
        _ => Err("the text command cannot be built".to_string()),
    }
}

fn report(bench: &Bench, judges: &Judges, root: &Path) -> Result<String, String> {
    let pairs = |cases| {
        rows(
            cases,
            |case: &Case| case.name.clone(),
            |case| bench.row(case),
        )
    };
    let report = Report {
        contracting: pairs(contracting())?,
        untouched: pairs(untouched())?,
        normal: pairs(normal())?,
        lines: rows(
            growing_lines(),
            |line| format!("{}, {} bytes", line.shape, line.text.len()),
            |line| bench.line(line),
        )?,
        encodings: rows(
            growing_encodings(),
            |encoding| format!("{}, {} bits", encoding.shape, encoding.bits),
            |encoding| bench.encoding(encoding),
        )?,
        keys: key_rows(bench, judges)?,
        plot: plot(bench, root)?,
    };
    Ok(report.markdown(bench))
}

/// The rows of what is measured, each named while it is.
fn rows<T, R>(
    measured: Vec<T>,
    name: impl Fn(&T) -> String,
    row: impl Fn(&T) -> Result<R, String>,
) -> Result<Vec<R>, String> {
    let row = |one: &T| {
        eprintln!("{}", name(one));
        row(one).map_err(|reason| format!("{}: {reason}", name(one)))
    };
    measured.iter().map(row).collect()
}

fn key_rows(bench: &Bench, judges: &Judges) -> Result<Vec<KeyRow>, String> {
    let measured = |pairs: usize| {
        eprintln!("a key of {pairs} pairs");
        keys::row(pairs, judges)
    };
    match bench.is_timed {
        true => [10, 100, 1_000].into_iter().map(measured).collect(),
        false => Ok(Vec::new()),
    }
}

/// Writes the plot; its path seen from the page.
fn plot(bench: &Bench, root: &Path) -> Result<String, String> {
    let panels = [
        Panel {
            title: "Instructions of a contraction",
            x_axis: "words touched in each contraction",
            lines: lines(bench, growing_touched())?,
        },
        Panel {
            title: "18 words touched",
            x_axis: "words before them",
            lines: lines(bench, growing_untouched())?,
        },
    ];
    let path = root.join(PLOT);
    fs::write(&path, svg(&panels)).map_err(|error| format!("{}: {error}", path.display()))?;
    Ok(PLOT_FROM_PAGE.to_string())
}

fn lines(bench: &Bench, points: Vec<Point>) -> Result<Each<Vec<(f64, f64)>>, String> {
    let mut lines: Each<Vec<(f64, f64)>> = Default::default();
    for point in points {
        eprintln!("{}", point.case.name);
        let counts = bench.marginal(&point.case)?;
        for (line, count) in lines.iter_mut().zip(counts) {
            line.push((point.x as f64, count));
        }
    }
    Ok(lines)
}
