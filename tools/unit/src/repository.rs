//! The repository that holds the unit, and its programs built from the sources as they are, by its
//! scripts: with rt, and with the C compiler over the archive that rt makes.

use std::collections::HashMap;
use std::fs::{self, File, TryLockError};
use std::io::{self, BufRead, BufReader, ErrorKind, Write};
use std::path::{Path, PathBuf};
use std::process::{Child, Command, ExitStatus, Stdio};
use std::sync::mpsc::{self, Receiver, RecvTimeoutError};
use std::thread;
use std::time::{Duration, Instant};

/// The list of crates, which stands at the root.
const CRATES: &str = "crates.txt";
/// Where the programs are.
const PROGRAMS: &str = "target/bin";
/// What builds a program that is a crate.
const BUILD: &str = "tools/program";
/// The program that is in C, what builds it, and the crate of the archive that it is linked to.
const IN_C: &str = "replay";
const C_BUILD: &str = "firmware/build";
const ARCHIVE: &str = "firmware";
/// All that was printed when a program was last built.
const LOG: &str = "target/log/judge.out";

/// Locked while one is built: two builds in one repository would take each other's results for their own.
const LOCK: &str = "target/judge.lock";

/// With nothing to prove, a build ends or says its first word sooner than this.
const SOON: Duration = Duration::from_secs(2);
/// Between two looks at a lock that another process has.
const PAUSE: Duration = Duration::from_millis(20);

/// So many crates are proved from one line of progress to the next.
const CRATES_A_LINE: usize = 5;

/// The root of the repository that the folder lies in.
pub fn find(folder: &Path) -> Option<PathBuf> {
    let mut roots = folder.ancestors();
    let root = roots.find(|root| root.join(CRATES).is_file());
    root.map(Path::to_path_buf)
}

/// A program of the repository, proved and built unless it is there already and nothing it depends on
/// has changed. Lines for the user go to `tell`.
pub fn program(root: &Path, name: &str, tell: &mut dyn FnMut(&str)) -> Result<PathBuf, String> {
    if !root.join(CRATES).is_file() {
        return Err(format!(
            "{} is no repository: it has no {CRATES}",
            root.display()
        ));
    }
    let path = Path::new(PROGRAMS).join(name);
    let program = root.join(&path);
    // Where it cannot be locked, nothing can be built, and that is found below.
    let _held = hold(&root.join(LOCK), tell);
    let recipe = Recipe::of(name);
    let built = match recipe.start(root) {
        Ok(child) => watch(child, root, recipe.proved(), tell),
        Err(error) if error.kind() == ErrorKind::NotFound => {
            return unchecked(root, &path, tell);
        }
        Err(error) => Err(error),
    };
    match built {
        Ok(status) if status.success() && program.is_file() => Ok(program),
        Ok(status) => Err(format!(
            "`{}` did not build {} from these sources: {status}\nIts log is {}",
            recipe.text(),
            path.display(),
            root.join(LOG).display()
        )),
        Err(error) => Err(format!("`{}` cannot be followed: {error}", recipe.text())),
    }
}

/// How a program is built: as a crate, or over the archive.
#[derive(Clone, Copy)]
enum Recipe<'a> {
    Crate(&'a str),
    C,
}

impl<'a> Recipe<'a> {
    fn of(name: &'a str) -> Self {
        match name {
            IN_C => Recipe::C,
            name => Recipe::Crate(name),
        }
    }

    /// The crate that is proved for it.
    fn proved(self) -> &'a str {
        match self {
            Recipe::Crate(name) => name,
            Recipe::C => ARCHIVE,
        }
    }

    fn text(self) -> String {
        match self {
            Recipe::Crate(name) => format!("{BUILD} {name}"),
            Recipe::C => C_BUILD.to_string(),
        }
    }

    /// Where rt is not installed, the error says that it is not found.
    fn start(self, root: &Path) -> io::Result<Child> {
        can_start_rt()?;
        let mut build = match self {
            Recipe::Crate(name) => {
                let mut build = Command::new(root.join(BUILD));
                build.arg(name);
                build
            }
            Recipe::C => Command::new(root.join(C_BUILD)),
        };
        build.current_dir(root).stdin(Stdio::null());
        build.stdout(Stdio::piped()).stderr(Stdio::piped()).spawn()
    }
}

/// Starts rt, and waits for no word of it.
fn can_start_rt() -> io::Result<()> {
    let mut rt = Command::new("rt");
    rt.arg("version").stdin(Stdio::null());
    let mut rt = rt.stdout(Stdio::null()).stderr(Stdio::null()).spawn()?;
    rt.kill()?;
    rt.wait().map(|_| ())
}

/// Waits until no other process has the lock. It is free again when the file is dropped.
fn hold(lock: &Path, tell: &mut dyn FnMut(&str)) -> io::Result<File> {
    fs::create_dir_all(lock.parent().unwrap_or(lock))?;
    let file = File::create(lock)?;
    let start = Instant::now();
    let mut is_told = false;
    loop {
        match file.try_lock() {
            Ok(()) => return Ok(file),
            Err(TryLockError::WouldBlock) => thread::sleep(PAUSE),
            Err(TryLockError::Error(error)) => return Err(error),
        }
        if !is_told && start.elapsed() > SOON {
            is_told = true;
            tell("waiting for another judge in this repository; with --program none waits");
        }
    }
}

/// The program as it is, where rt is not installed.
fn unchecked(root: &Path, path: &Path, tell: &mut dyn FnMut(&str)) -> Result<PathBuf, String> {
    let program = root.join(path);
    if program.is_file() {
        tell("rt is not installed: nothing shows that the program is that of these sources");
        return Ok(program);
    }
    Err(format!(
        "there is no {}, and rt, which builds it, is not installed",
        path.display()
    ))
}

/// Waits for a build: all that it prints goes to the log, its progress to `tell`.
fn watch(
    mut build: Child,
    root: &Path,
    proved: &str,
    tell: &mut dyn FnMut(&str),
) -> io::Result<ExitStatus> {
    let lines = lines(&mut build);
    let log = root.join(LOG);
    let mut progress = Progress {
        log: log.clone(),
        needed: needed(&fs::read_to_string(root.join(CRATES))?, proved),
        at: 0,
        told: None,
    };
    fs::create_dir_all(log.parent().unwrap_or(&log))?;
    let mut log = File::create(log)?;
    loop {
        match lines.recv_timeout(SOON) {
            Ok(line) => {
                writeln!(log, "{line}")?;
                progress.line(&line, tell);
            }
            Err(RecvTimeoutError::Timeout) => progress.start(tell),
            Err(RecvTimeoutError::Disconnected) => return build.wait(),
        }
    }
}

/// The lines that a process prints, on either stream.
fn lines(child: &mut Child) -> Receiver<String> {
    let (sender, receiver) = mpsc::channel();
    let streams: [Option<Box<dyn io::Read + Send>>; 2] = [
        child.stdout.take().map(|stream| Box::new(stream) as _),
        child.stderr.take().map(|stream| Box::new(stream) as _),
    ];
    for stream in streams.into_iter().flatten() {
        let sender = sender.clone();
        thread::spawn(move || {
            for line in BufReader::new(stream).split(b'\n').map_while(Result::ok) {
                // The receiver is gone only where the log could not be written.
                let _ = sender.send(String::from_utf8_lossy(&line).into_owned());
            }
        });
    }
    receiver
}

/// The crates of a list that a crate needs, each after those that it needs itself, so in the order in
/// which rt proves them: the crate itself is the last.
fn needed(list: &str, name: &str) -> Vec<String> {
    let lines = list.lines().filter_map(|line| line.split('#').next());
    let lines = lines.filter_map(|line| line.split_once(':'));
    let list = lines.filter_map(|(head, needs)| Some((head.split_whitespace().next()?, needs)));
    let mut found = Vec::new();
    find_needed(&list.collect(), name, &mut found);
    found
}

fn find_needed(list: &HashMap<&str, &str>, name: &str, found: &mut Vec<String>) {
    if found.iter().any(|one| one == name) {
        return;
    }
    // What is not in the list is the kit's.
    let Some(needs) = list.get(name) else { return };
    for need in needs.split_whitespace() {
        find_needed(list, need, found);
    }
    found.push(name.to_string());
}

/// What of rt's log the user is told.
struct Progress {
    log: PathBuf,
    /// Crates that the program needs.
    needed: Vec<String>,
    /// Those before this one are proved, now or before: of a crate that has not changed rt says nothing.
    at: usize,
    /// So many of them when the user was last told; none before anything was told.
    told: Option<usize>,
}

impl Progress {
    fn start(&mut self, tell: &mut dyn FnMut(&str)) {
        if self.told.is_none() {
            self.told = Some(self.at);
            let log = self.log.display();
            tell(&format!(
                "proving and building the program first, which can take minutes (log: {log})"
            ));
        }
    }

    fn line(&mut self, line: &str, tell: &mut dyn FnMut(&str)) {
        if let Some(name) = begun(line) {
            if let Some(at) = self.needed.iter().position(|one| one == name) {
                self.at = at;
                self.start(tell);
                self.tell_proved(tell);
            }
        } else if line.starts_with("logic=proved ") {
            self.at += 1;
            self.tell_proved(tell);
        } else if line.starts_with("logic=not-proved") {
            self.start(tell);
            if let Some(name) = self.needed.get(self.at) {
                tell(&format!("{name} NOT PROVED"));
            }
        }
    }

    fn tell_proved(&mut self, tell: &mut dyn FnMut(&str)) {
        let told = self.told.unwrap_or(self.at);
        if self.at / CRATES_A_LINE > told / CRATES_A_LINE {
            self.told = Some(self.at);
            tell(&format!(
                "{} of {} crates proved",
                self.at,
                self.needed.len()
            ));
        }
    }
}

/// The crate whose check begins, as rt says it: `rt: chose --jobs 2 for words`.
fn begun(line: &str) -> Option<&str> {
    let (jobs, name) = line
        .strip_prefix("rt: chose --jobs ")?
        .split_once(" for ")?;
    jobs.parse::<u32>().ok().map(|_| name)
}

#[cfg(test)]
mod tests {
    use super::*;

    const LIST: &str = "\
# A line for each crate, lowest first.
low:
side: low
middle: low io

high: middle
";

    #[test]
    fn the_crates_below_a_crate_come_first_and_once() {
        assert_eq!(needed(LIST, "low"), ["low"]);
        assert_eq!(needed(LIST, "middle"), ["low", "middle"]);
        assert_eq!(needed(LIST, "high"), ["low", "middle", "high"]);
        assert_eq!(needed(LIST, "io"), [""; 0]);
        let diamond = "a:\nb: a\nc: a\nd: c b\n";
        assert_eq!(needed(diamond, "d"), ["a", "c", "b", "d"]);
        assert_eq!(needed(" a:\n\tb :  a\n", "b"), ["a", "b"]);
        assert_eq!(needed("a:\nb staticlib: a\n", "b"), ["a", "b"]);
        assert_eq!(needed("a:\nb:\nc: a # b\n# c: a\n", "c"), ["a", "c"]);
    }

    const CRATES: [&str; 6] = ["calculus", "words", "terms", "rounds", "press", "verdict"];

    /// What is told of these lines, with six crates needed.
    fn told(lines: &[&str]) -> Vec<String> {
        let mut progress = Progress {
            log: PathBuf::from("log"),
            needed: CRATES.map(str::to_string).to_vec(),
            at: 0,
            told: None,
        };
        let mut told = Vec::new();
        for line in lines {
            progress.line(line, &mut |text| told.push(text.to_string()));
        }
        told
    }

    /// What is told where rt proves these crates; it says nothing of those that it proved before.
    fn told_of(crates: &[&str]) -> Vec<String> {
        let begun = |name: &&str| format!("rt: chose --jobs 4 for {name}");
        let lines = crates
            .iter()
            .flat_map(|name| [begun(name), PROVED.to_string()]);
        let lines: Vec<String> = lines.collect();
        told(&lines.iter().map(String::as_str).collect::<Vec<_>>())
    }

    const STARTED: &str =
        "proving and building the program first, which can take minutes (log: log)";
    const PROVED: &str = "logic=proved functions=23 sum=dac8208d650f15bf";

    #[test]
    fn every_fifth_crate_is_told() {
        assert_eq!(told_of(&CRATES[..4]), [STARTED]);
        assert_eq!(told_of(&CRATES[..5]), [STARTED, "5 of 6 crates proved"]);
        assert_eq!(told_of(&CRATES), [STARTED, "5 of 6 crates proved"]);
    }

    #[test]
    fn crates_that_were_proved_before_count_but_are_not_told_alone() {
        assert_eq!(told(&["rt: running out/verdict"]), [""; 0]);
        assert_eq!(told_of(&CRATES[4..]), [STARTED, "5 of 6 crates proved"]);
        assert_eq!(told_of(&CRATES[5..]), [STARTED]);
        let first_and_last = [CRATES[0], CRATES[5]];
        assert_eq!(told_of(&first_and_last), [STARTED, "5 of 6 crates proved"]);
    }

    #[test]
    fn other_lines_and_other_crates_count_nothing() {
        for other in [
            "fn words::skip: proved",
            "only=0 proved=0",
            "crate words: modules loaded=24 checked=0",
            "rt: the check was killed, most likely for memory: once more with --jobs 1",
            "rt: chose --jobs 2 for vectors",
        ] {
            let lines = ["rt: chose --jobs 2 for press", other, other];
            assert_eq!(told(&lines), [STARTED], "{other}");
        }
    }

    #[test]
    fn a_crate_that_is_not_proved_is_told_at_once() {
        let lines = ["rt: chose --jobs 4 for words", "logic=not-proved"];
        assert_eq!(told(&lines), [STARTED, "words NOT PROVED"]);
        assert_eq!(told(&["words proved (2 s)", "note"]), [""; 0]);
    }
}
