//! The command, run on programs that stand in for `verdict`.

use std::env;
use std::ffi::{OsStr, OsString};
use std::fs;
use std::hash::{DefaultHasher, Hash, Hasher};
use std::io::Write;
use std::os::unix::ffi::OsStrExt;
use std::os::unix::fs::{symlink, PermissionsExt};
use std::path::{Path, PathBuf};
use std::process::{Command, Output, Stdio};
use std::sync::OnceLock;
use std::thread;

use unit::limits::{MAX_ARGUMENTS, MAX_BRANCHES};

/// Prints the words of its input on one line.
const ECHO: &str = "#!/bin/sh\necho $(od -An -v -tu4)\n";
/// Prints a line without reading its input.
const DEAF: &str = "#!/bin/sh\nexec <&-\necho Input\n";
const SILENT: &str = "#!/bin/sh\ncat >/dev/null\n";
const BLANK: &str = "#!/bin/sh\ncat >/dev/null\necho\n";
const NO_LINE_END: &str = "#!/bin/sh\ncat >/dev/null\nprintf 'Same 0 1 1'\n";
const TWO_LINES: &str = "#!/bin/sh\ncat >/dev/null\necho Same\necho Same\n";
/// Takes a script for `replay`, and answers two loads with something else.
const ODD: &str = "#!/bin/sh\ncat >/dev/null\necho load 1\necho stored 1\n";
const FAILING: &str = "#!/bin/sh\ncat >/dev/null\necho Same 0 1 1\nexit 3\n";
/// Prints its budget as a line's number: `Refused 6`, or a verdict.
const LINES: &str = "#!/bin/sh\nset -- $(od -An -v -tu4)\ncase $1 in\n\
    11) echo Same 1 2 3 ;; 12) echo Different 1 2 3 1 ;; 13) echo Budget 1 2 3 ;;\n\
    14) echo Full 1 2 3 ;; 15) echo Input ;; *) echo Refused $1 ;;\nesac\n";
/// Refuses a table of 16 words on the left, then on the right, by its budget as a number.
const SIDES: &str = "#!/bin/sh\nset -- $(od -An -v -tu4)\nnumber=$1\n\
    [ $3 = 16 ] && echo Refused $number && exit\nshift $((3 + $3))\n\
    [ $1 = 16 ] && echo Refused $number && exit\necho Same 0 1 1\n";

/// Stands in for cargo: prints its arguments, a line each.
const CARGO: &str = "#!/bin/sh\nprintf '%s\\n' \"$@\"\n";

/// A folder for the tests of this checkout. It is outside, since the gate takes no second list of crates
/// inside.
fn outside(name: &str) -> PathBuf {
    let mut checkout = DefaultHasher::new();
    env!("CARGO_MANIFEST_DIR").hash(&mut checkout);
    let tests = format!("judge-tests-{:016x}", checkout.finish());
    env::temp_dir().join(tests).join(name)
}

/// A folder laid out like the repository, with ECHO for the built program and the others beside it.
/// All are written before the first is run: a file open for writing cannot be executed.
fn repository() -> &'static Path {
    static ROOT: OnceLock<PathBuf> = OnceLock::new();
    ROOT.get_or_init(|| {
        let root = outside("repository");
        let bin = root.join("target/bin");
        fs::create_dir_all(&bin).expect("a folder for the programs");
        fs::create_dir_all(root.join("docs/deeper")).expect("a folder below the root");
        fs::create_dir_all(root.join("commands")).expect("a folder for rt and cargo");
        for (name, script) in [
            ("../../commands/rt", RT),
            ("../../commands/cargo", CARGO),
            ("verdict", ECHO),
            ("deaf", DEAF),
            ("silent", SILENT),
            ("blank", BLANK),
            ("no-line-end", NO_LINE_END),
            ("two-lines", TWO_LINES),
            ("odd", ODD),
            ("failing", FAILING),
            ("lines", LINES),
            ("sides", SIDES),
        ] {
            let path = bin.join(name);
            fs::write(&path, script).expect("a program");
            fs::set_permissions(&path, fs::Permissions::from_mode(0o755)).expect("executable");
        }
        fs::write(bin.join("not-executable"), "").expect("a file");
        fs::write(root.join("crates.txt"), "").expect("a list of crates");
        root
    })
}

/// Exit status, standard output and standard error of the command, run in a folder on an input.
fn judge_on(folder: &Path, input: &str, arguments: &[&str]) -> (i32, String, String) {
    let mut child = Command::new(env!("CARGO_BIN_EXE_judge"))
        .args(arguments)
        .current_dir(folder)
        .env("PATH", path_without_rt())
        .stdin(Stdio::piped())
        .stdout(Stdio::piped())
        .stderr(Stdio::piped())
        .spawn()
        .expect("judge runs");
    let mut stdin = child.stdin.take().expect("standard input is piped");
    // A command that does not read its input may end first.
    let _ = stdin.write_all(input.as_bytes());
    drop(stdin);
    answer(child.wait_with_output().expect("judge ends"))
}

fn answer(output: Output) -> (i32, String, String) {
    let text = |bytes| String::from_utf8(bytes).expect("text");
    let status = output.status.code().expect("an exit status");
    (status, text(output.stdout), text(output.stderr))
}

/// The path of commands, less the folders in which an rt is installed.
fn path_without_rt() -> OsString {
    let path = env::var_os("PATH").unwrap_or_default();
    let folders = env::split_paths(&path).filter(|folder| !folder.join("rt").exists());
    env::join_paths(folders).expect("folders of the path")
}

/// What the command says where it runs the repository's program as it is.
const UNCHECKED: &str =
    "judge: rt is not installed: nothing shows that the program is that of these sources\n";

/// As `judge_on`, without an input and in a repository without rt, which is said and left out here.
fn judge_in(folder: &Path, arguments: &[&str]) -> (i32, String, String) {
    let (status, output, message) = judge_on(folder, "", arguments);
    (status, output, message.replace(UNCHECKED, ""))
}

fn judge(arguments: &[&str]) -> (i32, String, String) {
    judge_in(repository(), arguments)
}

fn printed(line: &str) -> (i32, String, String) {
    (0, format!("{line}\n"), String::new())
}

/// The command prints nothing on standard output and ends with the status; its message.
fn refused(status: i32, arguments: &[&str]) -> String {
    let (code, output, message) = judge(arguments);
    assert_eq!((code, output.as_str()), (status, ""), "{message}");
    message
}

#[test]
fn the_program_gets_both_tables_and_its_line_is_printed() {
    assert_eq!(
        judge(&[r"\0", "7"]),
        printed("1000 2048 12 1 2 1 0 1 0 2 0 0 0 0 0 8 1 1 1 0 0 7 0 0")
    );
    assert_eq!(
        judge(&["%31", r"\%0"]),
        printed("1000 2048 8 1 1 1 0 6 31 0 0 12 1 2 1 0 1 0 2 0 6 0 0 0")
    );
}

#[test]
fn options_stand_anywhere_and_are_not_judged() {
    let line = printed("4294967295 0 8 1 1 1 0 0 0 0 0 8 1 1 1 0 0 300 0 0");
    let options = ["--budget", "4294967295", "--words", "0"];
    assert_eq!(judge(&[&options[..], &["0", "300"]].concat()), line);
    assert_eq!(judge(&[&["0", "300"], &options[..]].concat()), line);
}

#[test]
fn values_stand_behind_an_equals_sign_too() {
    let line = printed("5 16 8 1 1 1 0 0 0 0 0 8 1 1 1 0 0 1 0 0");
    assert_eq!(judge(&["--budget=5", "--words=16", "0", "1"]), line);
    let program = format!(
        "--program={}",
        repository().join("target/bin/verdict").display()
    );
    let line = judge(&["0", "1"]);
    assert_eq!(judge_in(Path::new("/"), &[&program, "0", "1"]), line);
}

#[test]
fn after_two_dashes_nothing_is_an_option() {
    let line = judge(&["0", "1"]);
    assert_eq!(judge(&["--", "0", "1"]), line);
    assert_eq!(judge(&["0", "--", "1"]), line);
    assert!(
        refused(2, &["--", "--budget", "1"]).starts_with("judge: left term, line 1, column 1: ")
    );
    assert!(refused(2, &["--", "0", "--help"]).starts_with("judge: right term, line 1, column 1: "));
}

#[test]
fn the_default_pair_is_named() {
    let (status, output, message) = judge(&["--budget", "10", "--words", "16"]);
    assert_eq!(status, 0);
    assert_eq!(
        output,
        "10 16 32 1 7 1 0 2 0 2 0 2 0 3 7 1 0 4 6 1 0 5 0 0 1 0 0 0 0 0 0 0 1 0 0 \
         8 1 1 1 0 0 0 0 0\n"
    );
    assert!(
        message.starts_with("judge: the default pair, '(\\\\1) 0 1' and '0';"),
        "{message}"
    );
}

#[test]
fn terms_are_read_from_standard_input() {
    let root = repository();
    let on = |input, arguments: &[&str]| {
        let (status, output, message) = judge_on(root, input, arguments);
        (status, output, message.replace(UNCHECKED, ""))
    };
    let line = judge(&[r"\0 7", "1"]);
    assert_eq!(on("\\0 7\n1\n", &["-"]), line);
    assert_eq!(on("\n\\0\t7\n\n1", &["-"]), line);
    assert_eq!(on("\\0\n7\n", &["-", "1"]), line);
    assert_eq!(on(" 1\n", &[r"\0 7", "-"]), line);
    assert_eq!(on("\\0", &["--table", "-"]), judge(&["--table", r"\0"]));
    assert_eq!(on("2,1,0,24\n", &["--text", "-"]), printed(r"(\0) 3"));
    assert_eq!(on("\\0\n", &["--encoding", "-"]), printed("4 32"));
    assert_eq!(on("4 32\n", &["--from-encoding", "-"]), printed(r"\0"));
    assert_eq!(on("32\n", &["--from-encoding", "4", "-"]), printed(r"\0"));
    assert_eq!(on("\\0\n", &["--bits", "-"]), printed("0010"));
    assert_eq!(on("00\n10\n", &["--from-bits", "-"]), printed(r"\0"));
    for (input, found) in [("", 0), ("0\n", 1), ("0\n1\n2\n", 3)] {
        let (status, _, message) = on(input, &["-"]);
        assert_eq!(status, 2);
        assert!(message.contains(&format!("two lines, a term each; found {found}")));
    }
    assert!(refused(2, &["-", "-"]).contains("`-` can be one of two terms"));
}

#[test]
fn the_program_is_found_from_folders_below_and_by_path() {
    let line = judge(&["0", "0"]);
    assert_eq!(
        judge_in(&repository().join("docs/deeper"), &["0", "0"]),
        line
    );
    let bin = repository().join("target/bin");
    assert_eq!(judge_in(&bin, &["--program", "verdict", "0", "0"]), line);
    // A relative path starts from the caller's folder, whatever the repository.
    let root = repository().to_str().expect("text");
    let arguments = ["--repository", root, "--program", "verdict", "0", "0"];
    assert_eq!(judge_in(&bin, &arguments), line);
    assert_eq!(judge_in(&bin, &arguments[2..]), line);
    let anywhere = env::temp_dir();
    assert_eq!(judge_in(&anywhere, &["--repository", root, "0", "0"]), line);
    let absolute = bin.join("verdict");
    let absolute = absolute.to_str().expect("text");
    assert_eq!(
        judge_in(&env::temp_dir(), &["--program", absolute, "0", "0"]),
        line
    );
}

#[test]
fn a_program_may_stop_reading() {
    let long = format!("#1[{}0]", "0,".repeat(60_000));
    let (status, output, _) = judge(&["--program", "target/bin/deaf", &long, "0"]);
    assert_eq!((status, output.as_str()), (0, "Input\n"));
}

#[test]
fn a_program_that_prints_no_line_is_status_3() {
    for (name, reason) in [
        ("silent", "printed something else than one line"),
        ("blank", "printed something else than one line"),
        ("no-line-end", "printed something else than one line"),
        ("two-lines", "printed something else than one line"),
        ("failing", "failed: exit status: 3"),
        ("not-executable", "cannot be run: Permission denied"),
        ("absent", "cannot be run: No such file or directory"),
    ] {
        let path = format!("target/bin/{name}");
        let message = refused(3, &["--program", &path, "0", "0"]);
        assert!(
            message.starts_with(&format!("judge: {path} {reason}")),
            "{message}"
        );
    }
}

#[test]
fn a_program_that_answers_no_calls_is_status_3() {
    for name in ["silent", "two-lines", "odd", "failing", "not-executable"] {
        let program = format!("target/bin/{name}");
        let (status, output, message) = judge_on(
            repository(),
            "0 | 0\n",
            &["--program", &program, "--key", "-"],
        );
        assert_eq!((status, output.as_str()), (3, ""), "{name}");
        assert_ne!(message, "", "{name}");
    }
}

#[test]
fn without_a_repository_or_a_program_there_is_nothing_to_run() {
    let (status, output, message) = judge_in(Path::new("/"), &["0", "0"]);
    assert_eq!((status, output.as_str()), (3, ""));
    assert!(message.starts_with("judge: no repository is here or above"));
    let empty = Repository::new("empty", "");
    let (status, output, message) = judge_in(&empty.root, &["0", "0"]);
    assert_eq!((status, output.as_str()), (3, ""));
    assert!(
        message.contains("there is no target/bin/verdict"),
        "{message}"
    );
}

#[test]
fn a_program_that_nothing_has_checked_is_said_to_be() {
    let (status, _, message) = judge_on(repository(), "", &["0", "0"]);
    assert_eq!((status, message.as_str()), (0, UNCHECKED));
}

#[test]
fn an_rt_that_cannot_be_started_is_said() {
    let folder = outside("no-command");
    fs::create_dir_all(&folder).expect("a folder");
    fs::write(folder.join("rt"), "").expect("a file");
    let output = Command::new(env!("CARGO_BIN_EXE_judge"))
        .args(["0", "0"])
        .current_dir(repository())
        .env("PATH", folder)
        .output();
    let (status, output, message) = answer(output.expect("judge runs"));
    assert_eq!((status, output.as_str()), (3, ""));
    assert!(
        message.starts_with("judge: `tools/program verdict` cannot be followed: Permission denied"),
        "{message}"
    );
}

#[test]
fn a_folder_that_is_no_repository_is_left_alone() {
    let other = outside("other");
    fs::create_dir_all(&other).expect("a folder");
    for path in [other.to_str().expect("text"), "/no/such/folder"] {
        let message = refused(3, &["--repository", path, "0", "0"]);
        assert_eq!(
            message,
            format!("judge: {path} is no repository: it has no crates.txt\n")
        );
    }
    assert!(!other.join("target").exists());
}

/// Stands in for rt: proves the crates below the program, and builds the program from the file `source`,
/// unless its stamp is of that source, and runs it. What stands on standard input is not for it, and it
/// does not work beside another one.
const RT: &str = "#!/bin/sh
[ \"$*\" = version ] && exit
[ \"$*\" = run ] || exit 2
[ \"$(basename \"$PWD\")\" = verdict ] || exit 2
[ -z \"$(cat)\" ] || exit 2
source=../../source
mkdir ../../working || exit 2
trap 'rmdir ../../working' EXIT
grep -q slow $source && sleep 2.5
proved() {
    for name; do
        echo \"rt: chose --jobs 2 for $name\"
        echo \"fn $name::first: proved\"
        echo 'logic=proved functions=1 sum=dac8208d650f15bf'
    done >&2
}
if ! [ -f out/verdict ] || ! cmp -s $source out/verdict.stamp; then
    echo 'what the prover has to say' >&2
    [ -f out/verdict.stamp ] || proved calculus words terms rounds press
    if grep -q wrong $source; then
        echo 'rt: chose --jobs 2 for verdict' >&2
        echo 'logic=not-proved' >&2
        exit 1
    fi
    grep -q nothing $source && exit
    mkdir -p out
    { echo '#!/bin/sh'; cat $source; } >out/verdict
    chmod +x out/verdict
    cp $source out/verdict.stamp
    proved verdict
fi
out/verdict
";

/// The crates that RT speaks of, and one that the program does not need.
const CRATES: &str = "\
calculus:
words: calculus
terms: words
rounds: words
press: terms rounds
vectors: press
verdict: press
";

/// A repository of its own, whose program is built by RT.
struct Repository {
    root: PathBuf,
}

impl Repository {
    fn new(name: &str, source: &str) -> Repository {
        let root = outside(name);
        let _ = fs::remove_dir_all(&root);
        for folder in ["below", "tools", "crates/verdict"] {
            fs::create_dir_all(root.join(folder)).expect("a folder in the repository");
        }
        fs::copy("../program", root.join("tools/program")).expect("the script");
        fs::write(root.join("crates.txt"), CRATES).expect("a list of crates");
        fs::write(root.join("source"), source).expect("a source");
        Repository { root }
    }

    /// A path of commands with RT and CARGO.
    fn path() -> OsString {
        let commands = repository().join("commands").into_os_string();
        [commands, path_without_rt()].join(":".as_ref())
    }

    /// As `judge_on`, in a folder below the root, with an input that is for nobody.
    fn judge(&self) -> (i32, String, String) {
        let input = fs::File::open(self.root.join("source"));
        let output = Command::new(env!("CARGO_BIN_EXE_judge"))
            .args(["0", "0"])
            .current_dir(self.root.join("below"))
            .env("PATH", Repository::path())
            .stdin(input.expect("an input"))
            .output()
            .expect("judge runs");
        answer(output)
    }

    fn prints(line: &str) -> String {
        format!("cat >/dev/null\necho {line}\n")
    }
}

#[test]
fn the_program_is_built_once_and_its_progress_told() {
    let repository = Repository::new("building", &Repository::prints("Same 0 1 1"));
    let log = repository.root.join("target/log/judge.out");
    let (status, output, message) = repository.judge();
    assert_eq!((status, output.as_str()), (0, "Same 0 1 1\n"), "{message}");
    assert_eq!(
        message,
        format!(
            "judge: proving and building the program first, which can take minutes (log: {})\n\
             judge: 5 of 6 crates proved\n",
            log.display()
        )
    );
    let said = fs::read_to_string(log).expect("the log");
    assert!(said.contains("what the prover has to say\n"), "{said}");
    assert_eq!(repository.judge(), printed("Same 0 1 1"));
}

#[test]
fn the_script_compiles_the_tools_and_hands_on_its_arguments() {
    let repository = Repository::new("script", "");
    let root = repository.root.to_str().expect("text");
    let script = repository.root.join("judge");
    fs::copy("../../judge", &script).expect("the script");
    let link = repository.root.join("elsewhere/judge");
    fs::create_dir_all(link.parent().expect("a folder")).expect("a folder");
    symlink(&script, &link).expect("a link");
    let run = |script: &Path| {
        let output = Command::new("bash")
            .arg(script)
            .args([r"(\\1) 0  1", "", "--words=16"])
            .current_dir("/")
            .env("PATH", Repository::path())
            .env_remove("CARGO_TARGET_DIR")
            .output();
        answer(output.expect("bash runs"))
    };
    let arguments = format!(
        "run\n--quiet\n--release\n--manifest-path\n{root}/tools/Cargo.toml\n--package\njudge\n--\n\
         --repository\n{root}\n(\\\\1) 0  1\n\n--words=16\n"
    );
    let announced = "judge: compiling the tools first\n".to_string();
    assert_eq!(run(&link), (0, arguments.clone(), announced));
    let tools = repository.root.join("tools/target/release");
    fs::create_dir_all(&tools).expect("a folder");
    fs::write(tools.join("judge"), "").expect("a file");
    let mode = fs::Permissions::from_mode(0o755);
    fs::set_permissions(tools.join("judge"), mode).expect("executable");
    assert_eq!(run(&script), (0, arguments, String::new()));
}

#[test]
fn a_silent_build_is_announced() {
    let source = Repository::prints("Same 0 1 1") + "# slow\n";
    let repository = Repository::new("slow", &source);
    repository.judge();
    let (status, output, message) = repository.judge();
    assert_eq!((status, output.as_str()), (0, "Same 0 1 1\n"));
    assert!(
        message.starts_with("judge: proving and building the program first"),
        "{message}"
    );
    assert_eq!(message.lines().count(), 1, "{message}");
}

#[test]
fn several_at_once_wait_for_each_other() {
    let source = Repository::prints("Same 0 1 1") + "# slow\n";
    let repository = Repository::new("parallel", &source);
    let answers: Vec<_> = thread::scope(|scope| {
        let judges: Vec<_> = (0..3).map(|_| scope.spawn(|| repository.judge())).collect();
        let ended = judges.into_iter().map(|judge| judge.join());
        ended.map(|answer| answer.expect("judge runs")).collect()
    });
    let waiting =
        "judge: waiting for another judge in this repository; with --program none waits\n";
    let mut waited = 0;
    for (status, output, message) in &answers {
        assert_eq!((*status, output.as_str()), (0, "Same 0 1 1\n"), "{message}");
        waited += usize::from(message.contains(waiting));
    }
    assert_eq!(waited, 2, "{answers:?}");
}

#[test]
fn a_deleted_program_is_built_again() {
    let repository = Repository::new("deleted", &Repository::prints("Same 0 1 1"));
    repository.judge();
    let program = repository.root.join("target/bin/verdict");
    fs::remove_file(&program).expect("it is there");
    assert_eq!(repository.judge(), printed("Same 0 1 1"));
    let built = repository.root.join("crates/verdict/out/verdict");
    for program in [&program, &built] {
        fs::remove_file(program).expect("it is there");
    }
    let (status, output, message) = repository.judge();
    assert_eq!((status, output.as_str()), (0, "Same 0 1 1\n"), "{message}");
    assert!(message.starts_with("judge: proving and building the program first"));
}

#[test]
fn a_changed_source_is_judged_by_a_new_program() {
    let repository = Repository::new("changed", &Repository::prints("Same 0 1 1"));
    repository.judge();
    let source = repository.root.join("source");
    fs::write(&source, Repository::prints("Different 0 1 1 0")).expect("the source");
    assert_eq!(repository.judge().1, "Different 0 1 1 0\n");
    fs::write(&source, "wrong").expect("the source");
    let (status, output, message) = repository.judge();
    assert_eq!((status, output.as_str()), (3, ""));
    assert!(message.contains("judge: verdict NOT PROVED\n"));
    assert!(message.contains("did not build target/bin/verdict from these sources"));
    assert!(message.contains("Its log is "), "{message}");
}

#[test]
fn a_build_that_leaves_no_program_is_said() {
    let repository = Repository::new("nothing", "nothing");
    let (status, output, message) = repository.judge();
    assert_eq!((status, output.as_str()), (3, ""));
    let said =
        "judge: `tools/program verdict` did not build target/bin/verdict from these sources: ";
    assert!(
        message.contains(&format!("{said}exit status: 1\n")),
        "{message}"
    );
}

#[test]
fn the_verdict_decides_the_exit_status_if_asked() {
    for (budget, line, status) in [
        ("11", "Same 1 2 3", 0),
        ("12", "Different 1 2 3 1", 1),
        ("13", "Budget 1 2 3", 4),
        ("14", "Full 1 2 3", 5),
        ("6", "Refused 6", 6),
        ("15", "Input", 7),
    ] {
        let arguments = [
            "--program",
            "target/bin/lines",
            "--budget",
            budget,
            "0",
            "0",
        ];
        let (without, output, _) = judge(&arguments);
        assert_eq!((without, output), (0, format!("{line}\n")));
        let (with, output, _) = judge(&[&arguments[..], &["--exit-code"]].concat());
        assert_eq!((with, output), (status, format!("{line}\n")));
    }
}

#[test]
fn a_refusal_names_side_and_reason() {
    // Three words make a table of 16.
    let (wrong, right) = ("0 0", "0");
    let parts = format!(
        "more than {MAX_ARGUMENTS} arguments or {MAX_BRANCHES} branches, or branch tags that do not rise; \
         a default stands first"
    );
    for (number, reason) in [
        (
            "3",
            "a tag is outside 1 to 255; only a default, `_:BODY`, has tag 0, and it binds nothing",
        ),
        ("5", parts.as_str()),
        (
            "6",
            "a free number, an index less the binders around it, is above 255 (with names: more than 256 are free)",
        ),
        ("8", "3 words are more than C, which is 2048"),
        ("10", "refusal 10"),
    ] {
        for (side, terms) in [("left", [wrong, right]), ("right", [right, wrong])] {
            let arguments = ["--program", "target/bin/sides", "--budget", number];
            let (status, output, message) = judge(&[&arguments[..], &terms].concat());
            assert_eq!((status, output), (0, format!("Refused {number}\n")));
            assert_eq!(message, format!("judge: {side} term: {reason}\n"));
        }
    }
    let lines = |options: [&str; 4]| judge(&[&options[..], &["0 0", "0"]].concat()).2;
    assert_eq!(
        lines(["--program", "target/bin/lines", "--budget", "9"]),
        "judge: the budget is 9 and must be at most 1000000\n"
    );
    assert_eq!(
        lines(["--program", "target/bin/lines", "--budget", "7"]),
        "judge: C, the words in each workspace, is 2048 and must be 16 to 2048\n"
    );
    assert_eq!(
        lines(["--program", "target/bin/lines", "--budget", "15"]),
        "judge: a table holds 2048 words of a term; left has 3, right 1\n"
    );
}

#[test]
fn a_line_that_cannot_be_written_is_said() {
    for arguments in [&["0", "0"][..], &["--help"], &["--table", "0"]] {
        let full = fs::File::options().write(true).open("/dev/full");
        let output = Command::new(env!("CARGO_BIN_EXE_judge"))
            .args(arguments)
            .current_dir(repository())
            .env("PATH", path_without_rt())
            .stdout(full.expect("the full device"))
            .output();
        let (status, _, message) = answer(output.expect("judge runs"));
        assert_eq!(status, 3);
        let message = message.replace(UNCHECKED, "");
        assert!(message.starts_with("judge: standard output cannot be written: "));
    }
}

#[test]
fn a_reader_that_has_gone_is_not_told() {
    for arguments in [&["0", "0"][..], &["--help"]] {
        let mut reader = Command::new("true").stdin(Stdio::piped()).spawn();
        let reader = reader.as_mut().expect("true runs");
        let mut pipe = reader.stdin.take().expect("standard input is piped");
        reader.wait().expect("true ends");
        // Until nobody can read: a process that another test starts has the reading end until it runs its own program.
        while pipe.write_all(b"\n").is_ok() {}
        let output = Command::new(env!("CARGO_BIN_EXE_judge"))
            .args(arguments)
            .current_dir(repository())
            .env("PATH", path_without_rt())
            .stdout(pipe)
            .output();
        let (status, _, message) = answer(output.expect("judge runs"));
        assert_eq!((status, message.replace(UNCHECKED, "").as_str()), (3, ""));
    }
}

#[test]
fn text_errors_name_the_term_and_the_place() {
    assert_eq!(
        refused(2, &["0", "0 (1"]),
        "judge: right term, line 1, column 5: expected a space or `)`, found the end\n    0 (1\n        ^\n"
    );
    assert_eq!(
        refused(2, &["0 λ1", "("]),
        "judge: left term, line 1, column 3: expected an index, `(`, `\\`, `#`, `?`, `%` or the end, found `λ`; names \
         are read with --named\n    0 λ1\n      ^\n"
    );
    for (text, column, expected, found) in [
        ("%32", 2, "a numeral, at most 31", "32"),
        ("%01", 2, "a numeral without leading zeros", "01"),
        ("0 %", 4, "a numeral", "the end"),
        ("?0{_.1:0}", 5, "`:` and the branch's body", "`.`"),
        ("?0{_0:0}", 5, "`:` and the branch's body", "`0`"),
        ("?0{1.0:0,*:0}", 10, "a branch's tag or `_`", "`*`"),
    ] {
        let caret = " ".repeat(column + 3);
        assert_eq!(
            refused(2, &[text, "0"]),
            format!(
                "judge: left term, line 1, column {column}: expected {expected}, found {found}\n    \
                 {text}\n{caret}^\n"
            )
        );
    }
    let long = "(".repeat(100_000);
    assert_eq!(
        refused(2, &[&long, "0"]),
        format!(
            "judge: left term, line 1, column 100001: \
             expected an index, `(`, `\\`, `#`, `?` or `%`, found the end\n    ..{}\n{}^\n",
            "(".repeat(60),
            " ".repeat(66)
        )
    );
    assert!(refused(2, &["--table", "0 )"]).starts_with("judge: term, line 1, column 3: "));
    assert!(refused(2, &["--show-words", ""]).starts_with("judge: term, line 1, column 1: "));
    assert!(refused(2, &["--encoding", "0)"]).starts_with("judge: term, line 1, column 2: "));
    assert!(refused(2, &["--bits", "\\"]).starts_with("judge: term, line 1, column 2: "));
}

#[test]
fn what_is_not_text_is_said() {
    let run = |argument: &OsStr, input: &[u8]| {
        let path = repository().join("not-text");
        fs::write(&path, input).expect("an input");
        let output = Command::new(env!("CARGO_BIN_EXE_judge"))
            .args([OsStr::new("--table"), argument])
            .stdin(fs::File::open(path).expect("an input"))
            .output();
        answer(output.expect("judge runs"))
    };
    let (status, output, message) = run(OsStr::from_bytes(b"0\xff"), b"");
    assert_eq!((status, output.as_str()), (2, ""));
    assert!(
        message.starts_with("judge: an argument is not UTF-8\n"),
        "{message}"
    );
    let (status, output, message) = run(OsStr::new("-"), b"0\xff");
    assert_eq!((status, output.as_str()), (2, ""));
    assert!(
        message.starts_with("judge: standard input cannot be read: "),
        "{message}"
    );
}

#[test]
fn bad_usage_is_status_2() {
    for (arguments, reason) in [
        (&["0"][..], "two terms are needed"),
        (&["0", "1", "2"], "two terms are needed"),
        (&["--budget"], "--budget needs a value"),
        (&["--budget", "-1", "0", "0"], "--budget needs a number"),
        (&["--words", "4294967296"], "--words needs a number"),
        (&["--program"], "--program needs a value"),
        (&["--budget=", "0", "0"], "--budget needs a number"),
        (
            &["--budget=5=6", "0", "0"],
            "--budget needs a number from 0 to 4294967295 in digits alone, found `5=6`",
        ),
        (&["--fast", "0", "0"], "--fast is no option"),
        (&["--exit-code=1", "0", "0"], "--exit-code takes no value"),
        (&["--table=0"], "--table takes no value"),
        (&["--help=1"], "--help takes no value"),
        (&["--version=1"], "--version takes no value"),
        (
            &["--show-words", "--table", "0"],
            "--table and another option ask for two things at once",
        ),
        (
            &["--table", "--text", "0"],
            "--text and another option ask for two things at once",
        ),
        (
            &["--encoding", "--bits", "0"],
            "--bits and another option ask for two things at once",
        ),
        (
            &["--from-bits", "--from-encoding", "0"],
            "--from-encoding and another option ask for two things at once",
        ),
        (&["--from-bits=10"], "--from-bits takes no value"),
        (&["--table"], "one term in single quotes is needed"),
        (&["--encoding"], "one term in single quotes is needed"),
        (&["--bits", "0", "1"], "one term in single quotes is needed"),
        (
            &["--show-words", "0", "1"],
            "one term in single quotes is needed",
        ),
    ] {
        let message = refused(2, arguments);
        assert!(
            message.starts_with(&format!("judge: {reason}")),
            "{message}"
        );
        assert!(message.ends_with("See judge --help.\n"), "{message}");
    }
}

#[test]
fn tables_words_and_text_need_no_program() {
    let root = Path::new("/");
    assert_eq!(
        judge_in(root, &["--table", r"\0"]),
        printed("1,2,1,0, 1,0,2,0, 0,0,0,0")
    );
    assert_eq!(
        judge_in(root, &["--show-words", r"(\\1) 0 1"]),
        printed("2,2,1,1,8,0,8")
    );
    assert_eq!(
        judge_in(root, &["--table", "%8 %2"]),
        printed("1,3,1,0, 2,0,2,0, 6,8,0,3, 6,2,0,0")
    );
    assert_eq!(
        judge_in(root, &["--show-words", "%8 %2"]),
        printed("2,70,22")
    );
    assert_eq!(judge_in(root, &["--text", "2,70,22"]), printed("%8 %2"));
    // Records: case 1, constructor 2, branch 3, variable 4, branch 5, variable 6.
    for text in ["?#3{_:0,1.2:1}", "?#3{0.0:0,1.2:1}"] {
        assert_eq!(
            judge_in(root, &["--table", text]),
            printed("1,6,1,0, 4,0,2,0, 3,3,0,3, 5,0,4,5, 0,0,0,0, 5,18,6,0, 0,1,0,0")
        );
        assert_eq!(
            judge_in(root, &["--show-words", text]),
            printed("20,387,5,0,149,8")
        );
    }
    assert_eq!(
        judge_in(root, &["--text", "20,387,5,0,149,8"]),
        printed("?#3{_:0,1.2:1}")
    );
    for words in [
        &["2,2,1,1,8,0,8"][..],
        &["2", "2", "1", "1", "8", "0", "8"],
        &["2, 2,1 1", "8,", "0", "8,"],
    ] {
        let arguments = [&["--text"], words].concat();
        assert_eq!(judge_in(root, &arguments), printed(r"(\\1) 0 1"));
    }
}

#[test]
fn encodings_and_bits_need_no_program() {
    let root = Path::new("/");
    for (text, encoding, bits) in [
        (r"\0", "4 32", "0010"),
        (r"\\1", "7 12", "0000110"),
        (r"\\\1", "9 3,0", "000000110"),
        (r"\\\2 0 (1 0)", "23 1,122,116", "00000001011110100111010"),
    ] {
        assert_eq!(judge_in(root, &["--encoding", text]), printed(encoding));
        assert_eq!(
            judge_in(root, &["--from-encoding", encoding]),
            printed(text)
        );
        assert_eq!(judge_in(root, &["--bits", text]), printed(bits));
        assert_eq!(judge_in(root, &["--from-bits", bits]), printed(text));
    }
    for encoding in [
        &["23", "1,122,116"][..],
        &["23", "1", "122", "116"],
        &["23,1, 122", "116,"],
        &["23", "1,122,116,0,0"],
    ] {
        let arguments = [&["--from-encoding"], encoding].concat();
        assert_eq!(judge_in(root, &arguments), printed(r"\\\2 0 (1 0)"));
    }
    for bits in [&["00 00 110"][..], &["00", "00", "110"], &[" 0000\t11 0"]] {
        let arguments = [&["--from-bits"], bits].concat();
        assert_eq!(judge_in(root, &arguments), printed(r"\\1"));
    }
}

#[test]
fn a_term_without_an_encoding_is_said() {
    const KINDS: &str = "encodings have only variables, abstractions and applications";
    for (text, reason) in [
        (
            r"\1",
            "word 2: index 1 is the free variable 0; only closed terms have encodings".to_string(),
        ),
        (r"\#1[0]", format!("word 2: #1 is a constructor; {KINDS}")),
        (r"\?0{_:0}", format!("word 2: ? is a case; {KINDS}")),
        ("%8 %2", format!("word 2: %8 is a numeral; {KINDS}")),
    ] {
        for option in ["--encoding", "--bits"] {
            assert_eq!(refused(2, &[option, text]), format!("judge: {reason}\n"));
        }
    }
}

#[test]
fn an_open_term_of_bits_is_printed_and_its_refusal_said() {
    for arguments in [
        &["--from-bits", "00110"][..],
        &["--from-encoding", "5", "48"],
    ] {
        assert_eq!(
            judge(arguments),
            (
                0,
                "\\1\n".to_string(),
                "judge: the unit refuses to import it (refusal 13): word 2: index 1 is the free \
                 variable 0; only closed terms have encodings\n"
                    .to_string()
            )
        );
    }
}

#[test]
fn a_term_that_no_workspace_holds_is_refused_by_its_length_first() {
    let longest = "0".repeat(2 * 2_047);
    for (bits, said) in [
        (format!("{longest}10"), ""),
        (
            format!("{longest}0010"),
            "judge: the unit refuses to import it (refusal 8): 2049 words, and a workspace has \
             2048 at most\n",
        ),
        (
            format!("{longest}00{}0", "1".repeat(2_049)),
            "judge: the unit refuses to import it (refusal 8): 2049 words, and a workspace has \
             2048 at most\n",
        ),
    ] {
        let (status, printed, message) = judge(&["--from-bits", &bits]);
        assert_eq!((status, message.as_str()), (0, said));
        assert!(printed.starts_with(r"\\\\"), "{printed}");
    }
}

#[test]
fn bit_errors_name_the_place() {
    for (arguments, error) in [
        (
            &["--from-bits"][..],
            "bit 1: the bits end before the term does",
        ),
        (
            &["--from-bits", "001"],
            "bit 4: the bits end before the term does",
        ),
        (
            &["--from-bits", "0010", "00"],
            "bit 5: from here on bits are left over after the term",
        ),
        (
            &["--from-bits", "00", "12"],
            "bit 4: expected 0 or 1, found `2`",
        ),
        (
            &["--from-encoding", "0"],
            "bit 1: the bits end before the term does",
        ),
        (
            &["--from-encoding", "3", "32"],
            "bit 4: the bits end before the term does",
        ),
        (
            &["--from-encoding", "8", "32"],
            "bit 5: from here on bits are left over after the term",
        ),
        (
            &["--from-encoding", "4", "33"],
            "bit 8: a 1 past the bit count, 4, where every bit is 0",
        ),
        (
            &["--from-encoding", "9", "32"],
            "bit 9: the bytes end before the bit count, 9",
        ),
        (
            &["--from-encoding"],
            "bit count: expected a number from 0 to 4294967295, found nothing",
        ),
        (
            &["--from-encoding", "x", "32"],
            "bit count: expected a number from 0 to 4294967295, found `x`",
        ),
        (
            &["--from-encoding", "4", "32,256"],
            "byte 2: expected a number from 0 to 255, found `256`",
        ),
    ] {
        assert_eq!(refused(2, arguments), format!("judge: {error}\n"));
    }
}

#[test]
fn word_errors_name_the_place() {
    assert_eq!(
        refused(2, &["--text", "2,,1"]),
        "judge: word 2: expected a number from 0 to 4294967295, found nothing\n"
    );
    assert_eq!(
        refused(2, &["--text", "1,0,,"]),
        "judge: word 3: expected a number from 0 to 4294967295, found nothing\n"
    );
    assert_eq!(
        refused(2, &["--text", "2", "x"]),
        "judge: word 2: expected a number from 0 to 4294967295, found `x`\n"
    );
    assert_eq!(
        refused(2, &["--text", "1", "7"]),
        "judge: word 2: 7 has kind 7; kinds run from 0 to 6\n"
    );
    assert_eq!(
        refused(2, &["--text", "262"]),
        "judge: word 1: 262 is numeral 32; the last one is 31\n"
    );
    assert_eq!(
        refused(2, &["--text"]),
        "judge: word 1: the words end before the term does\n"
    );
    assert_eq!(
        refused(2, &["--show-words", "#33554432"]),
        "judge: word 1: its tag is too large for a word\n"
    );
}

#[test]
fn help_is_short() {
    let (status, help, message) = judge(&["--help"]);
    assert_eq!((status, message.as_str()), (0, ""));
    assert!(help.lines().count() <= 81);
    for option in [
        "--budget",
        "--words",
        "--program",
        "--repository",
        "--exit-code",
        "--version",
        "--table",
        "--show-words",
        "--text",
        "--encoding",
        "--from-encoding",
        "--bits",
        "--from-bits",
        "--key",
        "--format",
        "--forms",
        "--trace",
        "--needs",
        "--explain",
        "--named",
        "--using",
    ] {
        assert!(help.contains(option), "{option}");
    }
    assert_eq!(judge(&["0", "-h"]).1, help);
    for option in ["--version", "-V"] {
        assert_eq!(judge(&[option]), printed("judge 0.1.0"));
    }
}
