//! The page of a key, opened in a real browser where one is installed.

mod common;

use common::{file, judge};
use std::env;
use std::fs;
use std::path::{Path, PathBuf};
use std::process::{Command, Output};
use std::sync::atomic::{AtomicUsize, Ordering};

/// Names under which distributions install browsers that take the options below.
const BROWSERS: [&str; 3] = ["chromium", "chromium-browser", "google-chrome"];

/// A browser that takes longer is ended, and the test fails.
const SECONDS: &str = "120";

/// A browser without a window, or none, which is said.
fn browser(options: &[&str]) -> Option<Output> {
    let path = env::var_os("PATH").unwrap_or_default();
    let installed = BROWSERS.iter().find_map(|name| {
        let mut paths = env::split_paths(&path).map(|folder| folder.join(name));
        paths.find(|path| path.is_file())
    });
    let Some(installed) = installed else {
        println!("skipped: none of {} is installed", BROWSERS.join(", "));
        return None;
    };
    static RUNS: AtomicUsize = AtomicUsize::new(0);
    let run = RUNS.fetch_add(1, Ordering::Relaxed);
    let profile = Path::new(env!("CARGO_TARGET_TMPDIR")).join(format!("profile-{run}"));
    let output = Command::new("timeout")
        .arg(SECONDS)
        .arg(installed)
        .args(["--headless", "--no-sandbox", "--disable-gpu"])
        .arg(format!("--user-data-dir={}", profile.display()))
        .args([
            "--allow-file-access-from-files",
            "--virtual-time-budget=5000",
        ])
        .args(options)
        .output();
    Some(output.expect("the browser runs"))
}

/// A key with long terms, long forms, several scripts and signs that mean something in HTML.
fn page(name: &str) -> PathBuf {
    let mut key = String::from("constructor Nil = 1.0, Cons = 2.2\nlet одно = \\x. x -- <b>\n");
    for place in 0..60 {
        key += &format!("Cons a{place} (Cons b Nil) | Cons a{place} Nil\n");
        key += "λ f x. f (f (f x)) | %3\n";
    }
    key += "case α of {Nil -> одно; Cons 头 尾 -> 尾} | שלום\n";
    key += "(\\x. x x x) (\\x. x x x) | (\\x. x x x) (\\x. x x x) y\n";
    key += &format!(
        "{}z | {}y\n",
        "f (".repeat(200) + "x" + &")".repeat(200) + " ",
        "f ".repeat(400)
    );
    key += "a <script>alert(1)</script> | &amp;\n";
    let key = file(&format!("{name}.key"), key);
    let answer = judge(&["--named", "--key", &key, "--format", "html"]);
    assert_eq!(answer.status, 1, "{}", answer.message);
    PathBuf::from(file(&format!("{name}.html"), answer.output))
}

/// How wide the page is laid out in a frame of a width, how wide the frame shows it, and the number of
/// rows, of marks, and of scripts in it.
fn measured(page: &Path, width: u32) -> Option<Vec<u32>> {
    let frame = format!(
        "<!DOCTYPE html><iframe id=page width={width} height=800 src=\"{}\"></iframe><p id=said></p><script>
         window.onload = () => {{
             const page = document.getElementById('page').contentDocument;
             const count = name => page.querySelectorAll(name).length;
             const root = page.documentElement;
             document.getElementById('said').textContent = 'measured ' + [root.scrollWidth, root.clientWidth,
                 count('tbody tr'), count('mark'), count('script')].join(' ') + ' end';
         }};
         </script>",
        page.file_name().expect("a name").to_str().expect("text")
    );
    let name = page.with_extension("").file_name()?.to_str()?.to_string();
    let frame = file(&format!("{name}-{width}-frame.html"), frame);
    let output = browser(&["--dump-dom", &format!("file://{frame}")])?;
    let dom = String::from_utf8_lossy(&output.stdout).into_owned();
    let said = dom.split("<p id=\"said\">measured ").nth(1);
    let said = said
        .and_then(|rest| rest.split(" end").next())
        .unwrap_or_else(|| panic!("{dom}"));
    Some(
        said.split(' ')
            .map(|number| number.parse().expect("a number"))
            .collect(),
    )
}

#[test]
fn the_page_fits_a_wide_and_a_narrow_window() {
    let page = page("window");
    for width in [1_200, 640] {
        let Some(measured) = measured(&page, width) else {
            return;
        };
        let [laid_out, shown, rows, marks, scripts] = measured[..] else {
            panic!("{measured:?}");
        };
        assert!(laid_out <= shown, "{laid_out} of {shown} at {width}");
        // 120 rows of the loop, of which each first is Different, and four more, of which two are Different.
        assert_eq!((rows, marks, scripts), (124, 62, 0));
    }
}

#[test]
fn the_page_is_printed_on_several_sheets() {
    let page = page("paper");
    let pdf = page.with_extension("pdf");
    let _ = fs::remove_file(&pdf);
    let print = format!("--print-to-pdf={}", pdf.display());
    let Some(output) = browser(&[
        &print,
        "--no-pdf-header-footer",
        &format!("file://{}", page.display()),
    ]) else {
        return;
    };
    let bytes =
        fs::read(&pdf).unwrap_or_else(|_| panic!("{}", String::from_utf8_lossy(&output.stderr)));
    assert!(bytes.starts_with(b"%PDF"));
    let text = String::from_utf8_lossy(&bytes);
    let sheets = text.matches("/Type /Page\n").count();
    assert!((3..=12).contains(&sheets), "{sheets} sheets");
}
