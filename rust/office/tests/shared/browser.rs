//! Chromium, started without a window: what a page is after its scripts have run, and what it is on paper.

use std::path::{Path, PathBuf};
use std::process::{Command, Output, Stdio};

const BROWSERS: [&str; 2] = ["chromium", "chromium-browser"];

pub fn installed(program: &str) -> bool {
    let asked = Command::new(program).arg("--version").stdout(Stdio::null()).stderr(Stdio::null()).status();
    asked.is_ok()
}

/// The browser, or what is missing to make and open a page.
pub fn found() -> Result<&'static str, &'static str> {
    if !installed("dot") {
        return Err("dot is not installed (Debian's package graphviz)");
    }
    let browser = BROWSERS.into_iter().find(|name| installed(name));
    browser.ok_or("no Chromium is installed (Debian's package chromium)")
}

/// The folder of these tests' files.
pub fn folder() -> PathBuf {
    Path::new(env!("CARGO_TARGET_TMPDIR")).to_path_buf()
}

/// The page's document after its scripts have run.
pub fn dom(browser: &str, page: &Path, fragment: &str) -> String {
    let ends_well = |output: &Output| String::from_utf8_lossy(&output.stdout).trim_end().ends_with("</html>");
    let output = shown(browser, &["--dump-dom"], page, fragment, ends_well);
    String::from_utf8_lossy(&output.stdout).into_owned()
}

/// The page on paper, as a file beside it.
pub fn printed(browser: &str, page: &Path, fragment: &str) -> PathBuf {
    let paper = page.with_extension("pdf");
    let _ = std::fs::remove_file(&paper);
    let option = format!("--print-to-pdf={}", paper.display());
    shown(browser, &["--no-pdf-header-footer", &option], page, fragment, |_| paper.exists());
    paper
}

/// What a browser says of a page. One that crashes is started once more.
fn shown(
    browser: &str,
    options: &[&str],
    page: &Path,
    fragment: &str,
    ends_well: impl Fn(&Output) -> bool,
) -> Output {
    let url = format!("file://{}{fragment}", page.display());
    for _ in 0..2 {
        // one for each test program, for these may run side by side
        let profile = folder().join(format!("profile-{}", std::process::id()));
        let output = Command::new("timeout")
            .args(["120", browser, "--headless", "--no-sandbox", "--disable-gpu", "--disable-dev-shm-usage"])
            .args(["--no-first-run", "--disable-extensions", "--disable-background-networking"])
            .arg(format!("--user-data-dir={}", profile.display()))
            .arg("--virtual-time-budget=10000")
            .args(options)
            .arg(&url)
            .env("HOME", folder())
            .output()
            .expect("timeout starts");
        let _ = std::fs::remove_dir_all(&profile);
        if output.status.success() && ends_well(&output) {
            return output;
        }
        eprintln!("{browser} ended with {}: {}", output.status, String::from_utf8_lossy(&output.stderr));
    }
    panic!("{browser} does not show {url}");
}
