//! Chromium without a window and without a network, which is told over a pipe what to do: tabs are opened and closed, keys are pressed in them,
//! and they are asked what they show.

use std::io::{BufRead, BufReader, Write};
use std::path::{Path, PathBuf};
use std::process::{Child, ChildStdin, ChildStdout, Command, Stdio};
use std::thread::sleep;
use std::time::Duration;

use workbench::Json;

use super::texts::DIGITS;

/// The browser, where one is installed.
pub fn found() -> Option<&'static str> {
    let starts = |name: &&str| {
        Command::new(name).arg("--version").stdout(Stdio::null()).stderr(Stdio::null()).status().is_ok()
    };
    ["chromium", "chromium-browser"].into_iter().find(starts)
}

/// The folder of these tests' files.
pub fn folder() -> PathBuf {
    Path::new(env!("CARGO_TARGET_TMPDIR")).to_path_buf()
}

/// What is done in a browser that has kept nothing yet. One that crashes, or is stopped before that is done, is started again.
pub fn with<T>(browser: &str, mut act: impl FnMut(&mut Browser) -> Option<T>) -> T {
    for _ in 0..3 {
        let mut started = Browser::start(browser);
        if let Some(done) = act(&mut started) {
            return done;
        }
        eprintln!("{browser} ended before it had answered");
    }
    panic!("{browser} does not stay")
}

/// How long something is waited for, in milliseconds.
const MOST_WAITED: usize = 150_000;

/// Keys that have names, with their numbers.
const NAMED: [(&str, usize); 7] = [
    ("Tab", 9),
    ("Enter", 13),
    ("Escape", 27),
    ("ArrowLeft", 37),
    ("ArrowUp", 38),
    ("ArrowRight", 39),
    ("ArrowDown", 40),
];

pub struct Browser {
    child: Child,
    to: ChildStdin,
    from: BufReader<ChildStdout>,
    profile: PathBuf,
    calls: usize,
    /// How often a page asked whether it may go.
    pub asked: usize,
}

/// A tab, and the talk with it.
pub struct Tab {
    target: String,
    session: String,
}

impl Browser {
    fn start(browser: &str) -> Browser {
        let profile = folder().join(format!("workbench-profile-{}", std::process::id()));
        // where the browser looks for its pipe
        let piped = "exec \"$@\" 3<&0 4>&1 </dev/null >/dev/null";
        let mut child = Command::new("timeout")
            .args(["200", "sh", "-c", piped, "sh", browser, "--remote-debugging-pipe", "--headless"])
            .args(["--no-sandbox", "--disable-gpu", "--disable-dev-shm-usage", "--no-first-run"])
            .args(["--disable-extensions", "--disable-background-networking", "--proxy-server=127.0.0.1:9"])
            .args(["--host-resolver-rules=MAP * ~NOTFOUND", "--window-size=1280,900"])
            .arg(format!("--user-data-dir={}", profile.display()))
            .env("HOME", folder())
            .stdin(Stdio::piped())
            .stdout(Stdio::piped())
            .stderr(Stdio::null())
            .spawn()
            .expect("timeout starts");
        let to = child.stdin.take().expect("a pipe");
        let from = BufReader::new(child.stdout.take().expect("a pipe"));
        Browser { child, to, from, profile, calls: 0, asked: 0 }
    }

    fn send(&mut self, session: Option<&str>, method: &str, given: Vec<(&'static str, Json)>) -> Option<()> {
        self.calls += 1;
        let mut message =
            vec![("id", self.calls.into()), ("method", method.into()), ("params", Json::Record(given))];
        message.extend(session.map(|session| ("sessionId", session.into())));
        self.to.write_all(format!("{}\0", Json::Record(message)).as_bytes()).ok()
    }

    /// Calls a method of the browser, or of a tab, and waits for its answer. A page that asks whether it may go is told that it may.
    fn call(&mut self, tab: Option<&Tab>, method: &str, given: Vec<(&'static str, Json)>) -> Option<String> {
        self.send(tab.map(|tab| tab.session.as_str()), method, given)?;
        let begins = format!("{{\"id\":{},", self.calls);
        loop {
            let mut heard = Vec::new();
            self.from.read_until(0, &mut heard).ok().filter(|length| *length > 0)?;
            let heard = String::from_utf8_lossy(&heard).into_owned();
            if heard.starts_with(&begins) {
                return Some(heard);
            }
            if heard.starts_with("{\"method\":\"Page.javascriptDialogOpening\"") {
                self.asked += 1;
                let session = text(&heard, "sessionId");
                self.send(session.as_deref(), "Page.handleJavaScriptDialog", vec![("accept", true.into())])?;
            }
        }
    }

    /// A new tab with a page.
    pub fn open(&mut self, page: &Path) -> Option<Tab> {
        self.open_after(page, "")
    }

    /// A new tab with a page, before whose own scripts this one runs, each time that it is loaded.
    pub fn open_after(&mut self, page: &Path, script: &str) -> Option<Tab> {
        let opened = self.call(None, "Target.createTarget", vec![("url", "about:blank".into())])?;
        let tab = self.attach(text(&opened, "targetId")?)?;
        self.call(Some(&tab), "Page.enable", Vec::new())?;
        self.call(Some(&tab), "Page.addScriptToEvaluateOnNewDocument", vec![("source", script.into())])?;
        let url = format!("file://{}", page.display());
        self.call(Some(&tab), "Page.navigate", vec![("url", url.into())])?;
        Some(tab)
    }

    fn attach(&mut self, target: String) -> Option<Tab> {
        let given = vec![("targetId", target.as_str().into()), ("flatten", true.into())];
        let attached = self.call(None, "Target.attachToTarget", given)?;
        Some(Tab { target, session: text(&attached, "sessionId")? })
    }

    /// The tab that one opens by this script, which has what the one keeps for itself.
    pub fn opened_by(&mut self, tab: &Tab, script: &str) -> Option<Tab> {
        let targets = |own: &mut Browser| {
            let told = own.call(None, "Target.getTargets", Vec::new())?;
            let targets = told.split("\"targetId\":\"").skip(1).filter_map(|rest| rest.split('"').next());
            Some(targets.map(str::to_string).collect::<Vec<String>>())
        };
        let before = targets(self)?;
        self.ask(tab, &format!("({script}, '')"))?;
        let target = targets(self)?.into_iter().find(|target| !before.contains(target))?;
        self.attach(target)
    }

    /// As a person closes it; goes on when it is gone.
    pub fn close(&mut self, tab: Tab) -> Option<()> {
        self.call(None, "Target.closeTarget", vec![("targetId", tab.target.as_str().into())])?;
        while self.call(None, "Target.getTargets", Vec::new())?.contains(&tab.target) {
            sleep(Duration::from_millis(20));
        }
        Some(())
    }

    /// What an expression is in a tab, as soon as it is there, also where the page is loaded anew meanwhile.
    pub fn ask(&mut self, tab: &Tab, expression: &str) -> Option<String> {
        let waits = format!(
            "(async () => {{ for (const begun = Date.now(); Date.now() < begun + {MOST_WAITED}; ) {{ const one = {expression}; \
             if (one !== undefined) return encodeURIComponent(one); await new Promise((then) => setTimeout(then, 20)); }} }})()"
        );
        let given = || {
            let waits = ("expression", waits.as_str().into());
            vec![waits, ("awaitPromise", true.into()), ("userGesture", true.into())]
        };
        loop {
            let answer = self.call(Some(tab), "Runtime.evaluate", given())?;
            if let Some(value) = text(&answer, "value") {
                return Some(decoded(&value));
            }
            // where the page went meanwhile, the one that came is asked
            assert!(answer.contains("\"error\":{"), "{expression} in a tab: {answer}");
            sleep(Duration::from_millis(20));
        }
    }

    /// Presses keys one after the other, each by its name and with what is held beside it, in bits as the browser has them.
    pub fn press(&mut self, tab: &Tab, keys: &[(&str, u8)]) -> Option<()> {
        for (key, held) in keys {
            let named = NAMED.iter().find(|(name, _)| name == key);
            let capital = key.to_uppercase();
            let digit = if key.as_bytes()[0].is_ascii_digit() { "Digit" } else { "Key" };
            let (code, number, text) = match named {
                Some((name, number)) => (name.to_string(), *number, (*name == "Enter").then_some("\r")),
                None => (format!("{digit}{capital}"), usize::from(capital.as_bytes()[0]), Some(*key)),
            };
            for kind in ["keyDown", "keyUp"] {
                let mut given: Vec<(&'static str, Json)> = vec![
                    ("type", kind.into()),
                    ("key", (*key).into()),
                    ("code", code.as_str().into()),
                    ("windowsVirtualKeyCode", number.into()),
                    ("modifiers", (*held).into()),
                ];
                given.extend(text.filter(|_| kind == "keyDown").map(|text| ("text", text.into())));
                self.call(Some(tab), "Input.dispatchKeyEvent", given)?;
            }
        }
        Some(())
    }

    /// A text typed where the keys go.
    pub fn type_text(&mut self, tab: &Tab, text: &str) -> Option<()> {
        self.call(Some(tab), "Input.insertText", vec![("text", text.into())]).map(|_| ())
    }

    /// As wide and as high as a screen of so many dots.
    pub fn resize(&mut self, tab: &Tab, width: usize, height: usize) -> Option<()> {
        let given = vec![
            ("width", width.into()),
            ("height", height.into()),
            ("deviceScaleFactor", 1usize.into()),
            ("mobile", false.into()),
        ];
        self.call(Some(tab), "Emulation.setDeviceMetricsOverride", given).map(|_| ())
    }

    /// The page on paper, as a file of its bytes.
    pub fn print(&mut self, tab: &Tab) -> Option<Vec<u8>> {
        let printed = self.call(Some(tab), "Page.printToPDF", vec![("preferCSSPageSize", true.into())])?;
        text(&printed, "data").map(|data| unpacked(&data))
    }

    pub fn reload(&mut self, tab: &Tab) -> Option<()> {
        self.call(Some(tab), "Page.reload", Vec::new()).map(|_| ())
    }
}

impl Drop for Browser {
    fn drop(&mut self) {
        // where it does not go by itself, timeout ends it
        let _ = self.call(None, "Browser.close", Vec::new());
        let _ = self.child.wait();
        let _ = std::fs::remove_dir_all(&self.profile);
    }
}

/// A field of an answer, a text without any mark that would be escaped.
fn text(answer: &str, name: &str) -> Option<String> {
    let (_, rest) = answer.split_once(&format!("\"{name}\":\""))?;
    rest.split('"').next().map(str::to_string)
}

/// What stands in base 64.
fn unpacked(data: &str) -> Vec<u8> {
    let digit = |byte: &u8| DIGITS.iter().position(|digit| digit == byte);
    let digits: Vec<usize> = data.as_bytes().iter().map_while(digit).collect();
    let three = |four: &[usize]| {
        let number =
            four.iter().enumerate().fold(0, |number, (place, digit)| number | digit << (18 - 6 * place));
        let bytes = four.len() * 6 / 8;
        (0..bytes).map(move |place| (number >> (16 - 8 * place)) as u8).collect::<Vec<u8>>()
    };
    digits.chunks(4).flat_map(three).collect()
}

/// A text whose bytes stand as % and two digits where they are no letters.
fn decoded(value: &str) -> String {
    let mut pieces = value.split('%');
    let mut bytes = pieces.next().unwrap_or("").as_bytes().to_vec();
    for piece in pieces {
        let (digits, rest) = piece.split_at(2);
        bytes.push(u8::from_str_radix(digits, 16).expect("two digits"));
        bytes.extend(rest.as_bytes());
    }
    String::from_utf8(bytes).expect("text")
}
