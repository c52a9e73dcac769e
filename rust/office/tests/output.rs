//! What is written with -o: whole or not at all, not over what the command reads, and over a chart, an image or notation only when
//! that is asked for.

mod shared;

use std::fs::{self, File};
use std::os::unix::fs::{symlink, PermissionsExt};
use std::path::{Path, PathBuf};
use std::process::Command;

use shared::{example, program, ran, run, Ran};

/// A new folder with a copy of a chart in it, which goes with it: `rt ci` takes no link that a test leaves.
struct Shop {
    folder: PathBuf,
}

impl Shop {
    fn new(name: &str) -> Shop {
        let folder = Path::new(env!("CARGO_TARGET_TMPDIR")).join(format!("output_{name}"));
        let _ = fs::remove_dir_all(&folder);
        fs::create_dir_all(&folder).expect("a folder that can be written");
        fs::copy(example("branches.txt"), folder.join("branches.txt")).expect("an example");
        Shop { folder }
    }

    fn path(&self, name: &str) -> String {
        self.folder.join(name).to_string_lossy().into_owned()
    }

    fn write(&self, name: &str, text: impl AsRef<[u8]>) -> String {
        fs::write(self.folder.join(name), text).expect("a folder that can be written");
        self.path(name)
    }

    fn read(&self, name: &str) -> String {
        fs::read_to_string(self.folder.join(name)).expect("a text")
    }

    /// The names of all files in it.
    fn files(&self) -> Vec<String> {
        let names =
            fs::read_dir(&self.folder).expect("a folder").map(|file| file.expect("a file").file_name());
        let mut names: Vec<String> = names.map(|name| name.to_string_lossy().into_owned()).collect();
        names.sort();
        names
    }

    fn minimise(&self, file: &str, more: &[&str]) -> Ran {
        run(&[&["minimise", &self.path("branches.txt"), "-o", file], more].concat())
    }
}

impl Drop for Shop {
    fn drop(&mut self) {
        let _ = fs::remove_dir_all(&self.folder);
    }
}

fn smaller() -> String {
    fs::read_to_string(example("branches.smaller")).expect("an example")
}

/// Where no byte can be written, the file stays as it was and nothing is left beside it.
#[test]
fn a_failed_write_keeps_the_good_file() {
    let shop = Shop::new("full");
    let good = "a good file of some 300 characters\n".repeat(9);
    for (command, name) in [("minimise", "good.image"), ("page", "good.html"), ("minimise", "new.image")] {
        if name.starts_with("good") {
            shop.write(name, &good);
        }
        let (chart, file) = (shop.path("branches.txt"), shop.path(name));
        let limited = "trap '' XFSZ; ulimit -f 0; exec \"$0\" \"$@\"";
        let ran = ran(Command::new("sh")
            .args(["-c", limited, env!("CARGO_BIN_EXE_fairleadow")])
            .args([command, &chart, "-o", &file]));
        if ran.said.starts_with("dot is not installed") {
            continue;
        }
        assert_eq!((ran.status, ran.printed.as_str()), (1, ""), "{command}");
        assert!(ran.said.starts_with(&file) && ran.said.contains(" cannot be written: "), "{}", ran.said);
        if name.starts_with("good") {
            assert_eq!(shop.read(name), good);
        }
    }
    let kept = shop.files();
    assert!(
        kept.iter().all(|name| ["branches.txt", "good.html", "good.image"].contains(&name.as_str())),
        "{kept:?}"
    );
}

/// A hard link, a link and another way to the chart, and standard input, are the file that is read; none is written over.
#[test]
fn what_is_read_is_told_by_its_file() {
    let shop = Shop::new("links");
    let chart = shop.read("branches.txt");
    fs::hard_link(shop.path("branches.txt"), shop.path("hard.txt")).expect("a link");
    symlink(shop.path("branches.txt"), shop.path("soft.txt")).expect("a link");
    let around = shop.path("../output_links/branches.txt");
    for file in [shop.path("hard.txt"), shop.path("soft.txt"), around] {
        for more in [&[][..], &["--force"]] {
            let ran = shop.minimise(&file, more);
            assert_eq!((ran.status, ran.printed.as_str()), (2, ""), "{file}");
            assert!(ran.said.starts_with(&format!("{file} is read by this command")), "{}", ran.said);
            assert_eq!(shop.read("branches.txt"), chart);
        }
    }
    let input = File::open(shop.path("branches.txt")).expect("a file");
    let file = shop.path("hard.txt");
    let ran = ran(program(&["minimise", "-", "-o", &file]).stdin(input));
    assert!(ran.status == 2 && ran.said.contains("is read by this command"), "{}", ran.said);
    assert_eq!(shop.read("branches.txt"), chart);
}

#[test]
fn charts_images_and_notation_are_written_over_when_that_is_asked_for() {
    let shop = Shop::new("kinds");
    for (example_file, held) in
        [("paper.chart", "a chart"), ("paper.image", "an image"), ("bore.txt", "the readable notation")]
    {
        let text = fs::read_to_string(example(example_file)).expect("an example");
        let file = shop.write(example_file, &text);
        let ran = shop.minimise(&file, &[]);
        assert_eq!((ran.status, ran.printed.as_str()), (2, ""), "{example_file}");
        let told = format!("{file} looks like {held}, which would be lost; --force writes over it\nusage: ");
        assert!(ran.said.starts_with(&told), "{}", ran.said);
        assert_eq!(shop.read(example_file), text);
        let ran = shop.minimise(&file, &["--force"]);
        assert_eq!((ran.status, ran.said.as_str()), (0, ""));
        assert_eq!(shop.read(example_file), smaller());
    }
    // what holds none of these is written over, and a page is such a file
    for text in ["", "Dear sirs,\n", "<!doctype html>\n<!-- 1 -> 2 -->\n"] {
        let file = shop.write("other", text);
        assert_eq!(shop.minimise(&file, &[]).status, 0);
        assert_eq!(shop.read("other"), smaller());
    }
    let ran = run(&["minimise", &shop.path("branches.txt"), "--force"]);
    assert!(ran.status == 2 && ran.said.starts_with("--force goes with -o\n"), "{}", ran.said);
}

/// A run that was ended in the middle may have left its file, and a later one may have the same number.
#[test]
fn a_file_that_was_left_beside_is_no_hindrance() {
    let shop = Shop::new("left");
    let leaving =
        "echo half >\"$1/.fairleadow-$$\"; exec \"$0\" minimise \"$1/branches.txt\" -o \"$1/new.image\"";
    let program = env!("CARGO_BIN_EXE_fairleadow");
    let ran = ran(Command::new("sh").args(["-c", leaving, program, &shop.path("")]));
    assert_eq!((ran.status, ran.said.as_str()), (0, ""));
    assert_eq!(
        (shop.read("new.image"), shop.files()),
        (smaller(), vec!["branches.txt".into(), "new.image".into()])
    );
}

/// A link keeps leading to its file, a file keeps who may read it, and a device is written where it is.
#[test]
fn a_file_is_written_where_it_stands() {
    let shop = Shop::new("places");
    let file = shop.write("far.image", "");
    fs::set_permissions(&file, fs::Permissions::from_mode(0o640)).expect("a file of our own");
    symlink(&file, shop.path("near.image")).expect("a link");
    assert_eq!(shop.minimise(&shop.path("near.image"), &[]).status, 0);
    assert!(fs::symlink_metadata(shop.path("near.image")).expect("a link").is_symlink());
    assert_eq!(shop.read("far.image"), smaller());
    assert_eq!(fs::metadata(&file).expect("a file").permissions().mode() & 0o777, 0o640);
    assert_eq!(shop.minimise("/dev/null", &[]).status, 0);
    let ran = shop.minimise(&shop.path(""), &[]);
    assert_eq!(
        (ran.status, ran.said),
        (1, format!("{}: the image cannot be written: this is a folder\n", shop.path("")))
    );
    assert_eq!(shop.files(), ["branches.txt", "far.image", "near.image"]);
}

/// Where no file can be made it is the folder that is told, and why.
#[test]
fn a_folder_that_takes_no_file_is_named() {
    let shop = Shop::new("folders");
    let refused = |file: &str, why: &str| {
        let ran = shop.minimise(file, &[]);
        let told = format!("{file}: the image cannot be written: {why}\n");
        assert_eq!((ran.status, ran.printed.as_str(), ran.said), (1, "", told));
    };
    refused(&shop.path("no/such.image"), &format!("there is no folder {}", shop.path("no")));
    // a name of control codes is shown without them
    let file = shop.path("no\u{1b}/such.image");
    let ran = shop.minimise(&file, &[]);
    assert!(ran.said.ends_with(&format!("there is no folder {}\n", shop.path("no\\u{1b}"))), "{}", ran.said);
    let file = shop.path("branches.txt");
    refused(&format!("{file}/x.image"), &format!("{file} is no folder"));
    // in one that may not be written, and over a file that may not be, where this user may not do all
    fs::create_dir(shop.path("shut")).expect("a folder that can be written");
    let shut = |path: &str, mode| {
        fs::set_permissions(shop.path(path), fs::Permissions::from_mode(mode)).expect("our own")
    };
    let file = shop.write("kept.image", "");
    shut("shut", 0o555);
    shut("kept.image", 0o444);
    if File::create(shop.path("shut/own")).is_err() {
        let inside = shop.path("shut/new.image");
        refused(&inside, &format!("this user may not make a file in the folder {}", shop.path("shut")));
        refused(&file, "the file may not be written by this user");
    }
    // no user may do all here
    let ran = shop.minimise("/sys/new.image", &[]);
    assert!(ran.status == 1 && ran.said.contains(" the folder /sys"), "{}", ran.said);
}

/// A scenario is saved as other files are: not over what is read, over a chart or a scenario only when that is asked for, whole or not at
/// all, and nothing where the run is not made.
#[test]
fn a_scenario_is_saved_whole_or_not_at_all() {
    let shop = Shop::new("saved");
    let chart = shop.path("branches.txt");
    let save = |file: &str, more: &[&str]| run(&[&["trace", &chart, "--save", file], more].concat());
    let file = shop.path("new.scenario");
    let ran = save(&file, &["--words", "-*2,hard*3"]);
    assert_eq!((ran.status, ran.said.as_str()), (0, ""));
    assert_eq!(ran.printed, run(&["trace", &chart, "--words", "-*2,hard*3"]).printed);
    let saved =
        "# branches.txt, words -*2,hard*3\nplaces 32\n\n- * 2     # ticks 0 to 1\nhard * 3  # ticks 2 to 4\n";
    assert_eq!(shop.read("new.scenario"), saved);
    let ran = save("-", &["--words", "-*2,hard*3"]);
    assert_eq!((ran.status, ran.printed.as_str(), ran.said.as_str()), (0, saved, ""));
    for (file, more, told) in [
        (
            &file,
            vec!["--words", "0"],
            "new.scenario looks like a scenario, which would be lost; --force writes over it\n",
        ),
        (&file, vec!["--scenario", &file], "new.scenario is read by this command: it would be lost\n"),
        (
            &file,
            vec!["--scenario", &file, "--force"],
            "new.scenario is read by this command: it would be lost\n",
        ),
        (&chart, vec!["--words", "0", "--force"], "branches.txt is read by this command: it would be lost\n"),
    ] {
        let ran = save(file, &more);
        assert_eq!((ran.status, ran.printed.as_str()), (2, ""));
        assert!(
            ran.said.lines().next().is_some_and(|line| format!("{line}\n").ends_with(told)),
            "{}",
            ran.said
        );
        assert_eq!(shop.read("new.scenario"), saved);
    }
    assert_eq!(save(&file, &["--words", "0", "--force"]).status, 0);
    assert_eq!(shop.read("new.scenario"), "# branches.txt, words 0\nplaces 32\n\n-  # tick 0\n");
    // where nothing was run nothing is written
    for (more, status) in [
        (vec!["--words", "hrad"], 2),
        (vec!["--places", "33"], 1),
        (vec!["--swap", "0:2=3"], 1),
        (vec!["--scenario", "no/such.scenario"], 1),
        (vec!["--words", "0", "--ticks", "65537"], 1),
    ] {
        let ran = save(&shop.path("none.scenario"), &more);
        assert_eq!((ran.status, ran.printed.as_str()), (status, ""), "{more:?}: {}", ran.said);
    }
    let ran = save(&shop.path("none.scenario"), &["--words", "0", "--ticks", "65537"]);
    assert!(
        ran.said.ends_with(": the scenario cannot be written: a scenario has at most 65,536 ticks\n"),
        "{}",
        ran.said
    );
    let ran = save(&shop.path("no/such.scenario"), &["--words", "0"]);
    assert!(ran.said.ends_with(&format!("there is no folder {}\n", shop.path("no"))), "{}", ran.said);
    for (option, told) in
        [("--force", "--force goes with --save\n"), ("--expect", "--expect goes with --save\n")]
    {
        let ran = run(&["trace", &chart, option]);
        assert!(ran.status == 2 && ran.said.starts_with(told), "{}", ran.said);
    }
    assert_eq!(shop.files(), ["branches.txt", "new.scenario"]);
}
