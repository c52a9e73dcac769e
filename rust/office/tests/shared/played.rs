//! A repository of a few crates, with the scripts dry_run and archive and stand-ins for the toolchain and cargo.

use std::fs;
use std::os::unix::fs::{symlink, PermissionsExt};
use std::path::{Path, PathBuf};
use std::process::Command;

use super::{ran, Ran};

pub const TOP: &str = concat!(env!("CARGO_MANIFEST_DIR"), "/../..");

/// Stands in for the toolchain's command: proves the crates that stand where it is started, lowest first, as `rt ci` does. One that is
/// in the file kept was proved before; the one in broken is not proved; at the one in slow it waits.
const RT: &str = r#"#!/bin/sh
[ "$*" = ci ] && [ -d .git ] || exit 2
has() { grep -qx "$2" "${0%/bin/rt}/$1" 2>/dev/null; }
for name in $(sed -n 's/:.*//p' crates.txt); do
    [ -f "crates/$name/src/lib.rt" ] && [ ! -e "crates/$name/must-fail" ] || exit 2
    echo "$name" >>"${0%/bin/rt}/asked"
    if has kept "$name"; then
        echo "rt: $name is kept: an earlier run on this machine proved the same files over the same libraries"
    else
        ! has slow "$name" || { echo $$ >"${0%/bin/rt}/waiting" && sleep 600; }
        echo "== $name"
        if has broken "$name"; then
            echo "fn $name::one: not proved"
            echo "rt: $name NOT PROVED"
            exit 1
        fi
        echo "logic=proved functions=1"
        echo "rt: $name proved"
    fi
    mkdir -p "crates/$name/out/rlib/$name.rlib"
done
echo "rt: ok"
"#;

/// Stands in for the prover: has the compiler of its toolchain make a module into a library.
const RATTLE: &str = r#"#!/bin/sh
while [ $# -gt 0 ]; do
    case $1 in
    --extern) [ -d "${2#*=}" ] || exit 2 ;;
    --toolchain) compiler=$2/bin/clang ;;
    --incremental) kept=$2 ;;
    -o) to=$PWD/$2 ;;
    esac
    shift
done
[ ! -e "$kept/proof" ] || echo taken
echo half >"$kept/proof"
[ ! -e "${0%/bin/rattle}/refuses" ] || exit 1
echo whole >"$kept/proof"
room=$(mktemp -d)
cd "$room"
echo module >module.bc
"$compiler" --sysroot=/none -O3 && echo made >"$to"
rm -r "$room"
"#;

/// Stands in for cargo: builds a program that prints its arguments.
const CARGO: &str = r#"#!/bin/sh
root=${0%/tools/cargo}
mkdir -p "$root/rust/target/release"
printf '#!/bin/sh\nprintf "[%%s]" "$@"\n' >"$root/rust/target/release/fairleadow"
chmod +x "$root/rust/target/release/fairleadow"
"#;

/// The commands that the scripts are written with.
const BASICS: [&str; 26] = [
    "awk", "bash", "cat", "chmod", "cp", "date", "dirname", "env", "find", "grep", "ln", "mkdir", "mkfifo",
    "mktemp", "mv", "nproc", "readlink", "rm", "script", "sed", "sh", "sleep", "tee", "touch", "wc", "cc",
];

pub fn executable(path: PathBuf, text: &str) {
    fs::create_dir_all(path.parent().expect("a folder")).expect("a folder that can be written");
    fs::write(&path, text).expect("a folder that can be written");
    fs::set_permissions(&path, fs::Permissions::from_mode(0o755)).expect("a file of our own");
}

/// A repository of the four crates of a library, and one above it, with a chart, the scripts and the stand-ins.
pub struct Repository {
    pub root: PathBuf,
}

impl Repository {
    pub fn make(name: &str) -> Repository {
        // outside the repository, whose gate refuses a second crates.txt
        let root = std::env::temp_dir().join(format!("fairleadow-{}-{name}", std::process::id()));
        let _ = fs::remove_dir_all(&root);
        for script in ["dry_run", "archive", "kit.sh"] {
            let text = fs::read_to_string(Path::new(TOP).join(script)).expect("the script");
            executable(root.join(script), &text);
        }
        executable(root.join("kit/bin/rt"), RT);
        executable(root.join("kit/bin/rattle"), RATTLE);
        executable(root.join("kit/toolchain/bin/clang"), "#!/bin/sh\n");
        executable(root.join("tools/cargo"), CARGO);
        for name in BASICS {
            let found = std::env::var("PATH").expect("a path");
            let found = found.split(':').map(|folder| Path::new(folder).join(name)).find(|at| at.exists());
            let _ =
                symlink(found.unwrap_or_else(|| panic!("there is no {name}")), root.join("tools").join(name));
        }
        for name in ["lists", "frames", "charts", "fairleadow"] {
            fs::create_dir_all(root.join("crates").join(name).join("src"))
                .expect("a folder that can be written");
            fs::create_dir_all(root.join("crates").join(name).join("must-fail")).expect("the same");
            fs::write(root.join("crates").join(name).join("src/lib.rt"), "").expect("the same");
        }
        let lists =
            "lists:\n# text\nframes: lists\ncharts: frames\nfairleadow: lists charts\nbench: lists fairleadow\n";
        fs::write(root.join("crates.txt"), lists).expect("a folder that can be written");
        fs::write(root.join("a.chart"), "").expect("a folder that can be written");
        for folder in ["room", "docs", "kit/rlibs/std.rlib"] {
            fs::create_dir_all(root.join(folder)).expect("a folder that can be written");
        }
        fs::copy(Path::new(TOP).join("docs/MEASUREMENTS.md"), root.join("docs/MEASUREMENTS.md"))
            .expect("the page");
        Repository { root }
    }

    /// The script on two processors, started from another folder, where there is nothing but the stand-ins and what it is written with.
    pub fn command(&self, args: &[&str]) -> Command {
        // the script cannot hear a signal that was ignored where it is started, as nohup does
        let mut command = Command::new(self.root.join("tools/env"));
        let path = format!("{0}/kit/bin:{0}/tools", self.root.display());
        command
            .arg("--default-signal=HUP,INT,TERM")
            .arg(self.root.join("dry_run"))
            .args(args)
            .env("PATH", path)
            .env("TMPDIR", self.root.join("room"))
            .env("RT_JOBS", "2")
            .env("XDG_CACHE_HOME", self.root.join("cache"));
        command.current_dir(self.root.join("crates"));
        command
    }

    pub fn dry_run(&self, args: &[&str]) -> Ran {
        let ran = ran(&mut self.command(args));
        assert_eq!(self.left(), [] as [String; 0], "{}", ran.said);
        ran
    }

    /// The crates that the toolchain was asked to prove since the last such question.
    pub fn asked(&self) -> String {
        let asked = fs::read_to_string(self.root.join("kit/asked")).unwrap_or_default();
        let _ = fs::remove_file(self.root.join("kit/asked"));
        asked.replace('\n', " ").trim_end().to_string()
    }

    /// What the script left among the temporary files and beside the library.
    pub fn left(&self) -> Vec<String> {
        let names = |folder: &str| {
            let found = fs::read_dir(self.root.join(folder)).into_iter().flatten();
            found
                .map(|one| one.expect("an entry").file_name().to_string_lossy().into_owned())
                .collect::<Vec<_>>()
        };
        let own = ["incremental", "staticlib"];
        [names("room"), names("target"), names("cache/fairleadow")]
            .concat()
            .into_iter()
            .filter(|name| !own.contains(&name.as_str()))
            .collect()
    }

    pub fn write(&self, path: &str, text: &str) {
        fs::write(self.root.join(path), text).expect("a folder that can be written");
    }

    pub fn library(&self) -> Option<String> {
        fs::read_to_string(self.root.join("target/staticlib/libfairleadow.a")).ok()
    }
}

impl Drop for Repository {
    fn drop(&mut self) {
        let _ = fs::remove_dir_all(&self.root);
    }
}
