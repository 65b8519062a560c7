//! Runs the program in a folder of its own: the one that BULHYEMIK names, or the one over the second program.

use std::collections::BTreeMap;
use std::ffi::OsStr;
use std::fs;
use std::io::Write;
use std::path::{Path, PathBuf};
use std::process::{Command, Output, Stdio};

pub const HEADER: &str =
    "group\tdock\tmetre\t13\t1\t1\t1\nramp\t100\t0\t200\t1000000\ngrid\tbasin\t0\t0\t10\t10\t3\t2\t1\t0\n";
pub const NODES: [i32; 6] = [0, 10, 20, 100, 110, 120];

/// A fresh folder with a header, its nodes and a file of floats.
pub struct Folder {
    path: PathBuf,
}

/// What a run answered.
#[derive(Debug, PartialEq, Eq)]
pub struct Answer {
    pub status: i32,
    pub out: String,
    pub err: String,
}

/// The program under test.
pub fn program() -> PathBuf {
    match std::env::var_os("BULHYEMIK") {
        Some(path) => fs::canonicalize(path).expect("BULHYEMIK names a program"),
        None => {
            let test = std::env::current_exe().expect("this test has a path");
            test.parent().and_then(Path::parent).expect("it stands in deps/").join("examples/bulhyemik_reference")
        }
    }
}

impl Folder {
    pub fn new(name: &str) -> Folder {
        let path = Path::new(env!("CARGO_TARGET_TMPDIR")).join(name);
        let _ = fs::remove_dir_all(&path);
        fs::create_dir_all(&path).expect("the folder can be made");
        let folder = Folder { path };
        folder.put("dock.txt", HEADER.as_bytes());
        folder.put("dock.nodes", &words(&NODES.map(i32::to_le_bytes)));
        folder.put("dock.floats", &words(&[0.5f32, 1.5, f32::NAN, -9999.0].map(f32::to_le_bytes)));
        folder
    }

    pub fn path(&self, name: &str) -> PathBuf {
        self.path.join(name)
    }

    /// The program with these arguments, not yet started.
    pub fn command<S: AsRef<OsStr>>(&self, arguments: &[S]) -> Command {
        let mut command = Command::new(program());
        command.args(arguments).current_dir(&self.path);
        command
    }

    pub fn put(&self, name: &str, bytes: &[u8]) {
        fs::write(self.path(name), bytes).expect("the file can be written");
    }

    pub fn make_folder(&self, name: &str) {
        fs::create_dir(self.path(name)).expect("the folder can be made");
    }

    pub fn get(&self, name: &str) -> Vec<u8> {
        fs::read(self.path(name)).expect("the file can be read")
    }

    /// Every file of the folder with its bytes.
    pub fn files(&self) -> BTreeMap<PathBuf, Vec<u8>> {
        let entries = fs::read_dir(&self.path).expect("the folder can be read");
        let paths = entries.map(|entry| entry.expect("an entry").path());
        paths.filter(|path| path.is_file()).map(|path| (path.clone(), fs::read(path).expect("its bytes"))).collect()
    }

    /// Runs the program with these arguments and this standard input.
    pub fn run_with<S: AsRef<OsStr>>(&self, arguments: &[S], input: &[u8]) -> Answer {
        self.finish(self.command(arguments), input)
    }

    /// Runs the program with arguments parted by spaces and no standard input.
    pub fn run(&self, arguments: &str) -> Answer {
        let arguments: Vec<&str> = arguments.split(' ').filter(|word| !word.is_empty()).collect();
        self.run_with(&arguments, b"")
    }

    /// Runs a shell line in which `$PROGRAM` is the program.
    pub fn shell(&self, line: &str) -> Answer {
        let mut command = Command::new("sh");
        command.args(["-c", line]).env("PROGRAM", program());
        self.finish(command, b"")
    }

    fn finish(&self, mut command: Command, input: &[u8]) -> Answer {
        command.current_dir(&self.path).stdin(Stdio::piped()).stdout(Stdio::piped()).stderr(Stdio::piped());
        let mut child = command.spawn().expect("the program starts");
        let _ = child.stdin.take().expect("it has a standard input").write_all(input);
        let Output { status, stdout, stderr } = child.wait_with_output().expect("the program ends");
        Answer {
            status: status.code().expect("it ends by itself"),
            out: String::from_utf8(stdout).expect("it prints text"),
            err: String::from_utf8(stderr).expect("it prints text"),
        }
    }
}

/// A file of the examples.
pub fn example(name: &str) -> Vec<u8> {
    let path = format!("{}/../../examples/{name}", env!("CARGO_MANIFEST_DIR"));
    fs::read(path).expect("the examples have it")
}

/// A folder with the header, the nodes and the points of an example.
pub fn with_example(folder: &str, name: &str) -> Folder {
    let folder = Folder::new(folder);
    for kind in ["txt", "nodes", "points"] {
        folder.put(kind, &example(&format!("{name}.{kind}")));
    }
    folder
}

/// The bytes of 32-bit words.
pub fn words(all: &[[u8; 4]]) -> Vec<u8> {
    all.concat()
}

pub fn accepted(out: &str) -> Answer {
    Answer { status: 0, out: out.into(), err: String::new() }
}

pub fn refused(number: u64, place: u64, words: &str) -> Answer {
    Answer { status: 1, out: format!("refused\t{number}\t{place}\n"), err: format!("bulhyemik: refused: {words}\n") }
}

/// A refused point, longitude, latitude and day.
pub fn refused_at(number: u64, place: u64, [lon, lat, day]: [i64; 3], words: &str) -> Answer {
    let mut answer = refused(number, place, words);
    answer.out = format!("refused\t{number}\t{place}\t{lon}\t{lat}\t{day}\n");
    answer
}

/// A log that does not pass.
pub fn failed(line: u64, kind: &str, words: &str) -> Answer {
    Answer { status: 1, out: format!("failed\t{line}\t{kind}\n"), err: format!("bulhyemik: failed: {words}\n") }
}

pub fn stopped(message: &str) -> Answer {
    Answer { status: 2, out: String::new(), err: format!("bulhyemik: {message}\n") }
}

/// The command line must stop with its message for a user who is not root; skipped where root can't become one.
pub fn as_a_plain_user(folder: &Folder, before: &str, arguments: &str, message: &str) {
    const SKIPPED: i32 = 9;
    let line = format!(
        "{before}
        if [ \"$(id -u)\" = 0 ]; then as='setpriv --reuid=65534 --regid=65534 --clear-groups'; fi
        $as test -x \"$PROGRAM\" -a -x . || exit {SKIPPED}
        exec $as \"$PROGRAM\" {arguments}"
    );
    let answer = folder.shell(&line);
    if answer.status == SKIPPED {
        println!("skipped: {arguments}");
    } else {
        assert_eq!(answer, stopped(message), "{arguments}");
    }
}
