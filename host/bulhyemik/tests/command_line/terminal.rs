//! The program on a terminal: what README shows is what is printed, and progress shares no line with a refusal.

use crate::program::{Folder, program};
use std::ffi::{CStr, c_char, c_int};
use std::fs::{self, File, OpenOptions};
use std::io::{Read, Write};
use std::os::fd::{AsRawFd, FromRawFd};
use std::path::Path;
use std::process::{Command, Stdio};
use std::thread::sleep;
use std::time::Duration;

unsafe extern "C" {
    fn posix_openpt(flags: c_int) -> c_int;
    fn grantpt(terminal: c_int) -> c_int;
    fn unlockpt(terminal: c_int) -> c_int;
    fn ptsname_r(terminal: c_int, name: *mut c_char, room: usize) -> c_int;
}

/// A pseudo-terminal: what is written to one end is read from the other.
struct Terminal {
    near: File,
    far: File,
}

impl Terminal {
    fn open() -> Terminal {
        const READ_AND_WRITE: c_int = 2;
        let mut name = [0; 64];
        // SAFETY: the descriptor is a new one that nothing else closes, and the name ends within its room.
        let near = unsafe {
            let near = posix_openpt(READ_AND_WRITE);
            assert!(near >= 0 && grantpt(near) == 0 && unlockpt(near) == 0, "there is a pseudo-terminal");
            assert_eq!(ptsname_r(near, name.as_mut_ptr(), name.len()), 0, "it has a name");
            File::from_raw_fd(near)
        };
        assert!(near.as_raw_fd() >= 0);
        let name = unsafe { CStr::from_ptr(name.as_ptr()) }.to_str().expect("the name is text").to_string();
        let far = OpenOptions::new().read(true).write(true).open(name).expect("the other end opens");
        Terminal { near, far }
    }

    fn stdio(&self) -> Stdio {
        Stdio::from(self.far.try_clone().expect("it can be lent"))
    }

    /// All that was written to it, after whoever wrote has ended.
    fn shown(self) -> String {
        let Terminal { mut near, far } = self;
        drop(far);
        let mut bytes = Vec::new();
        let mut piece = [0; 4096];
        while let Ok(count @ 1..) = near.read(&mut piece) {
            bytes.extend_from_slice(&piece[..count]);
        }
        String::from_utf8(bytes).expect("it is text").replace("\r\n", "\n")
    }
}

#[test]
fn the_session_of_the_readme_is_what_a_terminal_shows() {
    let repository = Path::new(env!("CARGO_MANIFEST_DIR")).join("../..");
    let readme = fs::read_to_string(repository.join("README.md")).expect("there is a README");
    let (_, session) = readme.split_once("## A first session\n").expect("it has a session");
    let block: Vec<&str> =
        session.lines().skip_while(|line| line.is_empty()).map_while(|line| line.strip_prefix("    ")).collect();
    let mut commands = 0;
    let mut lines = block.iter().peekable();
    while let Some(line) = lines.next() {
        let command = line.strip_prefix("$ build/bulhyemik ").expect("a command stands before its answer");
        let mut expected = String::new();
        while let Some(line) = lines.next_if(|line| !line.starts_with('$')) {
            expected += line;
            expected.push('\n');
        }
        let terminal = Terminal::open();
        let mut child = Command::new(program())
            .args(command.split(' '))
            .current_dir(&repository)
            .stdin(terminal.stdio())
            .stdout(terminal.stdio())
            .stderr(terminal.stdio())
            .spawn()
            .expect("the program starts");
        child.wait().expect("it ends");
        assert_eq!(terminal.shown(), expected, "{command}");
        commands += 1;
    }
    assert!(commands >= 6, "the session is read whole");
}

#[test]
fn progress_and_a_refusal_share_no_line() {
    let folder = Folder::new("progress");
    let terminal = Terminal::open();
    let mut child = folder
        .command(&["lookup", "dock.txt", "dock.nodes"])
        .stdin(Stdio::piped())
        .stdout(Stdio::null())
        .stderr(terminal.stdio())
        .spawn()
        .expect("the program starts");
    let mut input = child.stdin.take().expect("it has a standard input");
    sleep(Duration::from_secs(2));
    for point in ["5\t5\t5\n", "99\t99\t0\n"] {
        input.write_all(point.as_bytes()).expect("it reads");
        sleep(Duration::from_millis(100));
    }
    drop(input);
    child.wait().expect("it ends");
    let shown = terminal.shown();
    let cleared = format!("\rpoints: 1\r{:9}\r", "");
    assert!(shown.contains(&format!("{cleared}bulhyemik: point 2 refused: no grid holds the point\n")), "{shown:?}");
}
