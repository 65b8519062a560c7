//! What `load` does to the file that it writes, and output that can't be written.

use crate::program::{Folder, accepted, as_a_plain_user, stopped, words};
use std::fs;
use std::io::pipe;
use std::os::unix::fs::{PermissionsExt, symlink};
use std::os::unix::process::{CommandExt, ExitStatusExt};
use std::process::{Command, Stdio};

fn mode(folder: &Folder, name: &str) -> u32 {
    fs::metadata(folder.path(name)).expect("it stands there").permissions().mode() & 0o7777
}

#[test]
fn a_file_that_is_replaced_keeps_its_mode() {
    let folder = Folder::new("mode");
    for wanted in [0o600, 0o640, 0o666, 0o755] {
        folder.put("old.nodes", b"old");
        fs::set_permissions(folder.path("old.nodes"), fs::Permissions::from_mode(wanted)).expect("its mode");
        assert_eq!(folder.run("load dock.floats old.nodes 0"), accepted("4\n"));
        assert_eq!(mode(&folder, "old.nodes"), wanted);
    }
    assert_eq!(folder.shell("umask 027; \"$PROGRAM\" load dock.floats new.nodes 0"), accepted("4\n"));
    assert_eq!(mode(&folder, "new.nodes"), 0o640);
}

#[test]
fn a_file_that_may_not_be_written_is_not_replaced() {
    let folder = Folder::new("kept");
    let before = "echo old > old.nodes; chmod 444 old.nodes; chmod 777 .";
    let message = "cannot write old.nodes: permission is denied; check who may use it";
    as_a_plain_user(&folder, before, "load dock.floats old.nodes 0", message);
    assert_eq!(folder.get("old.nodes"), b"old\n");
}

#[test]
fn symbolic_links() {
    let folder = Folder::new("links");
    let link = |to: &str, name: &str| symlink(to, folder.path(name)).expect("the link can be made");
    link("nothing", "dangling");
    link("looping", "looping");
    link("real.nodes", "good");
    for name in ["dangling", "looping"] {
        let why = "it is a symbolic link that leads nowhere; mend the link or name a file";
        let answer = folder.run(&format!("load dock.floats {name} 0"));
        assert_eq!(answer, stopped(&format!("cannot write {name}: {why}")));
        assert!(fs::symlink_metadata(folder.path(name)).expect("it stays").is_symlink());
    }
    folder.put("real.nodes", b"old");
    assert_eq!(folder.run("load dock.floats good 0"), accepted("4\n"));
    assert!(fs::symlink_metadata(folder.path("good")).expect("it stays").is_symlink());
    assert_eq!(folder.get("real.nodes").len(), 16);
}

#[test]
fn a_name_of_250_bytes_works() {
    let folder = Folder::new("long-name");
    let name = "n".repeat(250);
    assert_eq!(folder.run(&format!("load dock.floats {name} 0")), accepted("4\n"));
    assert_eq!(folder.get(&name), words(&[0, 2, i32::MIN, -9999].map(i32::to_le_bytes)));
    assert_eq!(folder.files().len(), 4, "nothing is left beside the node file");
}

#[test]
fn places_that_cannot_be_written() {
    let folder = Folder::new("output");
    let missing = |file: &str| format!("cannot write {file}: there is no such file or folder; check the path");
    let before = folder.files();
    for (name, message) in [
        ("none/new.nodes", missing("none/new.nodes")),
        ("/proc/new.nodes", missing("/proc/new.nodes")),
        ("/dev/full", "cannot write /dev/full: it is no regular file; name another".into()),
        ("dock.txt/x", "cannot write dock.txt/x: a part of the path is no folder; check the path".into()),
    ] {
        assert_eq!(folder.run(&format!("load dock.floats {name} 0")), stopped(&message));
        assert_eq!(folder.files(), before);
    }
}

#[test]
fn read_only_folders() {
    let folder = Folder::new("readonly");
    folder.make_folder("locked");
    let message = "cannot write locked/new.nodes: permission is denied; check who may use it";
    as_a_plain_user(&folder, "chmod 555 locked", "load dock.floats locked/new.nodes 0", message);
}

#[test]
fn a_file_size_limit_leaves_nothing_behind() {
    let folder = Folder::new("full");
    folder.put("old.nodes", b"kept");
    let before = folder.files();
    let too_large = "a file may not be so large here; raise the limit or write elsewhere";
    for before_it in ["", "trap '' XFSZ; "] {
        let answer = folder.shell(&format!("{before_it}ulimit -f 0; exec \"$PROGRAM\" load dock.floats old.nodes 0"));
        assert_eq!(answer, stopped(&format!("cannot write old.nodes: {too_large}")));
        assert_eq!(folder.files(), before, "the old file stays and nothing is left beside it");
    }
    let answer = folder.shell("ulimit -f 0; exec \"$PROGRAM\" format dock.txt > printed");
    assert_eq!(answer, stopped(&format!("cannot write standard output: {too_large}")));
}

#[test]
fn standard_output_that_cannot_be_written() {
    let folder = Folder::new("stdout");
    let full = "cannot write standard output: the disk is full; make room or write elsewhere";
    for arguments in [
        "format dock.txt",
        "--help",
        "check /dev/null",
        "lookup dock.txt dock.nodes 99 99 0",
        "judge dock.txt dock.nodes /dev/null",
        "judge dock.txt dock.nodes dock.txt",
    ] {
        let answer = folder.shell(&format!("\"$PROGRAM\" {arguments} > /dev/full"));
        assert_eq!(answer, stopped(full), "{arguments}");
    }
}

#[test]
fn standard_output_that_nobody_reads_ends_it_quietly() {
    let folder = Folder::new("unread");
    for arguments in [
        "--help",
        "check dock.txt",
        "check /dev/null",
        "grids --json dock.txt",
        "lookup dock.txt dock.nodes 5 5 200",
        "lookup dock.txt dock.nodes 99 99 0",
        "judge dock.txt dock.nodes dock.txt",
    ] {
        let (reader, writer) = pipe().expect("there is a pipe");
        drop(reader);
        let mut command = folder.command(&arguments.split(' ').collect::<Vec<_>>());
        let ended = command.stdout(writer).output().expect("the program ends");
        assert_eq!((ended.status.code(), ended.stderr), (Some(141), vec![]), "{arguments}");
    }
}

/// The part files of a folder.
fn parts(folder: &Folder) -> usize {
    let entries = fs::read_dir(folder.path("")).expect("the folder can be read");
    entries
        .filter(|entry| entry.as_ref().is_ok_and(|entry| entry.path().extension().is_some_and(|part| part == "part")))
        .count()
}

unsafe extern "C" {
    fn signal(number: i32, handler: usize) -> usize;
}

/// Starts a long load, sends a signal as soon as a part file stands in the folder, and answers the signal that ended the load.
fn end_by(folder: &Folder, name: &str, number: i32) -> Option<i32> {
    const DEFAULT: usize = 0;
    let mut load = folder.command(&["load", "large.floats", "old.nodes", "0"]);
    let by_default = move || {
        // SAFETY: it gives a signal its default, which this process may have been started without.
        unsafe { signal(number, DEFAULT) };
        Ok(())
    };
    // SAFETY: it only makes a system call.
    unsafe { load.pre_exec(by_default) };
    let mut child = load.stdout(Stdio::null()).spawn().expect("the program starts");
    while parts(folder) == 0 && child.try_wait().expect("it runs").is_none() {}
    let line = format!("kill -{name} {}", child.id());
    let _ = Command::new("sh").args(["-c", &line]).stderr(Stdio::null()).status();
    child.wait().expect("it ends").signal()
}

#[test]
fn signals_leave_no_part_file() {
    for (signal, number) in [("HUP", 1), ("INT", 2), ("TERM", 15)] {
        let folder = Folder::new(&format!("signal-{signal}"));
        folder.put("large.floats", &[0; 1 << 26]);
        let ended = (0..20).any(|_| {
            folder.put("old.nodes", b"kept");
            end_by(&folder, signal, number) == Some(number)
        });
        assert!(ended, "no {signal} came while the file was being written");
        assert_eq!(folder.get("old.nodes"), b"kept", "{signal}");
        assert_eq!(parts(&folder), 0, "nothing is left beside the node file after {signal}");
        folder.put("large.floats", b"");
    }
}
