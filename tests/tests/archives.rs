//! What stands in the two archives: the functions of their headers and no others, so that both can be
//! linked into one program; and calls of functions that move bytes and of no others, so that no call
//! asks for memory.

use std::io::ErrorKind;
use std::path::Path;
use std::process::Command;

const PLAYER: [&str; 3] = ["player_begin", "player_check", "player_run"];
const PAPER: [&str; 3] = ["paper_read", "paper_sizes", "paper_write"];

/// Functions of the C library that compilers call by themselves.
const MOVING: [&str; 5] = ["bcmp", "memcmp", "memcpy", "memmove", "memset"];

/// The names that `nm` lists with this option, in order, or nothing if it is not installed.
fn names(archive: &str, option: &str) -> Option<Vec<String>> {
    let path = Path::new(env!("LIBRARIES_DIR")).join(archive);
    let result = Command::new("nm").args(["-P", option]).arg(&path).output();
    let output = match result {
        Ok(output) => output,
        Err(error) if error.kind() == ErrorKind::NotFound => {
            println!("nm is not installed: nothing is tested");
            return None;
        }
        Err(error) => panic!("nm does not start: {error}"),
    };
    assert!(output.status.success(), "nm cannot read {archive}");
    let text = String::from_utf8_lossy(&output.stdout).into_owned();
    // The line of a member of the archive has no second word.
    let name = |line: &str| line.split_once(' ').map(|(name, _)| name.to_string());
    let mut list: Vec<String> = text.lines().filter_map(name).collect();
    list.sort();
    Some(list)
}

fn hold(archive: &str, functions: [&str; 3]) {
    let (Some(all), Some(called)) = (names(archive, "-g"), names(archive, "-u")) else {
        return;
    };
    let is_called = |name: &String| called.contains(name);
    let (called, defined): (Vec<_>, Vec<_>) = all.into_iter().partition(is_called);
    println!("{archive}: {defined:?}, calls {called:?}");
    assert_eq!(defined, functions, "{archive}");
    let strange = called.iter().find(|name| !MOVING.contains(&&name[..]));
    assert_eq!(strange, None, "{archive}");
}

#[test]
fn archive_of_the_player() {
    hold("libplayer.a", PLAYER);
}

#[test]
fn archive_of_files() {
    hold("libpaper.a", PAPER);
}
