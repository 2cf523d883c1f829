//! The words of the sources, and the paths of the repository.

use std::collections::{BTreeMap, BTreeSet};
use std::fs;
use std::path::{Path, PathBuf};
use std::process::Command;

type Words = BTreeSet<String>;

pub struct Sources {
    pub root: PathBuf,
    /// Files and folders, from the root, with slashes.
    paths: Vec<String>,
    /// The words by file, by the file's name without its ending, and by the crate.
    parts: BTreeMap<String, Words>,
    words: Words,
    /// The commands of `rt`, if it is installed.
    commands: Option<Words>,
}

pub fn in_name(c: char) -> bool {
    c.is_alphanumeric() || "_-·'′″".contains(c)
}

impl Sources {
    /// Reads all but the files named, which may have words that stand for no name.
    pub fn read(root: &Path, but: &[&str]) -> Sources {
        let mut sources = Sources {
            root: root.to_path_buf(),
            paths: Vec::new(),
            parts: BTreeMap::new(),
            words: Words::new(),
            commands: commands(),
        };
        sources.walk("", but);
        sources
    }

    fn walk(&mut self, folder: &str, but: &[&str]) {
        let entries = fs::read_dir(self.root.join(folder)).expect("the folder can be read");
        for entry in entries {
            let entry = entry.expect("the entry can be read");
            let name = entry.file_name().to_string_lossy().into_owned();
            if [".git", "out", "target"].contains(&&name[..]) {
                continue;
            }
            let path = if folder.is_empty() {
                name
            } else {
                format!("{folder}/{name}")
            };
            let is_folder = entry.path().is_dir();
            if is_folder {
                self.walk(&path, but);
            } else if !but.contains(&path.as_str()) {
                self.add_file(&path);
            }
            self.paths.push(path);
        }
    }

    fn add_file(&mut self, path: &str) {
        let (folder, name) = path.rsplit_once('/').unwrap_or(("", path));
        let (stem, ending) = name.rsplit_once('.').unwrap_or((name, ""));
        let mut words: Words = path.split(['/', '.']).map(String::from).collect();
        let is_script = folder.is_empty() && ending.is_empty();
        if is_script || ["antt", "rt", "rs", "h", "c", "toml"].contains(&ending) {
            let text = fs::read_to_string(self.root.join(path)).unwrap_or_default();
            words.extend(self::words(ending, &text));
        }
        let crate_name = path
            .strip_prefix("crates/")
            .and_then(|rest| rest.split('/').next());
        for part in [Some(stem), crate_name].into_iter().flatten() {
            let known = self.parts.entry(part.to_string()).or_default();
            known.extend(words.iter().cloned());
        }
        self.words.extend(words);
    }

    pub fn has_crate(&self, name: &str) -> bool {
        self.root.join("crates").join(name).is_dir()
    }

    /// Every command is believed where `rt` cannot be asked.
    pub fn has_command(&self, name: &str) -> bool {
        self.commands
            .as_ref()
            .is_none_or(|list| list.contains(name))
    }

    /// From the root, from the document's folder, or as the end of some path, with or without the
    /// file's ending. NAME stands for any name. What is below `target` is built, and need not be
    /// there.
    pub fn has_path(&self, folder: &Path, path: &str) -> bool {
        let path = path.replace("NAME", "*");
        let path = path.trim_start_matches("./").trim_end_matches('/');
        path == "target"
            || path.starts_with("target/")
            || self.root.join(folder).join(path).exists()
            || self.paths.iter().any(|known| ends_with(known, path))
    }

    /// In a name with several parts, the first may be a file or a crate that has the others.
    pub fn has_name(&self, name: &str) -> bool {
        let plain = name.replace("::", ".");
        match plain.split_once('.') {
            None => self.words.contains(name),
            Some((first, others)) => {
                let within = self.parts.get(first).unwrap_or(&self.words);
                let has_first = self.parts.contains_key(first) || self.words.contains(first);
                has_first && others.split('.').all(|other| within.contains(other))
            }
        }
    }
}

/// Whether the known path is this one or ends with it; a star stands for any part of a name.
fn ends_with(known: &str, path: &str) -> bool {
    let names: Vec<&str> = known.split('/').collect();
    let wanted: Vec<&str> = path.split('/').collect();
    let Some(from) = names.len().checked_sub(wanted.len()) else {
        return false;
    };
    let like = |(name, wanted): (&&str, &&str)| match wanted.split_once('*') {
        Some((start, end)) => name.starts_with(start) && name.ends_with(end),
        None => {
            name == wanted
                || name
                    .rsplit_once('.')
                    .is_some_and(|(stem, _)| stem == *wanted)
        }
    };
    names[from..].iter().zip(&wanted).all(like)
}

/// The words of a text without its comments, since a name that only a comment has is gone.
pub fn words(ending: &str, text: &str) -> Words {
    let code = without_comments(ending, text);
    let mut list: Vec<&str> = code.split(|c| !in_name(c)).collect();
    // Elsewhere than in antt a hyphen is a minus sign, and a quote is no part of a name.
    if ending != "antt" {
        list.extend(code.split(|c| "-'".contains(c) || !in_name(c)));
    }
    let words = list.into_iter().filter(|word| !word.is_empty());
    words.map(String::from).collect()
}

fn without_comments(ending: &str, text: &str) -> String {
    if ending == "h" || ending == "c" {
        let after = |part: &str| {
            part.split_once("*/")
                .map_or(String::new(), |(_, code)| code.into())
        };
        let mut parts = text.split("/*");
        let first = parts.next().unwrap_or_default().to_string();
        return parts.fold(first, |code, part| code + " " + &after(part));
    }
    let mark = match ending {
        "antt" => "--",
        "rt" | "rs" => "//",
        _ => "#",
    };
    let lines = text
        .lines()
        .map(|line| line.split(mark).next().unwrap_or_default());
    lines.collect::<Vec<_>>().join("\n")
}

/// Asks `rt` for its commands: the lines of its help that show how one is called, some of them several
/// with bars between.
fn commands() -> Option<Words> {
    let output = Command::new("rt").output().ok()?;
    let said = [output.stdout, output.stderr].concat();
    let text = String::from_utf8_lossy(&said).into_owned();
    let call = |line: &str| {
        let starts = ["  rt ", "usage: rt ", "       rt "];
        let rest = starts.iter().find_map(|start| line.strip_prefix(start))?;
        rest.split_whitespace().next().map(String::from)
    };
    let mut commands = Words::new();
    for names in text.lines().filter_map(call) {
        commands.extend(names.split('|').map(String::from));
    }
    Some(commands)
}
