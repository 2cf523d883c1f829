//! Whether what a document names exists: the files that its links lead to, and the paths, commands
//! and names that it has in backticks.

mod sources;
mod text;

pub use sources::{words, Sources};

use std::path::Path;
use text::{pieces, Piece};

/// Endings by which a word without a slash is taken for a file.
const ENDINGS: [&str; 12] = [
    "antt", "c", "edit", "expected", "h", "lock", "md", "paper", "rs", "rt", "toml", "words",
];

/// The line and the reason of each thing that is not found.
pub fn faults(sources: &Sources, folder: &Path, document: &str) -> Vec<(usize, String)> {
    let fault = |piece: &Piece| match piece {
        Piece::Link(target) => (!leads(sources, folder, target)).then(|| format!("link {target}")),
        Piece::Code(code) => code_fault(sources, folder, code),
    };
    pieces(document)
        .iter()
        .filter_map(|(line, piece)| fault(piece).map(|fault| (*line, fault)))
        .collect()
}

/// A link to another place of the same document or to the outside is not followed.
fn leads(sources: &Sources, folder: &Path, target: &str) -> bool {
    let file = target.split('#').next().unwrap_or_default();
    file.is_empty() || target.contains("://") || sources.root.join(folder).join(file).exists()
}

fn code_fault(sources: &Sources, folder: &Path, code: &str) -> Option<String> {
    let words: Vec<&str> = code.split_whitespace().collect();
    match words[..] {
        [word] => (!is_right(sources, folder, word)).then(|| word.to_string()),
        ["rt", command, ref rest @ ..] => {
            let crates = rest.iter().take_while(|word| is_crate_like(word));
            let mut wrong = crates.filter(|name| !sources.has_crate(name)).peekable();
            let right = sources.has_command(command) && wrong.peek().is_none();
            (!right).then(|| code.to_string())
        }
        // Of a phrase, only what can be nothing else than a path or a name is looked up.
        _ => {
            let mut words = words
                .iter()
                .map(|word| word.trim_matches(['(', ')', ',', ';']));
            let wrong = words.find(|word| is_telling(word) && !is_right(sources, folder, word));
            wrong.map(|word| format!("{word} in {code}"))
        }
    }
}

fn is_crate_like(word: &str) -> bool {
    word.chars().all(|c| c.is_ascii_lowercase() || c == '_')
}

fn is_right(sources: &Sources, folder: &Path, word: &str) -> bool {
    if is_path(word) {
        sources.has_path(folder, word)
    } else if is_name(word) {
        sources.has_name(word)
    } else {
        // A notation.
        true
    }
}

fn is_path(word: &str) -> bool {
    let known = |c: char| c.is_alphanumeric() || "/._-+*".contains(c);
    let ending = word.rsplit_once('.').map(|(_, ending)| ending);
    let like = word.contains('/') || ending.is_some_and(|ending| ENDINGS.contains(&ending));
    like && !word.starts_with('-') && word.chars().all(known) && has_letter(word)
}

/// Letters, digits and what else a name can have; parts of it are joined by dots or double colons.
fn is_name(word: &str) -> bool {
    let plain = word.replace("::", ".");
    let part = |part: &str| !part.is_empty() && part.chars().all(sources::in_name);
    plain.split('.').all(part) && has_letter(word) && !word.starts_with('-')
}

fn has_letter(word: &str) -> bool {
    word.chars().any(char::is_alphabetic)
}

/// Whether a word of a phrase is a path, or a name that no plain word looks like.
fn is_telling(word: &str) -> bool {
    let letters: Vec<char> = word.chars().collect();
    let mixed = letters
        .windows(2)
        .any(|pair| pair[0].is_lowercase() && pair[1].is_uppercase());
    let joined = letters[..letters.len().max(1) - 1]
        .iter()
        .skip(1)
        .any(|c| "_.:".contains(*c));
    is_path(word) || is_name(word) && (mixed || joined)
}
