//! The links and the pieces in backticks of a text in Markdown.

pub enum Piece {
    Link(String),
    Code(String),
}

/// Each with its line. Fenced blocks are left out: they show what is typed or printed.
pub fn pieces(document: &str) -> Vec<(usize, Piece)> {
    let text = without_fences(document);
    let mut list = Vec::new();
    let mut plain = String::new();
    let mut line = 1;
    for (at, part) in text.split('`').enumerate() {
        if at % 2 == 1 {
            list.push((line, Piece::Code(part.to_string())));
            // Keeps the lines of what is left, and the text of a link that is in backticks.
            plain.extend(part.chars().map(|c| if c == '\n' { c } else { '.' }));
        } else {
            plain.push_str(part);
        }
        line += part.matches('\n').count();
    }
    list.extend(links(&plain));
    list
}

fn without_fences(document: &str) -> String {
    let mut inside = false;
    let mut text = String::new();
    for line in document.lines() {
        let fence = line.trim_start().starts_with("```");
        if !fence && !inside {
            text.push_str(line);
        }
        inside ^= fence;
        text.push('\n');
    }
    text
}

fn links(plain: &str) -> Vec<(usize, Piece)> {
    let mut list = Vec::new();
    for (at, line) in plain.lines().enumerate() {
        let targets = line
            .split("](")
            .skip(1)
            .filter_map(|rest| rest.split_once(')'));
        list.extend(targets.map(|(target, _)| (at + 1, Piece::Link(target.trim().to_string()))));
        if let Some((_, target)) = line.split_once("]: ").filter(|_| line.starts_with('[')) {
            list.push((at + 1, Piece::Link(target.trim().to_string())));
        }
    }
    list
}
