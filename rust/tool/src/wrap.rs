//! Text in rows that end where a word does.

/// A space at which no row ends, as inside a number or a command. No name that is shown has it,
/// since control characters are escaped there.
pub const TIED: char = '\u{1}';

/// A text that is to stay on one row.
pub fn tied(text: &str) -> String {
    text.replace(' ', &TIED.to_string())
}

/// The text as it is shown.
pub fn untied(text: &str) -> String {
    text.replace(TIED, " ")
}

/// So many characters; what is written in several is counted as such.
pub fn length(text: &str) -> usize {
    text.chars().count()
}

/// Breaks a text at spaces into rows of at most so many columns. The first begins with `head`, the
/// others with as many spaces as `hang` says. A word that is longer than a row stays as it is.
pub fn wrapped(head: &str, text: &str, hang: usize, columns: usize) -> Vec<String> {
    let hang = " ".repeat(hang.min(columns / 2));
    let mut rows = Vec::new();
    let mut row = head.to_string();
    // Whether the row has a word yet, besides what it begins with.
    let mut begun = false;
    for word in text.split(' ') {
        if begun && length(&row) + 1 + length(word) > columns {
            rows.push(untied(row.trim_end()));
            row = hang.clone();
            begun = false;
        }
        if begun {
            row.push(' ');
        }
        row.push_str(word);
        begun = true;
    }
    rows.push(untied(row.trim_end()));
    rows
}
