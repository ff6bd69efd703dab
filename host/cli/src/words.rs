//! Words of a file, which may have any characters, as they are printed.

/// Does it end a line, move a cursor, or change how what stands around it is shown
/// without being seen itself? Control characters, marks of direction, what joins or
/// has no width, and separators of lines.
fn is_hidden(c: char) -> bool {
    c.is_control()
        || matches!(
            c,
            '\u{ad}' | '\u{61c}' | '\u{180e}' | '\u{200b}'..='\u{200f}' | '\u{2028}'..='\u{202e}'
                | '\u{2060}'..='\u{206f}' | '\u{feff}'
        )
}

/// The words with a question mark for each character that is not seen.
pub fn one_line(words: &str) -> String {
    let shown = words.chars().map(|c| if is_hidden(c) { '?' } else { c });
    shown.collect()
}

/// The words as a string of JSON; what is not seen is escaped.
pub fn quoted(words: &str) -> String {
    let mut text = String::from("\"");
    for character in words.chars() {
        match character {
            '"' | '\\' => text.extend(['\\', character]),
            c if is_hidden(c) => text += &format!("\\u{:04x}", u32::from(c)),
            c => text.push(c),
        }
    }
    text + "\""
}

#[cfg(test)]
mod tests {
    use super::*;

    #[test]
    fn control_characters_are_not_printed() {
        assert_eq!(one_line("a\nb\u{1b}[2J\u{85} \u{e9}"), "a?b?[2J? \u{e9}");
        assert_eq!(
            one_line("a\u{202e}b\u{2066}c\u{2028}\u{5d0}"),
            "a?b?c?\u{5d0}"
        );
        assert_eq!(one_line(""), "");
    }

    #[test]
    fn strings_are_those_of_json() {
        assert_eq!(quoted("Label"), "\"Label\"");
        let wanted = "\"a\\\"b\\\\c\\u000a\\u007f\u{e9}\"";
        assert_eq!(quoted("a\"b\\c\n\u{7f}\u{e9}"), wanted);
        assert_eq!(quoted("a\u{202e}b\u{200f}"), "\"a\\u202eb\\u200f\"");
    }
}
