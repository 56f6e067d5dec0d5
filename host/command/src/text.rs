//! Text for a terminal, and for the shell's next command line.

use std::borrow::Cow;
use std::ffi::OsStr;
use std::os::unix::ffi::OsStrExt;
use std::path::Path;

/// Whether a terminal could obey the character, or show what stands beside it in another order.
pub fn is_control(c: char) -> bool {
    matches!(c, '\u{61c}' | '\u{200e}' | '\u{200f}' | '\u{2028}'..='\u{202e}' | '\u{2066}'..='\u{206f}' | '\u{feff}')
        || c.is_control()
}

/// Characters that take two columns of a terminal: those of East Asia, and pictures.
const WIDE: [(u32, u32); 14] = [
    (0x1100, 0x115f),
    (0x2e80, 0x303e),
    (0x3041, 0xa4cf),
    (0xa960, 0xa97f),
    (0xac00, 0xd7a3),
    (0xf900, 0xfaff),
    (0xfe10, 0xfe19),
    (0xfe30, 0xfe6f),
    (0xff01, 0xff60),
    (0xffe0, 0xffe6),
    (0x1f300, 0x1f64f),
    (0x1f680, 0x1f6ff),
    (0x1f900, 0x1f9ff),
    (0x20000, 0x3fffd),
];

/// Characters that take none: they join the one before.
const JOINED: [(u32, u32); 3] = [(0x300, 0x36f), (0x200b, 0x200d), (0xfe00, 0xfe0f)];

/// The columns of a terminal that a character takes.
pub fn char_width(c: char) -> usize {
    let is_in = |ranges: &[(u32, u32)]| ranges.iter().any(|(first, last)| (*first..=*last).contains(&u32::from(c)));
    match (is_in(&JOINED), is_in(&WIDE)) {
        (true, _) => 0,
        (_, true) => 2,
        _ => 1,
    }
}

/// The columns that a text takes.
pub fn width(text: &str) -> usize {
    text.chars().map(char_width).sum()
}

/// Lines with their control characters written out, as `\u{1b}`. A tab stays.
pub fn shown_lines(text: &str) -> Cow<'_, str> {
    escaped(text, |c| is_control(c) && c != '\t' && c != '\n')
}

fn escaped(text: &str, is_escaped: impl Fn(char) -> bool) -> Cow<'_, str> {
    if !text.contains(&is_escaped) {
        return Cow::Borrowed(text);
    }
    let mut shown = String::new();
    for c in text.chars() {
        if is_escaped(c) {
            shown.extend(c.escape_default());
        } else {
            shown.push(c);
        }
    }
    Cow::Owned(shown)
}

/// A file's name in one line. What is no text is shown as a replacement character.
pub fn shown_path(path: &Path) -> String {
    escaped(&path.to_string_lossy(), is_control).into_owned()
}

/// A file's name as a word of the shell, which gives the very same bytes.
pub fn quoted(path: &Path) -> String {
    let name = path.as_os_str();
    // Or it would be an option.
    let front = if name.as_bytes().starts_with(b"-") { "./" } else { "" };
    match name.to_str() {
        Some(text) if !text.contains(is_control) => format!("{front}{}", single_quoted(text)),
        _ => format!("{front}{}", byte_quoted(name)),
    }
}

fn single_quoted(text: &str) -> Cow<'_, str> {
    let is_plain = |c: char| c.is_alphanumeric() || "_-./+,:@%=".contains(c);
    if !text.is_empty() && text.chars().all(is_plain) {
        Cow::Borrowed(text)
    } else {
        Cow::Owned(format!("'{}'", text.replace('\'', r"'\''")))
    }
}

/// In the shell's `$'..'`, where a byte can be written as a number.
fn byte_quoted(name: &OsStr) -> String {
    let byte = |byte: &u8| match byte {
        b'\'' | b'\\' => format!("\\{}", char::from(*byte)),
        b' '..=b'~' => char::from(*byte).to_string(),
        _ => format!("\\{byte:03o}"),
    };
    format!("$'{}'", name.as_bytes().iter().map(byte).collect::<String>())
}

#[cfg(test)]
mod tests {
    use super::*;
    use std::process::Command;

    #[test]
    fn control_characters_are_written_out() {
        assert_eq!(shown_lines("a key\t5 é"), "a key\t5 é");
        assert_eq!(shown_lines("\u{1b}[31mred\u{7}\n"), "\\u{1b}[31mred\\u{7}\n");
        assert_eq!(shown_lines("\u{9b}2J \u{202e}x\u{2069}"), r"\u{9b}2J \u{202e}x\u{2069}");
        assert_eq!(shown_lines("one\n\rtwo\n"), "one\n\\rtwo\n");
        assert_eq!(shown_path(Path::new("a\tb\nc")), r"a\tb\nc");
    }

    #[test]
    fn widths() {
        for (text, columns) in [("", 0), ("Anna", 4), ("é", 1), ("e\u{301}", 1), ("薬箱", 4), ("ﾊ한…", 4), ("🔑", 2)]
        {
            assert_eq!(width(text), columns, "{text}");
        }
        assert!(['\u{61c}', '\u{200f}', '\u{202a}', '\u{2067}', '\u{206f}'].into_iter().all(is_control));
    }

    /// The shell gives back each name as it is.
    #[test]
    fn quoted_names() {
        for name in
            ["s", "my keys.shelf", "it's", "$HOME", "a;b", "-n", "--", "~", "é", "a\nb", "\u{1b}[0m", "*", "a\\b'"]
        {
            let line = format!("printf %s {}", quoted(Path::new(name)));
            let output = Command::new("bash").args(["-c", &line]).output().unwrap();
            let given = String::from_utf8(output.stdout).unwrap();
            assert_eq!(given.strip_prefix("./").unwrap_or(&given), name, "{line}");
        }
        let bytes = OsStr::from_bytes(b"\xff 1");
        assert_eq!(quoted(Path::new(bytes)), r"$'\377 1'");
        assert_eq!(quoted(Path::new("keys.shelf")), "keys.shelf");
        assert_eq!(quoted(Path::new("my keys")), "'my keys'");
    }
}
