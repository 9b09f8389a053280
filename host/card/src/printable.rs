//! A field as text for a terminal: what would not show, or would turn or hide what stands
//! beside it, is shown by its bytes.

/// A field as text: a backslash is shown as two, what is no printable text as \xNN for
/// each byte.
pub fn printable(field: &[u8]) -> String {
    let mut text = String::new();
    for part in field.utf8_chunks() {
        for character in part.valid().chars() {
            match character {
                '\\' => text.push_str("\\\\"),
                c if c.is_control() || is_unseen(c) => {
                    by_number(&mut text, c.encode_utf8(&mut [0; 4]).as_bytes());
                }
                c => text.push(c),
            }
        }
        by_number(&mut text, part.invalid());
    }
    text
}

/// Adds bytes as \xNN.
fn by_number(text: &mut String, bytes: &[u8]) {
    for byte in bytes {
        text.push_str(&format!("\\x{byte:02X}"));
    }
}

/// Characters without a shape of their own: Unicode's format characters, among them the
/// marks of direction, its line and paragraph separators, and all else that it calls
/// ignorable by default.
fn is_unseen(c: char) -> bool {
    UNSEEN
        .iter()
        .any(|(first, last)| (*first..=*last).contains(&c))
}

const UNSEEN: [(char, char); 25] = [
    ('\u{AD}', '\u{AD}'),
    ('\u{34F}', '\u{34F}'),
    ('\u{600}', '\u{605}'),
    ('\u{61C}', '\u{61C}'),
    ('\u{6DD}', '\u{6DD}'),
    ('\u{70F}', '\u{70F}'),
    ('\u{890}', '\u{891}'),
    ('\u{8E2}', '\u{8E2}'),
    ('\u{115F}', '\u{1160}'),
    ('\u{17B4}', '\u{17B5}'),
    ('\u{180B}', '\u{180F}'),
    ('\u{200B}', '\u{200F}'),
    ('\u{2028}', '\u{202E}'),
    ('\u{2060}', '\u{206F}'),
    ('\u{3164}', '\u{3164}'),
    ('\u{FE00}', '\u{FE0F}'),
    ('\u{FEFF}', '\u{FEFF}'),
    ('\u{FFA0}', '\u{FFA0}'),
    ('\u{FFF0}', '\u{FFFB}'),
    ('\u{110BD}', '\u{110BD}'),
    ('\u{110CD}', '\u{110CD}'),
    ('\u{13430}', '\u{1343F}'),
    ('\u{1BCA0}', '\u{1BCA3}'),
    ('\u{1D173}', '\u{1D17A}'),
    ('\u{E0000}', '\u{E0FFF}'),
];

#[cfg(test)]
mod tests {
    use super::printable;

    #[test]
    fn bytes_are_shown_as_text_or_by_number() {
        assert_eq!(printable(b"Kite"), "Kite");
        assert_eq!(
            printable("Käthe 図書 كتاب é 🪁".as_bytes()),
            "Käthe 図書 كتاب é 🪁"
        );
        assert_eq!(printable(b"a\\b\n\x85"), "a\\\\b\\x0A\\x85");
    }

    /// Every mark of direction, the first and last of the other kinds.
    #[test]
    fn what_is_not_seen_is_shown_by_number() {
        let marks = "\u{61C}\u{200E}\u{200F}\u{202A}\u{202B}\u{202C}\u{202D}\u{202E}\
                     \u{2066}\u{2067}\u{2068}\u{2069}";
        let others = "\u{7F}\u{80}\u{9B}\u{9F}\u{AD}\u{200B}\u{200C}\u{200D}\u{2028}\u{2029}\
                      \u{2060}\u{206F}\u{FEFF}\u{FFF9}\u{FFFB}\u{E0001}\u{E007F}\u{1D173}";
        for c in marks.chars().chain(others.chars()) {
            let text = c.to_string();
            let wanted: String = text.bytes().map(|b| format!("\\x{b:02X}")).collect();
            assert_eq!(printable(text.as_bytes()), wanted, "{c:?}");
        }
    }
}
