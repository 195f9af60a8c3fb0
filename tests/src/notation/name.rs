//! Names of atoms in the notation. A name is a number of 16 bits; a word of one to three
//! characters stands for the number that its characters make in base 37. Words are letters and
//! digits, and start with a letter. A word such as `t12` would look like a term's label, so it is
//! not a name.

const DIGITS: &[u8; 37] = b" abcdefghijklmnopqrstuvwxyz0123456789";
const BASE: u16 = DIGITS.len() as u16;
const LONGEST: usize = 3;

/// The name that the text gives, as a word or in decimal.
pub fn parse(text: &str) -> Option<u16> {
    if is_word(text) {
        let padded = text.bytes().chain(std::iter::repeat(b' ')).take(LONGEST);
        return Some(padded.fold(0, |number, character| number * BASE + digit(character)));
    }
    text.parse().ok().filter(|number: &u16| number.to_string() == text)
}

/// The word of a name that has one.
pub fn word(name: u16) -> Option<String> {
    let characters = [name / BASE / BASE, name / BASE % BASE, name % BASE]
        .map(|digit| DIGITS.get(usize::from(digit)).copied().unwrap_or(b' '));
    let text: String = characters.into_iter().map(char::from).collect();
    let word = text.trim_end();
    (parse(word) == Some(name) && is_word(word)).then(|| word.to_string())
}

fn is_word(text: &str) -> bool {
    text.starts_with(|c: char| c.is_ascii_lowercase())
        && text.bytes().all(|c| c.is_ascii_lowercase() || c.is_ascii_digit())
        && text.len() <= LONGEST
        && !is_label(text)
}

/// Whether the text is `t` and a number.
fn is_label(text: &str) -> bool {
    text.strip_prefix('t').is_some_and(|number| number.parse::<u16>().is_ok())
}

fn digit(character: u8) -> u16 {
    let position = DIGITS.iter().position(|&digit| digit == character);
    position.expect("a word has only these characters") as u16
}

#[cfg(test)]
mod tests {
    use super::*;

    #[test]
    fn every_name_is_read_back_from_its_word() {
        for name in 0..=u16::MAX {
            let text = word(name).unwrap_or_else(|| name.to_string());
            assert_eq!(parse(&text), Some(name), "{text}");
        }
    }

    #[test]
    fn words_keep_their_characters() {
        for text in ["a", "z", "nb", "pab", "k1", "zzz", "t", "tk", "t1a"] {
            assert_eq!(word(parse(text).unwrap()).as_deref(), Some(text));
        }
    }

    #[test]
    fn other_texts_are_no_names() {
        for text in ["", "nonce", "A", "1a", "t1", "t12", "a b", "65536", "01", "-1", "é", "aé"] {
            assert_eq!(parse(text), None, "{text}");
        }
    }
}
