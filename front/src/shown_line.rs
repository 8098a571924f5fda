//! A line of a file as it is shown below a message: its place, as much of it as there is room for, and a mark.

use crate::terminal::{Terminal, columns, columns_of, plain};

/// How many columns of a line are shown at most.
const LONGEST: usize = 150;
/// How many are shown at least beside the name of the file; where there is less room, the name has a line of its own.
const SHORTEST: usize = 30;
/// How far all is indented.
const INDENT: usize = 4;
/// The most bytes of a character of UTF-8.
const LONGEST_CHARACTER: usize = 4;
/// What stands where something is left out.
const DOTS: &str = "..";

/// A line of a file.
#[derive(Debug, Clone, Copy, PartialEq, Eq)]
pub struct ShownLine<'a> {
    /// The name of the file, as it is shown.
    pub name: &'a str,
    /// The line's number, counted from 1.
    pub number: usize,
    /// Its bytes.
    pub line: &'a [u8],
    /// The place in it that is marked.
    pub mark: Option<usize>,
}

impl ShownLine<'_> {
    /// The lines to show, for a terminal of its width. A long line is cut round the mark.
    pub fn lines(&self, terminal: &Terminal) -> Vec<String> {
        // A carriage return before the end of the line is a part of that.
        ShownLine { line: self.line.strip_suffix(b"\r").unwrap_or(self.line), ..*self }.lines_as_they_are(terminal)
    }

    fn lines_as_they_are(&self, terminal: &Terminal) -> Vec<String> {
        let place = format!("{}:{}: ", self.name, self.number);
        let room = terminal.width.saturating_sub(INDENT);
        let beside = room.saturating_sub(columns(&place) + DOTS.len());
        let has_own_line = terminal.is_terminal && beside < SHORTEST && !self.fits(beside);
        let width = match (terminal.is_terminal, has_own_line) {
            (false, _) => LONGEST,
            (true, false) => beside.min(LONGEST),
            (true, true) => room.saturating_sub(DOTS.len()).clamp(2 * DOTS.len() + 1, LONGEST),
        };
        let (shown, before) = self.cut(width);
        let (mut lines, indent) = match has_own_line {
            true => (vec![place.trim_end().to_string(), shown], 0),
            false => (vec![format!("{place}{shown}")], columns(&place)),
        };
        lines.extend(self.mark.map(|_| format!("{}^", " ".repeat(indent + before))));
        lines
    }

    /// Whether the whole line has room.
    fn fits(&self, width: usize) -> bool {
        self.line.len() <= LONGEST_CHARACTER * width && columns(&plain(self.line)) <= width
    }

    /// As much of the line as has room, and how many columns of it stand before the mark.
    fn cut(&self, width: usize) -> (String, usize) {
        let mark = self.mark.unwrap_or(0).min(self.line.len());
        let most_before = if self.fits(width) { width } else { width * 2 / 3 };
        let from = first_of_character(self.line, mark.saturating_sub(LONGEST_CHARACTER * most_before));
        let mut before = plain(&self.line[from.min(mark)..mark]);
        if from > 0 || columns(&before) > most_before {
            before = format!("{DOTS}{}", last_columns(&before, most_before));
        }
        let taken = columns(&before);
        let to = self.line.len().min(mark + LONGEST_CHARACTER * width);
        let behind = plain(&self.line[mark..to]);
        let shown = first_columns(&behind, width.saturating_sub(taken));
        let dots = if shown.len() < behind.len() { DOTS } else { "" };
        (format!("{before}{shown}{dots}"), taken)
    }
}

/// The first place from here on that isn't inside of a character. A line begins with one, whatever its first byte is.
fn first_of_character(line: &[u8], from: usize) -> usize {
    if from == 0 {
        return 0;
    }
    let inside = line[from..].iter().take_while(|byte| **byte & 0xc0 == 0x80).count();
    if inside < LONGEST_CHARACTER { from + inside } else { from }
}

/// The longest prefix of a text that takes at most `most` columns.
pub fn first_columns(text: &str, most: usize) -> &str {
    let mut taken = 0;
    let end = text.char_indices().find(|(_, character)| {
        taken += columns_of(*character);
        taken > most
    });
    &text[..end.map_or(text.len(), |(at, _)| at)]
}

/// The longest suffix of a text that takes at most `most` columns.
fn last_columns(text: &str, most: usize) -> &str {
    let mut taken = 0;
    let before = text.char_indices().rev().find(|(_, character)| {
        taken += columns_of(*character);
        taken > most
    });
    &text[before.map_or(0, |(at, character)| at + character.len_utf8())..]
}

#[cfg(test)]
mod tests {
    use super::*;

    fn lines(line: &[u8], mark: Option<usize>, width: Option<usize>) -> Vec<String> {
        let terminal = width.map_or(Terminal::NONE, |width| Terminal { is_terminal: true, has_colours: false, width });
        ShownLine { name: "d.bib", number: 7, line, mark }.lines(&terminal)
    }

    #[test]
    fn short_lines_are_shown_whole() {
        assert_eq!(lines(b"\tnote 1}", Some(6), None), ["d.bib:7:  note 1}", "               ^"]);
        assert_eq!(lines("nöte 1}".as_bytes(), Some(6), Some(80)), ["d.bib:7: nöte 1}", "              ^"]);
        assert_eq!(lines("田 1}".as_bytes(), Some(4), Some(80)), ["d.bib:7: 田 1}", "            ^"]);
        assert_eq!(lines(b"x", None, None), ["d.bib:7: x"]);
        assert_eq!(lines(b"x\r", Some(2), None), ["d.bib:7: x", "          ^"]);
        assert_eq!(lines(b"\x80 1}", Some(3), None), ["d.bib:7: ? 1}", "            ^"]);
    }

    #[test]
    fn long_lines_are_cut_round_the_mark() {
        let line = [vec![b'x'; 3000], b"!".to_vec(), vec![b'y'; 3000]].concat();
        let shown = lines(&line, Some(3000), None);
        assert_eq!(shown[0], format!("d.bib:7: ..{}!{}..", "x".repeat(100), "y".repeat(47)));
        assert_eq!(shown[1].len(), "d.bib:7: ..".len() + 101);
        assert!(lines(&line, Some(3000), Some(60)).iter().all(|line| line.len() <= 56));
    }

    #[test]
    fn a_narrow_terminal_has_the_name_on_a_line_of_its_own() {
        let shown = lines(b"  author = {Ann Lee} 1984,", Some(21), Some(20));
        assert_eq!(shown[0], "d.bib:7:");
        assert!(shown.iter().all(|line| line.len() <= 16), "{shown:?}");
        assert_eq!(shown[1].chars().nth(shown[2].len() - 1), Some('1'));
        assert!(lines(b"0123456789", Some(5), Some(1)).len() == 3);
        assert_eq!(lines(b"x 1}", Some(2), Some(16)), ["d.bib:7:", "x 1}", "  ^"]);
        assert_eq!(lines(b"x 1}", Some(2), Some(20)), ["d.bib:7: x 1}", "           ^"]);
    }

    #[test]
    fn characters_are_not_cut() {
        let line = "é".repeat(2000);
        assert!(!lines(line.as_bytes(), Some(2000), None)[0].contains('?'));
    }
}
