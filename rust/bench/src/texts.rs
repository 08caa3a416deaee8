//! The texts that are measured: a list of as many lines as a program may have, and texts far longer than that.

/// Each word of the table once, in a line whose operands are legal where there are 256 lines.
const EVERY_WORD: &str = "\
end 0 0 0
set 7 0 0
copy 1 2 0
add 3 4 5
subtract 6 7 0
go 9 0 0
zero 1 9 0
raise 15 0 0
send 1 9 2
take 3 4 0
poll 5 6 9
sandbox 7 9 15
self 0 1 0
count 2 0 0
";

/// A kind of text that is refused, but not before its last byte is read.
pub struct Kind {
    pub name: &'static str,
    /// The number by which it is refused.
    pub number: u8,
    /// Makes a text of that many bytes.
    pub make: fn(usize) -> Vec<u8>,
}

/// All kinds, in the order in which they are printed.
pub const KINDS: [Kind; 4] = [
    Kind { name: "lines, too many of them", number: 5, make: lines },
    Kind { name: "one line, a number above 255 in it", number: 6, make: long_number },
    Kind { name: "lines, the last one without its line feed", number: 16, make: lines_cut },
    Kind { name: "a number that nothing ends", number: 16, make: endless_number },
];

/// The text of 256 lines in which every word has its turn.
pub fn full_list() -> Vec<u8> {
    EVERY_WORD.lines().cycle().take(256).flat_map(|line| [line, "\n"]).collect::<String>().into_bytes()
}

/// Whole lines, if that many bytes are a multiple of 160.
fn lines(length: usize) -> Vec<u8> {
    EVERY_WORD.repeat(length / EVERY_WORD.len()).into_bytes()
}

fn lines_cut(length: usize) -> Vec<u8> {
    let mut text = lines(length);
    text.last_mut().into_iter().for_each(|line_feed| *line_feed = b' ');
    text
}

/// The slowest for the monitor: it looks for each of the three numbers in what is left, and reads on to the end for each.
fn endless_number(length: usize) -> Vec<u8> {
    let mut text = b"end ".to_vec();
    text.resize(length, b'0');
    text
}

fn long_number(length: usize) -> Vec<u8> {
    let mut text = Vec::with_capacity(length);
    text.extend(b"set 0 0 ");
    text.resize(length - 1, b'7');
    text.push(b'\n');
    text
}

#[cfg(test)]
mod tests {
    use super::EVERY_WORD;
    use layout::instructions::TABLE;

    #[test]
    fn every_word_of_the_table_has_its_line() {
        let words: Vec<&str> = EVERY_WORD.lines().filter_map(|line| line.split(' ').next()).collect();
        assert_eq!(words, TABLE.iter().map(|row| row.word).collect::<Vec<&str>>());
    }
}
