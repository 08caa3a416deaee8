//! docs/TASKS.md: every example gives what the page says, there are as many as the page says, and it has the table of
//! instructions and where the fields of a record stand; the lines of its table of refusals are refused with the numbers beside
//! them.

use layout::instructions::{Operand, Row, TABLE};
use layout::{clearance_length, place_at, registers_at, task_length, MESSAGE_LENGTH, VERSIONS};
use pages::{compare, Compared};
use rithennaw::assemble;

const PAGE: &str = include_str!("../../../docs/TASKS.md");

/// So many things, in words.
fn counted((count, thing): (usize, &str)) -> String {
    format!("{count} {thing}{}", if count == 1 { "" } else { "s" })
}

#[test]
fn the_page_says_what_the_monitor_gives() {
    let Compared { images, listings, posts, sheets, desks, registers, instructions } =
        compare(PAGE).unwrap_or_else(|fault| panic!("docs/TASKS.md:{fault}"));
    let ahead = [(images, "image"), (listings, "listing"), (posts, "post")].map(counted).join(", ");
    let behind = [(sheets, "sheet"), (desks, "desk"), (registers, "register")].map(counted).join(", ");
    let found = format!("{ahead}, {behind} and {}", counted((instructions, "instruction")));
    assert!(
        images >= 5 && PAGE.contains(&found),
        "docs/TASKS.md says another number of examples than was found: {found}"
    );
}

/// The rows of the page's table that begins so.
fn rows(head: &str) -> impl Iterator<Item = &'static str> + '_ {
    let rows = PAGE.lines().skip_while(move |line| !line.starts_with(head)).skip(2);
    rows.take_while(|line| line.starts_with('|'))
}

/// The beginning of an instruction's row on the page. Operands that may be any byte are called b and c there.
fn on_page(Row { word, operands, .. }: &Row) -> String {
    let shown = ["a", "b", "c"].into_iter().zip(operands).map(|(name, operand)| match operand {
        Operand::Nothing => "0",
        Operand::Any => name,
        Operand::Register => "R",
        Operand::Target => "T",
        Operand::Label => "L",
        Operand::Size => "size",
    });
    format!("| `{word}` | {} | ", shown.collect::<Vec<_>>().join(" "))
}

#[test]
fn the_page_has_the_table_of_instructions() {
    let rows: Vec<_> = rows("| word | operands |").collect();
    assert_eq!(rows.len(), TABLE.len());
    for (row, instruction) in rows.iter().zip(TABLE) {
        assert!(row.starts_with(&on_page(instruction)), "{row}, and not {}", on_page(instruction));
    }
}

/// The offsets of kind, label, clearance, spare, place, registers and messages.
fn offsets(version: u8) -> [String; 7] {
    let clearance = if clearance_length(version) == 0 { "none".into() } else { "2".into() };
    let [spare, place] = [place_at(version) - 1, place_at(version)].map(|offset| offset.to_string());
    let registers = format!("{} + 4 × r", registers_at(version));
    let messages = format!("{} + {MESSAGE_LENGTH} × m", task_length(version));
    ["0".into(), "1".into(), clearance, spare, place, registers, messages]
}

#[test]
fn the_page_has_the_offsets_and_lengths_of_records() {
    for (version, column) in VERSIONS.into_iter().zip(1..) {
        let rows = rows("| offset in version 1 | offset in version 2 |");
        let on_page: Vec<&str> = rows.filter_map(|row| row.split('|').nth(column)).map(str::trim).collect();
        assert_eq!(on_page, offsets(version));
        let length = format!("{} + {MESSAGE_LENGTH} × k bytes in version {version}", task_length(version));
        assert!(PAGE.contains(&length), "docs/TASKS.md does not say {length}");
    }
}

/// The lines between backticks in the last column, each as a text of its own; the first column has the number.
#[test]
fn the_lines_of_the_table_of_refusals_are_refused() {
    let mut numbers = Vec::new();
    for row in rows("| number | what is wrong with the text |") {
        let cells: Vec<&str> = row.split('|').map(str::trim).collect();
        let number: u8 = cells[1].parse().unwrap();
        numbers.push(number);
        for line in cells[3].split('`').skip(1).step_by(2) {
            let refusal = assemble(format!("{line}\n")).expect_err(line);
            assert_eq!(refusal.number(), number, "{line}");
        }
    }
    assert_eq!(numbers, [16, 5, 6, 13]);
}
