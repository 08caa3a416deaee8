//! A page that has not the form of examples, or says something else than the monitor, is a fault with its line.

use pages::{compare, Compared};

const PAGE: &str = "\
# A page

```example
program
    raise 1 0 0
slot 0  register 7 9

after 0 turns, observer 0
slot kind label spare pc mail
0 1 0 0 0 0
register 7 of slot 0 is 9
instruction 0 is raise 1 0 0
after 1 turn, observer 0
slot kind label spare pc mail
after 1 turn, observer 16
refused 1
```
```example
turn 16
program
    end 0 0 0
after 1 turn, observer 0
refused 7
```
";

const LISTINGS: &str = "\
```example
program
again:
    set 1 0 7   # seven
    go again 0 0
listing
set 1 0 7
go 0 0 0
```
```example
program
    end 0 0 0
slot 0
listing
end 0 0 0
after 16 turns, observer 0
slot kind label spare pc mail
0 2 0 0 0 0
```
";

const POSTS: &str = "\
```example
program
    raise 2 0 0
slot 1
after 1 turn, post 5 with label 2 to slot 1: delivered
after 1 turn, post 6 with label 2 to slot 0: dropped
after 2 turns, post 7 with label 16 to slot 1: refused 15
after 3 turns, observer 2
slot kind label spare pc mail
1 1 2 0 1 1
```
";

/// Slot 0 rises out of observer 4's view. The second desk shows that each begins with the image as it was at the start.
const DESKS: &str = "\
```example
program
    raise 8 0 0
    end 0 0 0
slot 0  label 4  register 7 9
slot 1  label 8
after 2 turns, post 5 with label 4 to slot 1: delivered
after 2 turns, observer 4
slot kind label spare pc mail
on the desk of observer 4
after 0 turns, observer 4
slot kind label spare pc mail
0 1 4 0 0 0
after 2 turns, post 6 with label 4 to slot 1: dropped
after 2 turns, observer 12
slot kind label spare pc mail
0 1 12 0 1 0
register 7 of slot 0 is 9
on the desk of observer 8
after 0 turns, post 7 with label 8 to slot 1: delivered
after 0 turns, observer 15
slot kind label spare pc mail
1 1 8 0 0 1
```
";

/// Registers stand a byte further on in version 2; the neighbours of those asked for have other values.
const VERSION_2: &str = "\
```example
version 2
program
    raise 8 0 0
slot 3  label 2  clearance 7  spare 1  register 0 9  register 6 16777216  register 7 3  message 2 host 5
after 16 turns, observer 2
slot kind label spare pc mail
3 6 2 1 0 1
register 0 of slot 3 is 9
register 6 of slot 3 is 16777216
register 7 of slot 3 is 3
```
";

#[test]
fn everything_is_counted() {
    let none = Compared::default;
    assert_eq!(compare(PAGE), Ok(Compared { images: 2, sheets: 4, registers: 1, instructions: 1, ..none() }));
    assert_eq!(compare(LISTINGS), Ok(Compared { images: 2, listings: 2, sheets: 1, ..none() }));
    assert_eq!(compare(POSTS), Ok(Compared { images: 1, posts: 3, sheets: 1, ..none() }));
    assert_eq!(compare(DESKS), Ok(Compared { images: 1, posts: 3, sheets: 4, desks: 2, registers: 1, ..none() }));
    assert_eq!(compare(VERSION_2), Ok(Compared { images: 1, sheets: 1, registers: 3, ..none() }));
    assert_eq!(compare("# No example\n"), Ok(none()));
}

#[test]
fn a_step_that_is_refused_runs_no_turn() {
    let ahead = "after 1000001 turns, observer 0\nrefused 2\n";
    let page = POSTS.replace("after 1 turn, post 5", &format!("{ahead}after 1 turn, post 5"));
    assert_eq!(compare(&page).map(|compared| compared.sheets), Ok(2));
}

/// A page with one change has this fault.
fn expect_fault_in(page: &str, from: &str, to: &str, should: &str) {
    assert_eq!(page.matches(from).count(), 1, "{from}");
    let fault = compare(&page.replace(from, to)).expect_err(to);
    assert_eq!(fault.to_string(), should);
}

fn expect_fault(from: &str, to: &str, should: &str) {
    expect_fault_in(PAGE, from, to, should);
}

#[test]
fn what_the_monitor_does_not_give() {
    let sheet = "slot kind label spare pc mail\n0 1 0 0 0 0\n";
    expect_fault("\n0 1 0 0 0 0\n", "\n0 1 0 0 1 0\n", &format!("8: the monitor gives\n{sheet}"));
    expect_fault("\n0 1 0 0 0 0\n", "\n0 1 0 0 0 0\n\n", &format!("8: the monitor gives\n{sheet}"));
    expect_fault("after 0 turns", "after 1 turns", "8: the monitor gives\nslot kind label spare pc mail\n");
    expect_fault("refused 1", "refused 2", "15: the monitor gives\nrefused 1\n");
    expect_fault("is 9", "is 8", "11: the monitor gives 9");
    expect_fault("register 7 of", "register 8 of", "11: the observer is shown no such register");
    expect_fault("of slot 0", "of slot 1", "11: the observer is shown no such register");
    for wrong in ["raise 2 0 0", "rise 1 0 0", "raise 1 0", "raise 1  0 0"] {
        expect_fault("is raise 1 0 0", &format!("is {wrong}"), "12: the lister gives `raise 1 0 0`");
    }
    expect_fault("instruction 0", "instruction 1", "12: the observer is shown no such instruction");
    expect_fault("refused 1", "refused 1\ninstruction 0 is end 0 0 0", "17: the observer is shown no such instruction");
}

#[test]
fn what_the_monitor_does_not_give_of_version_2() {
    let expect = |from: &str, to: &str, should: &str| expect_fault_in(VERSION_2, from, to, should);
    expect("version 2\n", "", "4: an image of version 1 has no clearances: one of `version 2` has");
    expect("clearance 7", "clearance 10", "6: the monitor gives\nslot kind label spare pc mail\n");
    expect("clearance 7", "clearance 5", "6: the monitor gives\nrefused 9\n");
    expect("3 6 2 1 0 1", "3 4 2 1 0 1", "6: the monitor gives\nslot kind label spare pc mail\n3 6 2 1 0 1\n");
    expect("is 9", "is 8", "9: the monitor gives 9");
    expect("is 3", "is 4", "11: the monitor gives 3");
    expect("register 7 of", "register 8 of", "11: the observer is shown no such register");
}

#[test]
fn what_has_not_the_form() {
    expect_fault("```example\nprogram", "```\nprogram", "3: the block's word is ``, not `example`");
    expect_fault("```example\nprogram", "```exmaple\nprogram", "3: the block's word is `exmaple`, not `example`");
    expect_fault("refused 1\n```", "refused 1", "3: this block is not closed");
    expect_fault("refused 7\n```", "refused 7", "18: this block is not closed");
    expect_fault("    raise 1", "    rise 1", "5: `rise` is not an instruction");
    expect_fault("    raise 1", "    raise 16", "5: `raise` takes a label, 0 to 15, as its first operand, not 16");
    expect_fault("after 0 turns,", "after 0 turns", "8: `after 0 turns observer 0` is not `after N turns, observer V`");
    expect_fault(
        "turn, observer 16",
        "turn, observer x",
        "15: `after 1 turn, observer x` is not `after N turns, observer V`",
    );
    expect_fault("slot 0 is 9", "slot 0: 9", "11: `register 7 of slot 0: 9` is not `register R of slot S is VALUE`");
    for wrong in ["0: raise 1 0 0", "x is raise 1 0 0"] {
        let should = format!("12: `instruction {wrong}` is not `instruction P is WORD A B C`");
        expect_fault("0 is raise 1 0 0", wrong, &should);
    }
    let no_step = "18: this example has no line `listing` or `after N turns, observer V`";
    expect_fault("    end 0 0 0\nafter 1 turn, observer 0\nrefused 7\n", "    end 0 0 0\n", no_step);
}

#[test]
fn listings_that_the_lister_gives_otherwise() {
    let expect = |from: &str, to: &str, should: &str| expect_fault_in(LISTINGS, from, to, should);
    let first = "6: the lister gives\nset 1 0 7\ngo 0 0 0\n";
    expect("\nset 1 0 7\n", "\nset 1 0 8\n", first);
    expect("\nset 1 0 7\n", "\nset 1 0 7 # seven\n", first);
    expect("\ngo 0 0 0\n", "\n", first);
    expect("\ngo 0 0 0\n", "\ngo again 0 0\n", first);
    expect("listing\nend 0 0 0\n", "listing\n", "14: the lister gives\nend 0 0 0\n");
    let no_step = "1: this example has no line `listing` or `after N turns, observer V`";
    expect("go again 0 0\nlisting\n", "go again 0 0\nlistings\n", no_step);
}

#[test]
fn posts_that_the_monitor_tells_otherwise() {
    let expect = |from: &str, to: &str, should: &str| expect_fault_in(POSTS, from, to, should);
    expect("delivered", "dropped", "5: the monitor tells `delivered`");
    expect("dropped", "delivered", "6: the monitor tells `dropped`");
    expect("slot 0: dropped", "slot 16: dropped", "6: the monitor tells `refused 14`");
    expect("refused 15", "refused 14", "7: the monitor tells `refused 15`");
    expect("slot 1\n", "slot 1 kind 9\n", "5: the monitor tells `refused 9`");
    expect("label 16 to", "label 2 to", "7: the monitor tells `delivered`");
    expect("1 1 2 0 1 1", "1 1 2 0 1 0", "8: the monitor gives\nslot kind label spare pc mail\n1 1 2 0 1 1\n");
    expect("after 3 turns", "after 1 turn", "8: 2 turns were run before this line");
}

#[test]
fn posts_that_have_not_the_form() {
    let form = "after N turns, post VALUE with label L to slot S: TOLD";
    let expect = |from: &str, to: &str, line: &str| {
        let should = format!("6: `{line}` is not `{form}`");
        expect_fault_in(POSTS, from, to, &should);
    };
    expect("0: dropped", "0, dropped", "after 1 turn, post 6 with label 2 to slot 0, dropped");
    expect("post 6", "post six", "after 1 turn, post six with label 2 to slot 0: dropped");
    expect("6 with", "6 of", "after 1 turn, post 6 of label 2 to slot 0: dropped");
    expect_fault_in(POSTS, "dropped", "dropped\nmail", "7: `mail` is not `after N turns, observer V`");
}

#[test]
fn desks_of_which_the_monitor_gives_something_else() {
    let expect = |from: &str, to: &str, should: &str| expect_fault_in(DESKS, from, to, should);
    let head = "slot kind label spare pc mail\n";
    expect("0 1 4 0 0 0", "0 1 4 0 1 0", &format!("11: the monitor gives\n{head}0 1 4 0 0 0\n"));
    expect("dropped", "delivered", "14: the monitor tells `dropped`");
    expect("after 2 turns, observer 12", "after 1 turn, observer 12", "15: 2 turns were run before this line");
    expect("observer 12\n", "observer 4\n", &format!("15: the monitor gives\n{head}"));
    expect("is 9", "is 8", "18: the monitor gives 9");
    expect(
        "desk of observer 8",
        "desk of observer 12",
        &format!("21: the monitor gives\n{head}0 1 4 0 0 0\n1 1 8 0 0 1\n"),
    );
    expect("desk of observer 8", "desk of observer 4", "20: the monitor tells `dropped`");
}

#[test]
fn desks_whose_view_is_refused() {
    for observer in ["16", "4294967295"] {
        let line = format!("on the desk of observer {observer}\n");
        expect_fault_in(DESKS, "on the desk of observer 4\n", &line, "10: the view is refused 1");
        expect_fault_in(DESKS, "on the desk of observer 8\n", &line, "19: the view is refused 1");
    }
    let desk = "refused 7\non the desk of observer 0\nafter 1 turn, observer 0\nrefused 7\n";
    expect_fault("refused 7\n", desk, "24: the view is refused 7");
}

#[test]
fn desks_that_have_not_the_form() {
    let form = "on the desk of observer V";
    for wrong in ["on the desk of observer x", "on the desk of observer", "on the desk of 4", "on a desk", "on"] {
        let (line, should) = (format!("{wrong}\n"), format!("10: `{wrong}` is not `{form}`"));
        expect_fault_in(DESKS, "on the desk of observer 4\n", &line, &should);
    }
    for wrong in ["-1", "4294967296", "8 and 4", " 8"] {
        let should = format!("19: `on the desk of observer {wrong}` is not `{form}`");
        expect_fault_in(DESKS, "desk of observer 8", &format!("desk of observer {wrong}"), &should);
    }
    let expect = |from: &str, to: &str, should: &str| expect_fault_in(DESKS, from, to, should);
    expect("desk of observer 4\n", "desk of observer 4\nmail\n", "11: `mail` is not `after N turns, observer V`");
}

#[test]
fn desks_without_a_step_behind_or_ahead() {
    let expect = |from: &str, to: &str, should: &str| expect_fault_in(DESKS, from, to, should);
    let (first, second) = ("on the desk of observer 4\n", "on the desk of observer 8\n");
    expect(second, &format!("{first}{second}"), "19: this desk has no step");
    expect("1 1 8 0 0 1\n", &format!("1 1 8 0 0 1\n{first}"), "24: this desk has no step");
    let (slots, listing) = ("slot 1  label 8\n", "listing\nraise 8 0 0\nend 0 0 0\n");
    let none_ahead = "this desk has no step of the whole image ahead of it";
    expect(slots, &format!("{slots}{first}"), &format!("7: {none_ahead}"));
    expect(slots, &format!("{slots}{listing}{first}"), &format!("10: {none_ahead}"));
}
