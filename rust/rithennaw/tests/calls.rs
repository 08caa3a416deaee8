//! Every call, those that write in both forms: they agree, refuse what the scope document and its change requests refuse, and
//! take empty slices and extreme numbers.

use rithennaw::{
    assemble, assemble_into, check, disassemble, disassemble_into, post, post_into, record, record_range, rewrite,
    rewrite_into, sheet, sheet_into, turns, turns_into, view, view_into, Label, Posted, PostedInto, Refusal, Turned,
    TurnedInto, HOST, IMAGE_MAX, IMAGE_MIN, LISTING_MAX, PROGRAM_MAX, TURNS_MAX,
};

/// The image of a text whose form is right.
fn image(text: &str) -> Vec<u8> {
    imagetext::image(text).unwrap()
}

/// Slot 0, label 1, sends 700 to slot 1 with label 1; both then end.
fn sender_and_receiver() -> Vec<u8> {
    image(
        "program
            send 1 1 2
        ended:
            end 0 0 0
        slot 0  label 1  register 1 1  register 2 700
        slot 1  place ended",
    )
}

/// What a call that writes into a buffer gave: the bytes at its front, those behind them being as they were.
fn front<T>(
    length: usize, call: impl Fn(&mut [u8]) -> Result<T, Refusal>, told: impl Fn(T) -> usize,
) -> Option<Vec<u8>> {
    let mut out = vec![0xa5; IMAGE_MAX];
    let (room, behind) = out.split_at_mut(length);
    let told = call(room).ok().map(told);
    let written = told.unwrap_or(0);
    assert!(room[written..].iter().chain(behind.iter()).all(|&byte| byte == 0xa5), "a byte behind the answer changed");
    told.map(|length| room[..length].to_vec())
}

/// A call in both forms: into a long buffer, one that is just enough and one that is a byte too short.
fn agree<T>(allocated: &[u8], call: impl Fn(&mut [u8]) -> Result<T, Refusal>, told: impl Fn(T) -> usize) {
    let length = allocated.len();
    assert_eq!(front(IMAGE_MAX, &call, &told).as_deref(), Some(allocated));
    assert_eq!(front(length, &call, &told).as_deref(), Some(allocated));
    assert_eq!(front(length - 1, &call, &told), None);
    assert_eq!(call(&mut vec![0; length - 1]).err(), Some(Refusal::Output));
    assert_eq!(call(&mut []).err(), Some(Refusal::Output));
}

#[test]
fn both_forms_agree_on_an_accepted_image() {
    let image = sender_and_receiver();
    let sent = turns(&image, 1).unwrap();
    assert_eq!((check(&image), check(&sent.image)), (Ok(()), Ok(())));
    assert_eq!((sent.image.len(), sent.busy), (image.len() + 6, 1));
    agree(&rewrite(&image).unwrap(), |out| rewrite_into(&image, out), |length| length);
    agree(&sent.image, |out| turns_into(&image, 1, out), |told: TurnedInto| told.length);
    assert_eq!(turns_into(&image, 1, &mut [0; IMAGE_MAX]).map(|told| told.busy), Ok(1));
    for (slot, delivered) in [(1, true), (2, false)] {
        let posted = post(&image, slot, 1, 700).unwrap();
        agree(&posted.image, |out| post_into(&image, slot, 1, 700, out), |told: PostedInto| told.length);
        assert_eq!(posted.delivered, delivered);
        assert_eq!(post_into(&image, slot, 1, 700, &mut [0; IMAGE_MAX]).map(|told| told.delivered), Ok(delivered));
    }
    for observer in Label::all() {
        agree(&view(&sent.image, observer).unwrap(), |out| view_into(&sent.image, observer, out), |length| length);
        agree(&sheet(&sent.image, observer).unwrap(), |out| sheet_into(&sent.image, observer, out), |length| length);
    }
}

#[test]
fn a_record_is_a_part_of_the_image() {
    let image = sender_and_receiver();
    assert_eq!(record_range(&image, 0), 14..51);
    assert_eq!(record_range(&image, 1), 53..90);
    assert_eq!(record(&image, 1), &image[53..90]);
    assert!(std::ptr::eq(record(&image, 1), &image[53..90]));
    for slot in [2, 15, 16, 255, u32::MAX] {
        assert_eq!((record(&image, slot), record_range(&image, slot)), (&[][..], 0..0), "slot {slot}");
    }
    let cut = &image[..image.len() - 1];
    assert_eq!((record(cut, 1), record_range(cut, 1)), (&[][..], 0..0));
}

/// A task in slot 3 with label 1 that takes a message, and has these fields too.
fn receiver(fields: &str) -> Vec<u8> {
    image(&format!("program\n take 1 2 0\nslot 3 label 1 {fields}"))
}

#[test]
fn a_post_joins_the_end_of_the_mailbox() {
    let before = receiver("message 2 0 1");
    for label in Label::all() {
        let image = receiver(&format!("message 2 0 1 message {label} host {}", u32::MAX));
        assert_eq!(post(&before, 3, label, u32::MAX), Ok(Posted { image, delivered: true }));
    }
}

#[test]
fn a_post_without_room_or_a_live_task_is_dropped() {
    let dropped = |image: Vec<u8>, slot: u32| {
        let told = post(&image, slot, 2, 700);
        assert_eq!(told, Ok(Posted { image, delivered: false }));
    };
    dropped(receiver(&"message 2 0 1 ".repeat(4)), 3);
    dropped(receiver(""), 4);
    for kind in 2..=5 {
        dropped(receiver(&format!("kind {kind}")), 3);
    }
    dropped(cleared("end 0 0 0", "kind 6"), 0);
}

/// A task of version 2 in slot 0 that has one instruction, and these fields.
fn cleared(instruction: &str, fields: &str) -> Vec<u8> {
    image(&format!("version 2\nprogram\n {instruction}\nslot 0 {fields}"))
}

#[test]
fn a_raise_that_would_leave_the_clearance_stops_the_task() {
    let before = cleared("raise 2 0 0", "label 1 clearance 5");
    let after = turns(&before, 16).unwrap();
    assert_eq!((after.image, after.busy), (cleared("raise 2 0 0", "kind 6 label 1 clearance 5"), 1));
}

#[test]
fn a_raise_within_the_clearance_is_made() {
    let before = cleared("raise 2 0 0", "label 1 clearance 7");
    let after = turns(&before, 16).unwrap().image;
    assert_eq!(record(&after, 0), record(&cleared("raise 2 0 0", "label 3 clearance 7 place 1"), 0));
}

#[test]
fn a_receiver_is_told_that_the_host_posted() {
    let posted = post(&receiver(""), 3, 1, 700).unwrap();
    let received = turns(&posted.image, 4).unwrap();
    let should = receiver(&format!("place 1 register 1 700 register 2 {HOST}"));
    assert_eq!(record(&received.image, 3), record(&should, 3));
}

#[test]
fn the_shortest_image_is_taken_by_every_call() {
    let image = image("program\n end 0 0 0");
    assert_eq!(image.len(), IMAGE_MIN);
    assert_eq!(check(&image), Ok(()));
    assert_eq!(rewrite(&image).as_ref(), Ok(&image));
    assert_eq!(turns(&image, 0), Ok(Turned { image: image.clone(), busy: 0 }));
    assert_eq!(post(&image, 0, 0, 0), Ok(Posted { image: image.clone(), delivered: false }));
    assert_eq!(view(&image, 0).as_ref(), Ok(&image));
    assert_eq!(sheet(&image, 0).as_deref(), Ok(&b"slot kind label spare pc mail\n"[..]));
}

/// What every call refuses an image with, in both forms, whatever the buffer's length.
fn refused(image: &[u8], refusal: Refusal) {
    for length in [0, 1, IMAGE_MAX] {
        let mut out = vec![0xa5; length];
        assert_eq!(rewrite_into(image, &mut out), Err(refusal));
        assert_eq!(turns_into(image, 1, &mut out), Err(refusal));
        assert_eq!(post_into(image, 1, 0, 700, &mut out), Err(refusal));
        assert_eq!(view_into(image, 0, &mut out), Err(refusal));
        assert_eq!(sheet_into(image, 0, &mut out), Err(refusal));
        assert!(out.iter().all(|&byte| byte == 0xa5), "a refused call wrote");
    }
    assert_eq!(check(image), Err(refusal));
    assert_eq!(rewrite(image), Err(refusal));
    assert_eq!(turns(image, TURNS_MAX), Err(refusal));
    assert_eq!(post(image, 15, Label::TOP, u32::MAX), Err(refusal));
    assert_eq!(view(image, Label::TOP), Err(refusal));
    assert_eq!(sheet(image, Label::TOP), Err(refusal));
    assert_eq!((record(image, 0), record_range(image, 0)), (&[][..], 0..0));
}

#[test]
fn an_image_that_breaks_a_rule_is_refused_by_every_call() {
    let image = sender_and_receiver();
    let changed = |at: usize, byte: u8| {
        let mut image = image.clone();
        image[at] = byte;
        image
    };
    refused(&[], Refusal::Short);
    refused(&image[..image.len() - 1], Refusal::Short);
    refused(&changed(0, 0), Refusal::Version);
    refused(&changed(0, 3), Refusal::Version);
    refused(&changed(0, 2), Refusal::RecordLength);
    refused(&changed(2, 9), Refusal::ProgramLength);
    refused(&changed(3, 255), Refusal::Instruction);
    refused(&changed(11, 16), Refusal::TurnSlot);
    refused(&changed(13, 36), Refusal::RecordLength);
    refused(&changed(14, 6), Refusal::TaskField);
    refused(&cleared("end 0 0 0", "kind 7"), Refusal::TaskField);
    refused(&cleared("end 0 0 0", "clearance 16"), Refusal::TaskField);
    refused(&cleared("end 0 0 0", "label 3 clearance 5"), Refusal::TaskField);
    refused(&[&image[..], &[0]].concat(), Refusal::Tail);
    refused(&changed(16, 1), Refusal::Estate);
    let sent = turns(&image, 1).unwrap().image;
    let sender_at = record_range(&sent, 1).end - 5;
    refused(&[&sent[..sender_at], &[HOST + 1], &sent[sender_at + 1..]].concat(), Refusal::Mail);
}

#[test]
fn extreme_numbers_are_refused_ahead_of_the_image() {
    let accepted = sender_and_receiver();
    for image in [&accepted[..], &[]] {
        for observer in [16, 255, 256, u32::MAX] {
            assert_eq!(view(image, observer), Err(Refusal::Observer));
            assert_eq!(view_into(image, observer, &mut []), Err(Refusal::Observer));
            assert_eq!(sheet(image, observer), Err(Refusal::Observer));
            assert_eq!(sheet_into(image, observer, &mut []), Err(Refusal::Observer));
        }
        for count in [TURNS_MAX + 1, u64::from(u32::MAX) + 1, u64::MAX] {
            assert_eq!(turns(image, count), Err(Refusal::TurnLimit));
            assert_eq!(turns_into(image, count, &mut []), Err(Refusal::TurnLimit));
        }
        for above in [16, 255, 256, u32::MAX] {
            assert_eq!(post(image, above, above, 0), Err(Refusal::PostSlot));
            assert_eq!(post_into(image, above, 0, 0, &mut []), Err(Refusal::PostSlot));
            assert_eq!(post(image, 0, above, 0), Err(Refusal::PostLabel));
            assert_eq!(post_into(image, 15, above, 0, &mut []), Err(Refusal::PostLabel));
        }
    }
    assert_eq!(turns(&accepted, TURNS_MAX).map(|turned| turned.busy), Ok(3));
}

/// A text and its program: each gives the other, in both forms.
fn stand_for_each_other(text: &str, program: &[u8]) {
    assert_eq!(assemble(text).as_deref(), Ok(program), "{text}");
    assert_eq!(disassemble(program).as_deref(), Ok(text), "{text}");
    agree(program, |out| assemble_into(text, out), |length| length);
    agree(text.as_bytes(), |out| disassemble_into(program, out), |length| length);
}

#[test]
fn a_text_and_its_program_give_each_other() {
    let image = sender_and_receiver();
    stand_for_each_other("send 1 1 2\nend 0 0 0\n", &image[3..11]);
    stand_for_each_other("end 0 0 0\n", &[0; 4]);
    stand_for_each_other("go 2 0 0\nset 7 255 0\npoll 1 2 0\n", &[5, 2, 0, 0, 1, 7, 255, 0, 10, 1, 2, 0]);
    assert_eq!(assemble(b"self 0 1 0\n"), Ok(vec![12, 0, 1, 0]));
}

#[test]
fn the_longest_program_and_its_listing_have_the_lengths_of_the_constants() {
    let (text, program) = ("sandbox 7 255 15\n".repeat(256), [11, 7, 255, 15].repeat(256));
    assert_eq!((program.len(), text.len()), (PROGRAM_MAX, LISTING_MAX));
    stand_for_each_other(&text, &program);
}

/// What a text is refused with in both forms, whatever the buffer's length.
fn refused_text(text: impl AsRef<[u8]>, refusal: Refusal) {
    let text = text.as_ref();
    for length in [0, 1, IMAGE_MAX] {
        let mut out = vec![0xa5; length];
        assert_eq!(assemble_into(text, &mut out), Err(refusal), "{text:?}");
        assert!(out.iter().all(|&byte| byte == 0xa5), "a refused call wrote");
    }
    assert_eq!(assemble(text), Err(refusal), "{text:?}");
}

/// Texts that are no list of lines.
const NO_LISTS: [&str; 16] = [
    "\n",
    "end 0 0 0",
    "end 0 0 0\r\n",
    "end 0 0 0\n\n",
    "end 0 0 0\n\0",
    "End 0 0 0\n",
    "halt 0 0 0\n",
    "end 0 0\n",
    "end 0 0 0 0\n",
    " end 0 0 0\n",
    "end  0 0 0\n",
    "end 0 0 0 \n",
    "end 0 0 0\u{a0}\n",
    "end 0 0 00\n",
    "end 0 0 -1\n",
    "# end\n",
];

#[test]
fn a_text_is_refused_with_16_then_5_then_6() {
    for text in NO_LISTS {
        refused_text(text, Refusal::Text);
        refused_text("set 8 0 0\n".repeat(257) + text, Refusal::Text);
    }
    refused_text(b"end 0 0 \xff\n", Refusal::Text);
    refused_text("", Refusal::ProgramLength);
    refused_text("end 0 0 0\n".repeat(257), Refusal::ProgramLength);
    refused_text("set 8 0 0\n".repeat(257), Refusal::ProgramLength);
    for line in ["set 8 0 0\n", "end 0 0 1\n", "go 1 0 0\n", "raise 16 0 0\n", "sandbox 0 0 0\n", "set 0 0 256\n"] {
        refused_text(line, Refusal::Instruction);
    }
    refused_text(format!("set 0 0 1{}\n", "0".repeat(100_000)), Refusal::Instruction);
}

#[test]
fn a_program_is_refused_with_5_then_6() {
    let refused = |program: &[u8], refusal: Refusal| {
        for length in [0, 1, IMAGE_MAX] {
            let mut out = vec![0xa5; length];
            assert_eq!(disassemble_into(program, &mut out), Err(refusal), "{program:?}");
            assert!(out.iter().all(|&byte| byte == 0xa5), "a refused call wrote");
        }
        assert_eq!(disassemble(program), Err(refusal), "{program:?}");
    };
    for length in [0, 1, 3, 5, PROGRAM_MAX + 1, PROGRAM_MAX + 4, 70_000] {
        refused(&vec![0; length], Refusal::ProgramLength);
        refused(&vec![255; length], Refusal::ProgramLength);
    }
    refused(&[255, 0, 0, 0], Refusal::Instruction);
    refused(&[1, 8, 0, 0], Refusal::Instruction);
    refused(&[0, 0, 0, 0, 5, 2, 0, 0], Refusal::Instruction);
}
