//! The made-up images are what they are made for: accepted ones, ones with a fault that leads to its number, and
//! tasks that do what tasks may do. So are the texts, and the lists of calls for the secrecy rule.

use differential::calls::{Call, BOTH};
use differential::damage::FAULTS;
use differential::images;
use differential::lists::{self, Plan, Step};
use differential::rng::Rng;
use differential::text_damage::TEXT_FAULTS;
use differential::texts::Text;
use layout::instructions::TABLE;
use layout::{Image, SLOTS, VERSIONS};
use rithennaw::{record, turns, IMAGE_MAX, IMAGE_MIN, PROGRAM_MAX};

/// The number that both tell of an image.
fn numbers(image: &[u8]) -> [u8; 2] {
    BOTH.map(|implementation| (implementation.check)(image))
}

fn made_up(seeds: u64) -> impl Iterator<Item = (Rng, Image)> {
    (0..seeds).map(|seed| {
        let mut rng = Rng::new(seed);
        let image = images::accepted(&mut rng);
        (rng, image)
    })
}

#[test]
fn images_of_both_versions_are_accepted_from_the_shortest_to_the_longest() {
    for (version, longest) in [(1, 7_796), (2, IMAGE_MAX)] {
        let mut lengths = Vec::new();
        for (_, image) in made_up(2_000).filter(|(_, image)| image.version == version) {
            assert_eq!(numbers(&image.bytes()), [0, 0], "{image:?}");
            lengths.push(image.bytes().len());
        }
        assert!(lengths.len() >= 900, "{} of version {version}", lengths.len());
        assert_eq!((lengths.iter().min(), lengths.iter().max()), (Some(&IMAGE_MIN), Some(&longest)));
    }
}

#[test]
fn each_fault_alone_leads_to_its_number_in_each_version_that_has_its_field() {
    for fault in &FAULTS {
        let mut applied = [0; VERSIONS.len()];
        for (mut rng, mut image) in made_up(500) {
            if (fault.apply)(&mut rng, &mut image) {
                applied[usize::from(image.version) - 1] += 1;
                assert_eq!(numbers(&image.bytes()), [fault.number; 2], "{}: {image:?}", fault.name);
            }
        }
        let [first, second] = applied;
        let has_field = !fault.name.starts_with("clearance");
        assert!((first >= 50) == has_field && (first == 0) != has_field, "{} in version 1: {first}", fault.name);
        assert!(second >= 50, "{} in version 2: {second}", fault.name);
    }
}

#[test]
fn images_without_tasks_are_those_of_the_other_version_but_for_the_first_byte() {
    for version in VERSIONS {
        let images = made_up(2_000).filter(|(_, image)| image.version == version && image.used().is_empty());
        let numbers: Vec<[u8; 2]> =
            images.map(|(_, image)| numbers(&Image { first_byte: Some(3 - version), ..image }.bytes())).collect();
        assert!(numbers.len() >= 50 && numbers.iter().all(|&numbers| numbers == [0, 0]), "{numbers:?}");
    }
}

#[test]
fn clearances_are_tight_all_owners_or_between() {
    let tasks: Vec<_> = made_up(500)
        .filter(|(_, image)| image.version == 2)
        .flat_map(|(_, image)| image.slots.into_iter().flatten().collect::<Vec<_>>())
        .collect();
    let tight = tasks.iter().filter(|task| task.clearance == task.label).count();
    let all = tasks.iter().filter(|task| task.clearance == 15).count();
    let between = tasks.iter().filter(|task| task.clearance != task.label && task.clearance != 15).count();
    assert!([tight, all, between].iter().all(|&count| 5 * count >= tasks.len()), "{tight} {all} {between}");
    let of_each = |clearance| tasks.iter().filter(|task| task.clearance == clearance).count();
    assert!((0..16).all(|clearance| of_each(clearance) >= 20), "{:?}", (0..16).map(of_each).collect::<Vec<_>>());
}

/// The number that both tell of a text.
fn text_numbers(text: &Text) -> [u8; 2] {
    BOTH.map(|implementation| (implementation.call)(Call::Assemble, &text.bytes(), &mut [0; PROGRAM_MAX]).number)
}

#[test]
fn each_fault_of_a_text_alone_leads_to_its_number() {
    for fault in &TEXT_FAULTS {
        let mut applied = 0;
        for (mut rng, image) in made_up(300) {
            let mut text = Text::of(&image.program);
            assert_eq!(text_numbers(&text), [0, 0], "{text:?}");
            if (fault.apply)(&mut rng, &mut text) {
                applied += 1;
                assert_eq!(text_numbers(&text), [fault.number; 2], "{}: {text:?}", fault.name);
            }
        }
        assert!(applied >= 50, "{} was applied {applied} times", fault.name);
    }
}

#[test]
fn programs_have_every_instruction() {
    let mut counts = [0; TABLE.len()];
    for (_, image) in made_up(500) {
        image.program.iter().for_each(|instruction| counts[usize::from(instruction[0])] += 1);
    }
    assert!(counts.iter().all(|&count| count >= 100), "{counts:?}");
}

#[test]
fn messages_are_from_every_slot_and_from_the_host() {
    let mut counts = [0; SLOTS + 1];
    for (_, image) in made_up(500) {
        let mail = image.slots.iter().flatten().flat_map(|task| &task.mail);
        mail.for_each(|message| counts[usize::from(message.sender)] += 1);
    }
    assert!(counts.iter().all(|&count| count >= 100), "{counts:?}");
}

/// Each of these came at least 50 times.
fn assert_often(expected: &[&str], events: &[String]) {
    for event in expected {
        let count = events.iter().filter(|other| other == event).count();
        assert!(count >= 50, "{event}: {count} times");
    }
}

/// What became of a task in some turns, by its record before and after them.
fn events(before: &[u8], after: &[u8]) -> Vec<String> {
    let mut events = Vec::new();
    match (before, after) {
        ([], [_, ..]) => events.push("made".to_string()),
        ([kind, label, ..], [new_kind, new_label, ..]) => {
            if kind != new_kind {
                events.push(format!("kind {new_kind}"));
            }
            if label != new_label {
                events.push("raised".to_string());
            }
            if after.len() > before.len() {
                events.push("received".to_string());
            }
            if after.len() < before.len() {
                events.push("took".to_string());
            }
        }
        _ => {}
    }
    events
}

#[test]
fn tasks_stop_in_every_way_raise_send_take_and_make_tasks() {
    let mut all: Vec<String> = Vec::new();
    for (_, image) in made_up(1_000) {
        let before = image.bytes();
        let after = turns(&before, 600).expect("an accepted image").image;
        (0..SLOTS as u32).for_each(|slot| all.extend(events(record(&before, slot), record(&after, slot))));
    }
    assert_often(&["kind 2", "kind 3", "kind 4", "kind 5", "kind 6", "made", "raised", "received", "took"], &all);
}

/// When the posts of a plan come, and what the calls of a list are and tell.
fn list_events(plan: &Plan, list: &[Step]) -> Vec<String> {
    let times = plan.posts.iter().map(|posted| match posted.turns {
        0 => "post ahead of the first turn".to_string(),
        turns if turns == plan.turns => "post behind the last turn".to_string(),
        _ => "post between turns".to_string(),
    });
    let together =
        plan.posts.windows(2).filter(|two| two[0].turns == two[1].turns).map(|_| "posts together".to_string());
    let calls = list.iter().map(|step| match step.call {
        Call::Turns(_) => format!("turns told {}", step.number()),
        Call::Post(_) => format!("post told {}", step.number()),
        other => panic!("{other:?} in a list"),
    });
    times.chain(together).chain(calls).collect()
}

#[test]
fn lists_have_posts_at_any_time_and_calls_that_are_refused() {
    let mut all = Vec::new();
    for seed in 0..500 {
        let rng = &mut Rng::new(seed);
        let observer = rng.byte_below(16);
        let plan = lists::plan(rng, observer, 0);
        let list = lists::list(rng, &plan, observer);
        all.extend(list_events(&plan, &list));
    }
    assert_often(
        &["post ahead of the first turn", "post between turns", "post behind the last turn", "posts together"],
        &all,
    );
    assert_often(&["turns told 0", "turns told 2", "turns told 13"], &all);
    assert_often(&["post told 0", "post told 13", "post told 14", "post told 15"], &all);
}
