//! Trials of the laws of desks: implementations that break one are found, by those laws that they break, and a desk's
//! image is the host's only once it is viewed again and has had the same posts.

mod views;
mod wrong;

use differential::calls::{Answer, Call, Implementation, Post, BOTH, REFERENCE};
use differential::desk_cases::Case;
use differential::desk_report;
use differential::desks::{self, Desk, Law, LAWS};
use differential::lists::Step;
use differential::pairs::flows;
use differential::rng::Rng;
use differential::runs::Run;
use differential::secrecy::{self, Trial};
use differential::secrecy_report;
use layout::instructions::{SEND, TAKE};
use layout::{next, SLOTS};
use rithennaw::TURNS_MAX;
use wrong::counting::all_counted;
use wrong::turning::{one_turn, turn_by_turn, Turning};
use wrong::versions::{narrowed, written_as};
use wrong::{common_limit, post_and, post_and_turn, right, wrong, SEEDS};

const RUNNING: &str = "running a view";
const VIEWS: &str = "a view of a view";
const POSTS: &str = "posts to a view";
const LISTS: &str = "lists from a view";

/// The first fault of a law in trials on that implementation alone, as it is reported.
fn fault(law: (&'static str, Law), implementation: Implementation) -> Option<String> {
    let mut tally = desk_report::tally();
    let fault = (0..SEEDS).find_map(|seed| desks::run(&mut tally, &[law], &[implementation], seed).err());
    fault.map(|mismatch| mismatch.to_string())
}

/// These laws, and no others, have a fault, and tell it as theirs.
fn found_by(laws: &[&str], wrong: Implementation) {
    let faults = LAWS.map(|law| (law.0, fault(law, wrong)));
    let found: Vec<_> = faults.iter().filter_map(|(name, fault)| Some((*name, fault.as_ref()?))).collect();
    assert_eq!(found.iter().map(|(name, _)| *name).collect::<Vec<_>>(), laws);
    for (name, report) in found {
        assert!(report.starts_with(&format!("desk of the wrong: {name}: ")), "{report}");
        for part in ["\nseed ", "\nobservers ", "\nimage ", "\nturns ", "\nposts ", "\nlist of the host "] {
            assert!(report.contains(part), "no {part:?} in {report}");
        }
    }
}

#[test]
fn right_ones_keep_the_laws() {
    for implementation in BOTH {
        assert_eq!(LAWS.map(|law| fault(law, implementation)), [None, None, None, None]);
    }
}

#[test]
fn a_view_that_moves_the_turn_slot_on() {
    found_by(&[RUNNING, VIEWS, POSTS, LISTS], views::a_turn_ahead());
}

#[test]
fn a_view_without_spares() {
    found_by(&[RUNNING, LISTS], views::without_spares());
}

#[test]
fn a_view_without_the_hosts_messages() {
    found_by(&[RUNNING, POSTS, LISTS], views::without_host_mail());
}

#[test]
fn a_view_that_is_written_in_version_1() {
    found_by(&[RUNNING, LISTS], views::without_clearances());
}

#[test]
fn a_view_that_shows_some_owners_less_of_a_task() {
    found_by(&[VIEWS], views::without_last_figures());
}

#[test]
fn a_view_that_wants_room_for_the_whole_image() {
    found_by(
        &[RUNNING, VIEWS, POSTS, LISTS],
        wrong(|call, image, out| match call {
            Call::View(0..=15) if out.len() < image.len() => Answer::refused(13),
            _ => right(call, image, out),
        }),
    );
}

#[test]
fn a_view_that_shows_a_label_too_much() {
    found_by(
        &[VIEWS, POSTS, LISTS],
        wrong(|call, image, out| match call {
            Call::View(observer @ 0..=14) => right(Call::View(observer + 1), image, out),
            _ => right(call, image, out),
        }),
    );
}

/// Its views are those for other labels, of which the first two laws hold.
#[test]
fn a_view_that_shows_everyone_what_owner_0_sees() {
    found_by(
        &[POSTS, LISTS],
        wrong(|call, image, out| match call {
            Call::View(observer @ 0..=15) => right(Call::View(observer | 1), image, out),
            _ => right(call, image, out),
        }),
    );
}

#[test]
fn the_secrecy_rule_does_not_find_views_that_tell_no_secret() {
    let mut tally = secrecy_report::tally();
    for wrong in views::all() {
        let fault = (0..SEEDS).find_map(|seed| secrecy::run(&mut tally, &[wrong], seed).err());
        assert!(fault.is_none(), "{fault:?}");
    }
}

/// A turn that is none where the task waits for a message.
fn wait(_: &Turning, image: &[u8]) -> Vec<u8> {
    let after = one_turn(image);
    let turn_slot = next::turn_slot_at(image);
    if image[turn_slot + 1..] == after[turn_slot + 1..] {
        image.to_vec()
    } else {
        after
    }
}

#[test]
fn turns_that_wait_for_a_task_that_waits() {
    found_by(&[RUNNING, LISTS], wrong(|call, image, out| turn_by_turn(call, image, out, TAKE, wait)));
}

/// A turn in which a task is stopped that sends a message which is dropped.
fn stop_at_a_drop(turning: &Turning, image: &[u8]) -> Vec<u8> {
    let mut after = one_turn(image);
    if after.len() == image.len() {
        let task = reference::record(&after, turning.slot);
        after[task][0] = 4;
    }
    after
}

#[test]
fn a_sender_that_is_stopped_where_its_message_is_dropped() {
    found_by(&[RUNNING, LISTS], wrong(|call, image, out| turn_by_turn(call, image, out, SEND, stop_at_a_drop)));
}

#[test]
fn a_count_of_hidden_mail() {
    found_by(&[RUNNING, LISTS], all_counted());
}

#[test]
fn an_image_whose_version_tells_of_hidden_clearances() {
    found_by(
        &[RUNNING, LISTS],
        wrong(|call, image, out| match call {
            Call::Turns(_) => written_as(call, image, out, narrowed),
            _ => right(call, image, out),
        }),
    );
}

#[test]
fn turns_at_the_limit_that_are_fewer_by_the_busy_count() {
    found_by(
        &[RUNNING],
        wrong(|call, image, out| match (call, right(call, image, out)) {
            (Call::Turns(TURNS_MAX), answer) => right(Call::Turns(TURNS_MAX - answer.busy % 16), image, out),
            (_, answer) => answer,
        }),
    );
}

#[test]
fn a_turn_call_that_begins_at_slot_0() {
    found_by(
        &[LISTS],
        wrong(|call, image, out| match call {
            Call::Turns(_) => {
                let mut begun = image.to_vec();
                begun[next::turn_slot_at(image)] = 0;
                right(call, &begun, out)
            }
            _ => right(call, image, out),
        }),
    );
}

#[test]
fn a_post_that_is_dropped_for_hidden_mail() {
    found_by(&[POSTS, LISTS], common_limit());
}

#[test]
fn a_post_that_runs_a_turn() {
    found_by(&[POSTS, LISTS], post_and_turn());
}

#[test]
fn a_post_that_leaves_a_copy_which_only_all_owners_may_see() {
    found_by(
        &[POSTS],
        wrong(|call, image, out| post_and(call, image, out, |post| Call::Post(Post { label: 15, ..post }))),
    );
}

#[test]
fn a_post_that_is_refused_where_there_is_no_task() {
    found_by(
        &[POSTS, LISTS],
        wrong(|call, image, out| match call {
            Call::Post(post) if post.slot < SLOTS as u32 && reference::record(image, post.slot).is_empty() => {
                Answer::refused(14)
            }
            _ => right(call, image, out),
        }),
    );
}

/// The number of trials on the reference that are like that.
fn count(like_that: fn(&Desk, &mut Rng) -> bool) -> usize {
    let trials = (0..2 * SEEDS).filter(|&seed| {
        let rng = &mut Rng::new(seed);
        let case = Case::made_up(rng, seed);
        let desk = Desk::of(REFERENCE, &case).expect("a view");
        like_that(&desk, rng)
    });
    trials.count()
}

#[test]
fn a_desk_is_not_the_hosts_view_until_it_is_viewed_again() {
    let differ = count(|desk, _| {
        let [on_desk, on_host] = desk.both(Call::Turns(desk.case.turns)).expect("turns");
        on_desk != REFERENCE.give(desk.look(), &on_host).expect("a view")
    });
    assert!(differ >= 50, "{differ} of {}", 2 * SEEDS);
}

/// Whether the step is a post that is accepted and that the observer sees.
fn is_visible_post(step: &Step, observer: u8) -> bool {
    matches!(step.call, Call::Post(post) if step.number() == 0 && flows(post.label as u8, observer))
}

#[test]
fn a_desk_is_not_the_hosts_view_without_the_posts_that_the_observer_sees() {
    let differ = count(|desk, rng| {
        let observer = desk.case.observer;
        let [mut on_desk, on_host] = desk.case.lists.clone();
        on_desk.retain(|step| !is_visible_post(step, observer));
        let runs = [(&desk.view, on_desk), (&desk.case.image, on_host)]
            .map(|(start, list)| Run { start: start.clone(), list });
        let trial = Trial { implementation: REFERENCE, observer, runs: &runs };
        let ends = trial.ends().expect("lists that are carried out");
        trial.conclusion(rng, &ends).is_err()
    });
    assert!(differ >= 50, "{differ} of {}", 2 * SEEDS);
}
