//! Trials of the secrecy rule: implementations that tell a secret are found, and what the rule asks for is needed.

mod wrong;

use differential::calls::{Answer, Call, Implementation, Post, REFERENCE};
use differential::lists::{self, Plan};
use differential::pairs;
use differential::rng::Rng;
use differential::runs::Run;
use differential::secrecy::{self, Trial};
use differential::secrecy_report;
use layout::next;
use layout::records::records;
use wrong::counting::all_counted;
use wrong::versions::{narrowed, written_as};
use wrong::{common_limit, post_and_turn, right, wrong, SEEDS};

/// A trial of the secrecy rule on that implementation alone fails.
fn not_secret(wrong: Implementation) {
    let mut tally = secrecy_report::tally();
    let report = (0..SEEDS).find_map(|seed| secrecy::run(&mut tally, &[wrong], seed).err()).expect("a difference");
    assert!(report.to_string().starts_with("secrecy of the wrong: "), "{report}");
}

#[test]
fn a_view_that_shows_everything() {
    not_secret(wrong(|call, image, out| match call {
        Call::View(0..=15) => right(Call::Rewrite, image, out),
        _ => right(call, image, out),
    }));
}

#[test]
fn a_view_that_shows_a_label_too_much() {
    not_secret(wrong(|call, image, out| match call {
        Call::View(observer @ 0..=14) => right(Call::View(observer + 1), image, out),
        _ => right(call, image, out),
    }));
}

#[test]
fn turns_that_are_not_carried_out_when_tasks_are_busy() {
    not_secret(wrong(|call, image, out| match right(call, image, out) {
        answer if matches!(call, Call::Turns(_)) && answer.busy > 20 => right(Call::Turns(0), image, out),
        answer => answer,
    }));
}

#[test]
fn images_that_are_refused_at_the_end() {
    not_secret(wrong(|call, image, out| match call {
        Call::Turns(1..=1_000_000) => Answer::default(),
        _ => right(call, image, out),
    }));
}

#[test]
fn a_post_that_is_dropped_for_hidden_mail() {
    not_secret(common_limit());
}

#[test]
fn a_post_that_runs_a_turn() {
    not_secret(post_and_turn());
}

#[test]
fn a_post_that_every_observer_sees() {
    not_secret(wrong(|call, image, out| match call {
        Call::Post(post @ Post { label: 0..=15, .. }) => right(Call::Post(Post { label: 0, ..post }), image, out),
        _ => right(call, image, out),
    }));
}

#[test]
fn a_post_of_which_every_observer_sees_that_it_was_dropped() {
    not_secret(wrong(|call, image, out| {
        let answer = right(call, image, out);
        // Of label 0, which no two lists differ in: only a task that is there in one of the images shows here.
        if matches!(call, Call::Post(Post { label: 0, .. })) && answer.number == 0 && !answer.delivered {
            next_turn_slot(out);
        }
        answer
    }));
}

#[test]
fn a_count_of_hidden_mail() {
    not_secret(all_counted());
}

/// Puts the turn slot of an image on to its successor, which every observer sees.
fn next_turn_slot(image: &mut [u8]) {
    let at = next::turn_slot_at(image);
    image[at] = (image[at] + 1) % 16;
}

/// Whether a task of the image was stopped by its clearance.
fn has_stopped(image: &[u8]) -> bool {
    records(image).any(|task| task.starts_with(&[6]))
}

#[test]
fn a_stop_by_a_clearance_that_every_observer_sees() {
    not_secret(wrong(|call, image, out| {
        let answer = right(call, image, out);
        let turned = matches!(call, Call::Turns(_)) && answer.number == 0;
        if turned && !has_stopped(image) && has_stopped(&out[..answer.length]) {
            next_turn_slot(out);
        }
        answer
    }));
}

#[test]
fn an_image_whose_version_tells_of_hidden_clearances() {
    not_secret(wrong(|call, image, out| match call {
        Call::Turns(_) => written_as(call, image, out, narrowed),
        _ => right(call, image, out),
    }));
}

#[test]
fn a_view_that_shows_everything_once_a_clearance_has_stopped_a_task() {
    not_secret(wrong(|call, image, out| match call {
        Call::View(0..=15) if has_stopped(image) => right(Call::Rewrite, image, out),
        _ => right(call, image, out),
    }));
}

/// A change of a plan; false where the plan has nothing that can be changed so.
type Change = fn(&mut Plan) -> bool;

/// How often the plan of one list was changed, and how often the views then differed.
#[derive(Debug, Default)]
struct Breaches {
    tried: u64,
    seen: u64,
}

/// Trials in which one list has what a plan has, and the other what the plan has once it is changed.
fn breaches(change: Change) -> Breaches {
    let mut breaches = Breaches::default();
    for seed in 0..2 * SEEDS {
        let rng = &mut Rng::new(seed);
        let observer = rng.byte_below(16);
        let [first, second] = pairs::pair(rng, observer);
        let plan = lists::plan(rng, observer, first.turn_slot);
        let mut changed = plan.clone();
        if !change(&mut changed) {
            continue;
        }
        let runs = [(first, plan), (second, changed)].map(|(image, plan)| Run::made_up(rng, observer, &image, &plan));
        let trial = Trial { implementation: REFERENCE, observer, runs: &runs };
        let ends = trial.ends().expect("lists that are carried out");
        assert!(trial.premise(rng, &ends).is_err(), "seed {seed}: the lists pass for equal ones");
        breaches.tried += 1;
        breaches.seen += u64::from(trial.conclusion(rng, &ends).is_err());
    }
    breaches
}

/// The last post behind which there is a turn comes a turn later.
fn a_turn_late(plan: &mut Plan) -> bool {
    let late = plan.posts.iter_mut().rfind(|posted| posted.turns < plan.turns);
    late.map(|posted| posted.turns += 1).is_some()
}

/// Two posts that follow each other at once change places.
fn in_another_order(plan: &mut Plan) -> bool {
    let at = plan.posts.windows(2).position(|two| two[0].turns == two[1].turns && two[0] != two[1]);
    at.map(|at| plan.posts.swap(at, at + 1)).is_some()
}

#[test]
fn views_differ_where_the_lists_are_not_what_the_rule_asks_for() {
    let changes: [(&str, Change); 7] = [
        ("a visible post a turn late", a_turn_late),
        ("visible posts in another order", in_another_order),
        ("a visible post less", |plan| plan.posts.pop().is_some()),
        ("a visible post with another value", |plan| {
            plan.posts.last_mut().map(|posted| posted.post.value ^= 1).is_some()
        }),
        ("a visible post with label 0 in place of another", |plan| {
            let labelled = plan.posts.iter_mut().rfind(|posted| posted.post.label != 0);
            labelled.map(|posted| posted.post.label = 0).is_some()
        }),
        ("a visible post to another slot", |plan| plan.posts.last_mut().map(|posted| posted.post.slot ^= 1).is_some()),
        ("a turn more", |plan| {
            plan.turns += 1;
            true
        }),
    ];
    for (name, change) in changes {
        let breaches = breaches(change);
        assert!(breaches.tried >= 200 && breaches.seen >= 5, "{name}: {breaches:?}");
    }
}
