//! Lists of turn calls and posts for the secrecy rule: what it asks two lists to have in common, and lists that have it
//! among calls which it leaves free.

use crate::arguments;
use crate::calls::{Call, Post};
use crate::images::{self, LABELS, MAIL_PER_LABEL};
use crate::pairs::flows;
use crate::rng::Rng;
use layout::SLOTS;
use rithennaw::TURNS_MAX;

/// A post, and the number of turns that are carried out before it.
#[derive(Debug, Clone, Copy, PartialEq, Eq)]
pub struct PostAt {
    pub turns: u64,
    pub post: Post,
}

/// What two lists have in common: the number of turns, and the accepted posts that the observer sees, in their order.
#[derive(Debug, Clone, PartialEq, Eq)]
pub struct Plan {
    pub turns: u64,
    pub posts: Vec<PostAt>,
}

/// The output of a call, by the length of its answer.
#[derive(Debug, Clone, Copy, PartialEq, Eq)]
pub enum Room {
    Long,
    JustEnough,
    /// A byte too short.
    TooShort,
}

/// A call of a list, a turn call or a post, and its output.
#[derive(Debug, Clone, Copy, PartialEq, Eq)]
pub struct Step {
    pub call: Call,
    pub room: Room,
}

impl Step {
    /// The number that it tells of an accepted image.
    pub fn number(&self) -> u8 {
        match (self.call, self.room) {
            (Call::Turns(count), _) if count > TURNS_MAX => 2,
            (Call::Post(Post { slot: 16.., .. }), _) => 14,
            (Call::Post(Post { label: 16.., .. }), _) => 15,
            (_, Room::TooShort) => 13,
            _ => 0,
        }
    }
}

/// Made-up turns and posts for an observer, from an image with that turn slot.
pub fn plan(rng: &mut Rng, observer: u8, turn_slot: u8) -> Plan {
    let turns = rng.pick(&[0, 1, 16, 100, 600, 3_000]) + rng.below(20) as u64;
    let visible = visible(observer);
    let mut posts = Vec::new();
    for _ in 0..rng.below(5) {
        // Ahead of the first turn, behind the last, or in between.
        let any = rng.below(turns as usize + 1) as u64;
        let turns = rng.pick(&[0, turns, any]);
        let next = (u64::from(turn_slot) + turns) % SLOTS as u64;
        posts.extend(burst(rng, &visible, next as u32).map(|post| PostAt { turns, post }));
    }
    posts.sort_by_key(|posted| posted.turns);
    Plan { turns, posts }
}

/// The labels that the observer sees.
pub fn visible(observer: u8) -> Vec<u8> {
    LABELS.into_iter().filter(|&label| flows(label, observer)).collect()
}

/// Posts of a label to a slot: one, or one more than there is room for. Often it is the slot whose turn is next, so
/// that it matters after which turn they come.
fn burst<'a>(rng: &'a mut Rng, visible: &[u8], next: u32) -> impl Iterator<Item = Post> + 'a {
    // Every task may receive label 0.
    let label = if rng.one_in(2) { 0 } else { rng.pick(visible) };
    let slot = if rng.one_in(2) { next } else { rng.below(SLOTS) as u32 };
    let count = if rng.one_in(4) { MAIL_PER_LABEL + 1 } else { 1 };
    (0..count).map(move |_| Post { slot, label: label.into(), value: images::value(rng) })
}

/// A list with what the plan has, the turns in calls of any size, and calls that the rule leaves free among them.
pub fn list(rng: &mut Rng, plan: &Plan, observer: u8) -> Vec<Step> {
    let mut steps = Vec::new();
    let mut done = 0;
    for posted in &plan.posts {
        steps.extend(turns(rng, posted.turns - done));
        steps.push(Step { call: Call::Post(posted.post), room: enough(rng) });
        done = posted.turns;
    }
    steps.extend(turns(rng, plan.turns - done));
    for _ in 0..rng.below(10) {
        let at = rng.below(steps.len() + 1);
        steps.insert(at, free(rng, observer));
    }
    steps
}

/// Turn calls that carry out so many turns.
fn turns(rng: &mut Rng, mut left: u64) -> Vec<Step> {
    let mut steps = Vec::new();
    while left > 0 {
        let count = if rng.one_in(3) { left } else { rng.below(left as usize + 1) as u64 };
        steps.push(Step { call: Call::Turns(count), room: enough(rng) });
        left -= count;
    }
    steps
}

/// A call that the rule leaves free: a post that the observer does not see, or a call that is refused.
fn free(rng: &mut Rng, observer: u8) -> Step {
    let label = rng.pick(&LABELS);
    let post = Post { slot: rng.below(SLOTS) as u32, label: label.into(), value: images::value(rng) };
    let enough = enough(rng);
    let (call, room) = match rng.below(10) {
        0 => (Call::Turns(rng.pick(&[TURNS_MAX + 1, u64::MAX])), enough),
        1 => (Call::Turns(rng.below(200) as u64), Room::TooShort),
        2 => (Call::Post(Post { slot: arguments::above_15(rng), ..post }), enough),
        3 => (Call::Post(Post { label: arguments::above_15(rng), ..post }), enough),
        4..=8 if !flows(label, observer) => (Call::Post(post), enough),
        _ => (Call::Post(post), Room::TooShort),
    };
    Step { call, room }
}

/// An output that is long enough.
fn enough(rng: &mut Rng) -> Room {
    if rng.one_in(3) {
        Room::JustEnough
    } else {
        Room::Long
    }
}
