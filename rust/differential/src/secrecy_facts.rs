//! What a trial of the secrecy rule was tried on: the facts that are counted.

use crate::calls::Call;
use crate::ceilings::was_stopped;
use crate::lists::Step;
use crate::posts::PostOutcome;
use crate::runs::{End, Posted, Run};
use crate::secrecy::{posts_at, Trial};
use crate::secrecy_report::Fact;
use layout::instructions::COUNT;
use layout::records::records;
use layout::{next, task_length, SLOTS};

impl Trial<'_> {
    /// The facts that hold of the trial with these ends; none where the images are the same at the start.
    pub fn facts(&self, ends: &[End; 2]) -> Vec<Fact> {
        let [first, second] = self.runs;
        let differ = first.start != second.start;
        let facts = self.list_facts(ends).into_iter().chain(self.ceiling_facts(ends)).chain(self.post_facts(ends));
        facts.filter(|&(_, holds)| differ && holds).map(|(fact, _)| fact).collect()
    }

    /// Of the images and lists.
    fn list_facts(&self, ends: &[End; 2]) -> [(Fact, bool); 8] {
        let [first, second] = self.runs;
        let refused: Vec<&Step> = first.list.iter().chain(&second.list).filter(|step| step.number() != 0).collect();
        let ran: Vec<u8> = self.runs.iter().zip(ends).flat_map(|(run, end)| ran(&run.start, &end.image)).collect();
        let [hidden_ran, visible_ran] = [false, true].map(|seen| ran.iter().any(|&label| self.sees(label) == seen));
        [
            (Fact::ImagesDiffer, first.start != second.start),
            (Fact::ListsDiffer, first.list != second.list),
            (Fact::CallRefused, !refused.is_empty()),
            (Fact::PostRefused, refused.iter().any(|step| matches!(step.call, Call::Post(_)))),
            (Fact::HiddenTaskRan, hidden_ran),
            (Fact::BothRan, hidden_ran && visible_ran),
            (Fact::BusyCountsDiffer, ends[0].busy != ends[1].busy),
            (Fact::VisibleCounts, (0..SLOTS as u32).any(|slot| self.counts_beside_hidden_mail(slot, ends[0].turns))),
        ]
    }

    /// Of versions and clearances.
    fn ceiling_facts(&self, ends: &[End; 2]) -> [(Fact, bool); 4] {
        let [first, second] = self.runs;
        let stopped = |seen| [(first, &ends[0]), (second, &ends[1])].map(|(run, end)| self.stopped(run, end, seen));
        let [visible, hidden] = [true, false].map(stopped);
        [
            (Fact::Version1, first.start[0] == 1),
            (Fact::Version2, first.start[0] == 2),
            (Fact::VisibleStopped, !visible[0].is_empty()),
            (Fact::HiddenStopsDiffer, hidden[0] != hidden[1]),
        ]
    }

    /// Of the accepted posts.
    fn post_facts(&self, ends: &[End; 2]) -> [(Fact, bool); 8] {
        let visible = ends.each_ref().map(|end| self.posts(end, true));
        let hidden = ends.each_ref().map(|end| self.posts(end, false));
        let some = |outcome| visible.iter().flatten().any(|posted| posted.outcome == outcome);
        let met = |posts: &[Vec<&Posted>; 2], seen: bool| {
            posts.iter().flatten().filter_map(|posted| posted.met).any(|label| self.sees(label) == seen)
        };
        let delivered = visible
            .each_ref()
            .map(|posts| posts.iter().map(|posted| posted.outcome == PostOutcome::Delivered).collect::<Vec<bool>>());
        [
            (Fact::VisibleDelivered, some(PostOutcome::Delivered)),
            (Fact::VisibleToUnusedSlot, some(PostOutcome::UnusedSlot)),
            (Fact::VisibleToStoppedTask, some(PostOutcome::StoppedTask)),
            (Fact::VisibleBehindFour, some(PostOutcome::FourOfLabel)),
            (Fact::VisibleToHiddenTask, met(&visible, false)),
            (Fact::VisibleDeliveriesDiffer, delivered[0] != delivered[1]),
            (Fact::HiddenPostsDiffer, posts_at(&hidden[0]) != posts_at(&hidden[1])),
            (Fact::HiddenToVisibleTask, met(&hidden, true)),
        ]
    }

    /// Whether a visible task, by its first instruction within so many turns, counts where one image has hidden mail that
    /// the other has not.
    fn counts_beside_hidden_mail(&self, slot: u32, turns: u64) -> bool {
        let [first, second] = self.runs.each_ref().map(|run| run.start.as_slice());
        let [task, other] = [first, second].map(|image| &image[(self.implementation.record)(image, slot)]);
        let &[1, label, ..] = task else { return false };
        let is_count = next::instruction_at(first, task).is_some_and(|at| first[at] == COUNT);
        let waits = (slot + SLOTS as u32 - u32::from(next::turn_slot(first))) % SLOTS as u32;
        self.sees(label) && is_count && u64::from(waits) < turns && task.len() != other.len()
    }

    /// The slots of the tasks that their clearances stopped, of those that the observer sees at the end or of the others.
    fn stopped(&self, run: &Run, end: &End, seen: bool) -> Vec<usize> {
        let tasks = records(&run.start).zip(records(&end.image)).enumerate();
        let stopped = tasks.filter(|(_, (before, after))| was_stopped(before, after) && self.sees(after[1]) == seen);
        stopped.map(|(slot, _)| slot).collect()
    }
}

/// The labels at the start of the tasks that are others at the end, their mail aside.
pub fn ran(start: &[u8], end: &[u8]) -> Vec<u8> {
    let length = task_length(start[0]);
    let tasks = records(start).zip(records(end));
    let others = tasks.filter(|(before, after)| before.iter().take(length).ne(after.iter().take(length)));
    others.filter_map(|(before, _)| before.get(1).copied()).collect()
}
