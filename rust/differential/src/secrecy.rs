//! The secrecy rule, demand 3 with the posts of U1: two images that show an observer the same, and two lists of turn
//! calls and posts with the same number of accepted turns and the same accepted posts that the observer sees, end in
//! the same view, told and written.

use crate::calls::{Call, Implementation};
use crate::lists::{self, PostAt};
use crate::observers::{TrialTally, OBSERVERS};
use crate::pairs::{self, flows};
use crate::report::{hex, Mismatch};
use crate::rng::Rng;
use crate::runs::{End, Posted, Run};
use rithennaw::IMAGE_MAX;

/// Tries the rule on the pair of a seed, with each implementation alone. Seeds go through the observers.
pub fn run(tally: &mut TrialTally, implementations: &[Implementation], seed: u64) -> Result<(), Mismatch> {
    let rng = &mut Rng::new(!seed);
    let observer = (seed % OBSERVERS as u64) as u8;
    let images = pairs::pair(rng, observer);
    let plan = lists::plan(rng, observer, images[0].turn_slot);
    let runs = images.map(|image| Run::made_up(rng, observer, &image, &plan));
    for &implementation in implementations {
        let trial = Trial { implementation, observer, runs: &runs };
        let ends = trial.try_rule(rng).map_err(|fault| trial.mismatch(seed, &fault))?;
        tally.trial(observer, trial.facts(&ends).iter().map(|&fact| fact as usize));
    }
    Ok(())
}

/// The rule for an observer, tried on an implementation with two runs.
pub struct Trial<'a> {
    pub implementation: Implementation,
    pub observer: u8,
    pub runs: &'a [Run; 2],
}

impl Trial<'_> {
    /// Carries out both lists, and sees that what the rule asks for is there and that what it says then is so.
    pub fn try_rule(&self, rng: &mut Rng) -> Result<[End; 2], String> {
        let ends = self.ends()?;
        self.premise(rng, &ends)?;
        self.conclusion(rng, &ends)?;
        Ok(ends)
    }

    /// Carries out both lists.
    pub fn ends(&self) -> Result<[End; 2], String> {
        let [first, second] = self.runs;
        Ok([first.carry_out(self.implementation)?, second.carry_out(self.implementation)?])
    }

    /// What the rule asks for: equal views at the start, as many turns, and the same accepted posts that the observer
    /// sees, each after as many turns and in the same order.
    pub fn premise(&self, rng: &mut Rng, ends: &[End; 2]) -> Result<(), String> {
        let views = self.runs.each_ref().map(|run| (self.view(), run.start.as_slice()));
        self.implementation.alike(rng, views, IMAGE_MAX, 0)?;
        let [first, second] = ends.each_ref().map(|end| (end.turns, posts_at(&self.posts(end, true))));
        if first == second {
            Ok(())
        } else {
            Err(format!("turns and visible posts are not the same\n{first:?}\nand\n{second:?}"))
        }
    }

    /// What the rule says: the views of the images at the end are equal, and so are the sheets.
    pub fn conclusion(&self, rng: &mut Rng, ends: &[End; 2]) -> Result<(), String> {
        let of_both = |call: Call| ends.each_ref().map(|end| (call, end.image.as_slice()));
        self.implementation.alike_in_every_output(rng, of_both(self.view()))?;
        self.implementation.alike(rng, of_both(Call::Sheet(self.observer.into())), IMAGE_MAX, 0)?;
        Ok(())
    }

    fn view(&self) -> Call {
        Call::View(self.observer.into())
    }

    /// Whether the observer sees what has that label.
    pub fn sees(&self, label: u8) -> bool {
        flows(label, self.observer)
    }

    /// The accepted posts of a list that the observer sees, or those that it does not.
    pub fn posts<'a>(&self, end: &'a End, seen: bool) -> Vec<&'a Posted> {
        // An accepted post's label is at most 15.
        end.posts.iter().filter(|posted| self.sees(posted.at.post.label as u8) == seen).collect()
    }

    fn mismatch(&self, seed: u64, fault: &str) -> Mismatch {
        let [first, second] = self.runs.each_ref().map(|run| format!("{} {:?}", hex(&run.start), run.list));
        let (name, observer) = (self.implementation.name, self.observer);
        Mismatch(format!(
            "secrecy of the {name}: {fault}\nseed {seed}\nobserver {observer}\nfrom {first}\nand {second}"
        ))
    }
}

/// The posts by themselves, without what became of them.
pub fn posts_at(posts: &[&Posted]) -> Vec<PostAt> {
    posts.iter().map(|posted| posted.at).collect()
}
