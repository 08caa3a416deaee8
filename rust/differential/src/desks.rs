//! The laws of desks, U6: an owner runs a view on a desk of its own, views it again and posts to it, and is shown there what
//! the host's whole image shows.

use crate::alike::CallOf;
use crate::calls::{Call, Implementation};
use crate::desk_cases::Case;
use crate::desk_laws;
use crate::desk_report::Fact;
use crate::observers::TrialTally;
use crate::pairs::flows;
use crate::report::{hex, Mismatch};
use crate::rng::Rng;

/// The facts that a law looks for, each with whether it holds.
pub type Facts = Vec<(Fact, bool)>;

/// What tries a law, and tells what it was tried on.
pub type Law = fn(&Desk, &mut Rng) -> Result<Facts, String>;

/// The laws, each with its name.
pub const LAWS: [(&str, Law); 4] = [
    ("running a view", desk_laws::running),
    ("a view of a view", desk_laws::view_of_a_view),
    ("posts to a view", desk_laws::posts),
    ("lists from a view", desk_laws::lists),
];

/// Tries these laws on what belongs to a seed, with each implementation alone.
pub fn run(
    tally: &mut TrialTally, laws: &[(&str, Law)], implementations: &[Implementation], seed: u64,
) -> Result<(), Mismatch> {
    // Other random numbers than those of the seed's other cases.
    let rng = &mut Rng::new(seed ^ (1 << 62));
    let case = Case::made_up(rng, seed);
    for &implementation in implementations {
        let tried = Desk::of(implementation, &case).and_then(|desk| desk.try_laws(rng, laws));
        let facts = tried.map_err(|fault| mismatch(implementation, &case, seed, &fault))?;
        tally.trial(case.observer, facts.iter().map(|&fact| fact as usize));
    }
    Ok(())
}

/// The desk of a case's observer.
pub struct Desk<'a> {
    pub implementation: Implementation,
    pub case: &'a Case,
    /// What the owner received: the observer's view of the image.
    pub view: Vec<u8>,
}

impl Desk<'_> {
    /// The desk with the view that the implementation gives.
    pub fn of(implementation: Implementation, case: &Case) -> Result<Desk<'_>, String> {
        let view = implementation.give(Call::View(case.observer.into()), &case.image)?;
        Ok(Desk { implementation, case, view })
    }

    /// Tries the laws one after the other. Gives the facts that hold; none where nothing is hidden.
    fn try_laws(&self, rng: &mut Rng, laws: &[(&str, Law)]) -> Result<Vec<Fact>, String> {
        let mut facts = Vec::new();
        for (name, law) in laws {
            facts.extend(law(self, rng).map_err(|fault| format!("{name}: {fault}"))?);
        }
        facts.extend(self.start_facts());
        let hides = self.view != self.case.image;
        Ok(facts.into_iter().filter(|&(_, holds)| hides && holds).map(|(fact, _)| fact).collect())
    }

    /// Whether the observer sees what has that label.
    pub fn sees(&self, label: u8) -> bool {
        flows(label, self.case.observer)
    }

    /// The call for the observer's view.
    pub fn look(&self) -> Call {
        Call::View(self.case.observer.into())
    }

    /// Has the desk's image and the host's go through a call.
    pub fn both(&self, call: Call) -> Result<[Vec<u8>; 2], String> {
        Ok([self.implementation.give(call, &self.view)?, self.implementation.give(call, &self.case.image)?])
    }

    /// Both calls tell and leave the same, in every output.
    pub fn alike(&self, rng: &mut Rng, calls: [CallOf; 2]) -> Result<(), String> {
        self.implementation.alike_in_every_output(rng, calls)
    }
}

fn mismatch(implementation: Implementation, case: &Case, seed: u64, fault: &str) -> Mismatch {
    let Case { observer, other, image, turns, posts, lists: [desk, host] } = case;
    let (name, image) = (implementation.name, hex(image));
    Mismatch(format!(
        "desk of the {name}: {fault}\nseed {seed}\nobservers {observer} and {other}\nimage {image}\nturns {turns}\n\
         posts {posts:?}\nlist of the desk {desk:?}\nlist of the host {host:?}"
    ))
}
