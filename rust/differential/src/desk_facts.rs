//! What a trial of the laws of desks was tried on: the facts that are counted.

use crate::ceilings::was_stopped;
use crate::desk_report::Fact;
use crate::desks::{Desk, Facts};
use crate::posts::PostOutcome;
use crate::runs::End;
use crate::secrecy::Trial;
use crate::secrecy_facts::ran;
use layout::records::{messages, records};
use layout::HOST;
use rithennaw::TURNS_MAX;

impl Desk<'_> {
    /// Of the image and the view.
    pub fn start_facts(&self) -> Facts {
        let image = &self.case.image;
        vec![
            (Fact::SomethingHidden, *image != self.view),
            (Fact::Version1, image[0] == 1),
            (Fact::Version2, image[0] == 2),
            (Fact::HostMailShown, host_mail(&self.view) > 0),
            (Fact::HostMailHidden, host_mail(image) > host_mail(&self.view)),
        ]
    }

    /// Of the desk's image and the host's after the same number of turns.
    pub fn run_facts(&self, desk: &[u8], host: &[u8]) -> Facts {
        let on_host = || records(&self.view).zip(records(host));
        let on_desk = || records(&self.view).zip(records(desk));
        let hidden = |record: &[u8]| record.get(1).is_some_and(|&label| !self.sees(label));
        vec![
            (Fact::TurnLimit, self.case.turns == TURNS_MAX),
            (Fact::VisibleTaskRan, !ran(&self.view, desk).is_empty()),
            (Fact::HiddenTaskRan, ran(&self.case.image, host).iter().any(|&label| !self.sees(label))),
            (Fact::TaskLeftView, on_host().any(|(before, after)| !before.is_empty() && hidden(after))),
            (Fact::SandboxOnDesk, on_desk().any(|(before, after)| before.is_empty() && !after.is_empty())),
            (Fact::StoppedOnDesk, on_desk().any(|(before, after)| was_stopped(before, after))),
            (Fact::HostMailTakenOnDesk, host_mail(&self.view) > host_mail(desk)),
            (Fact::HiddenTaskOnDesk, records(desk).any(hidden)),
            (Fact::HiddenMailOnDesk, records(desk).any(|record| !hidden(record) && self.has_hidden_mail(record))),
        ]
    }

    /// Of the other observer's view, and of that for the bits that the two observers have in common.
    pub fn view_facts(&self, other: &[u8], common: &[u8]) -> Facts {
        let bits = self.case.observer & self.case.other;
        let neither = bits != self.case.observer && bits != self.case.other;
        let passed = host_mail(common);
        vec![
            (Fact::NoCommonBits, neither && bits == 0),
            (Fact::SomeCommonBits, neither && bits != 0),
            (Fact::CommonViewLess, self.view != common && other != common),
            (Fact::HostMailSeenTwice, neither && passed > 0),
            (Fact::HostMailSeenOnce, host_mail(&self.view) > passed && host_mail(other) > passed),
        ]
    }

    /// Of the case's posts, by whether the desk's image and the host's were changed by each.
    pub fn post_facts(&self, changed: &[[bool; 2]]) -> Facts {
        let some = |seen: bool, desk_and_host: [bool; 2]| {
            let mut posts = self.case.posts.iter().zip(changed);
            posts.any(|(post, changed)| self.sees(post.label as u8) == seen && *changed == desk_and_host)
        };
        vec![
            (Fact::VisiblePostDelivered, some(true, [true, true])),
            (Fact::VisiblePostOnHostAlone, some(true, [false, true])),
            (Fact::VisiblePostDropped, some(true, [false, false])),
            (Fact::HiddenPostDelivered, some(false, [true, true])),
            (Fact::HiddenPostOnDeskAlone, some(false, [true, false])),
            (Fact::HiddenPostOnHostAlone, some(false, [false, true])),
        ]
    }

    /// Of the lists of the desk and the host.
    pub fn list_facts(&self, trial: &Trial, ends: &[End; 2]) -> Facts {
        let delivered = |end, seen| -> Vec<bool> {
            trial.posts(end, seen).iter().map(|posted| posted.outcome == PostOutcome::Delivered).collect()
        };
        let [desk, host] = ends.each_ref().map(|end| delivered(end, true));
        let both = || desk.iter().zip(&host);
        vec![
            (Fact::ListsDiffer, self.case.lists[0] != self.case.lists[1]),
            (Fact::ListPostDelivered, both().any(|(&desk, &host)| desk && host)),
            (Fact::ListPostOnHostAlone, both().any(|(&desk, &host)| !desk && host)),
            (Fact::ListHiddenPostDelivered, ends.iter().any(|end| delivered(end, false).contains(&true))),
        ]
    }

    /// Whether a message in that record is hidden from the observer.
    fn has_hidden_mail(&self, record: &[u8]) -> bool {
        messages(self.case.image[0], record).any(|message| !self.sees(message[0]))
    }
}

/// The number of the host's messages in an image.
fn host_mail(image: &[u8]) -> usize {
    let senders = records(image).flat_map(|record| messages(image[0], record)).map(|message| message[1]);
    senders.filter(|&sender| sender == HOST).count()
}
