//! The laws of desks one by one.

use crate::calls::{Call, Post};
use crate::desks::{Desk, Facts};
use crate::rng::Rng;
use crate::runs::Run;
use crate::secrecy::Trial;

/// A view that has run for n turns and is viewed again is the view of the whole image after n turns.
pub fn running(desk: &Desk, rng: &mut Rng) -> Result<Facts, String> {
    let [on_desk, on_host] = desk.both(Call::Turns(desk.case.turns))?;
    desk.alike(rng, [(desk.look(), &on_desk), (desk.look(), &on_host)])?;
    Ok(desk.run_facts(&on_desk, &on_host))
}

/// A view for one label of a view for another is the view for the bits common to both, and one for the same is the same.
pub fn view_of_a_view(desk: &Desk, rng: &mut Rng) -> Result<Facts, String> {
    let (image, view) = (&desk.case.image, &desk.view);
    let other_look = Call::View(desk.case.other.into());
    let common_look = Call::View((desk.case.observer & desk.case.other).into());
    let other_view = desk.implementation.give(other_look, image)?;
    desk.alike(rng, [(other_look, view), (common_look, image)])?;
    desk.alike(rng, [(desk.look(), &other_view), (common_look, image)])?;
    desk.alike(rng, [(desk.look(), view), (desk.look(), image)])?;
    Ok(desk.view_facts(&other_view, &desk.implementation.give(common_look, image)?))
}

/// A post that the observer sees, made to the view, gives the view of the whole image after it; another post leaves the
/// view as it was.
pub fn posts(desk: &Desk, rng: &mut Rng) -> Result<Facts, String> {
    let changed = desk.case.posts.iter().map(|&post| make_post(desk, rng, post));
    Ok(desk.post_facts(&changed.collect::<Result<Vec<_>, String>>()?))
}

/// Makes a post to the view and to the whole image. Tells of each whether it was changed.
fn make_post(desk: &Desk, rng: &mut Rng, post: Post) -> Result<[bool; 2], String> {
    let [on_desk, on_host] = desk.both(Call::Post(post))?;
    if desk.sees(post.label as u8) {
        // The desk's image as it is: the post puts nothing there that the observer does not see.
        desk.alike(rng, [(Call::Rewrite, &on_desk), (desk.look(), &on_host)])?;
    } else {
        for image in [&on_desk, &on_host] {
            desk.alike(rng, [(desk.look(), image), (Call::Rewrite, &desk.view)])?;
        }
    }
    Ok([on_desk != desk.view, on_host != desk.case.image])
}

/// The secrecy rule, of the view and the whole image: two lists with the same turns and the same posts that the observer
/// sees end in the same view.
pub fn lists(desk: &Desk, rng: &mut Rng) -> Result<Facts, String> {
    let [on_desk, on_host] = &desk.case.lists;
    let runs = [(&desk.view, on_desk), (&desk.case.image, on_host)]
        .map(|(start, list)| Run { start: start.clone(), list: list.clone() });
    let trial = Trial { implementation: desk.implementation, observer: desk.case.observer, runs: &runs };
    let ends = trial.try_rule(rng)?;
    Ok(desk.list_facts(&trial, &ends))
}
