//! Holds the plain checker, which the library is timed beside, to the second program: on every proof
//! that the groups check, good and damaged. Each group runs whole, with the seed of the library's own
//! run; `whole` takes its fixed one. All but the two checks is the library's.

use compare::plain::{Plain, Tally};
use compare::{advance, ends, member, saved, whole};
use compare::{both::Both, library::Library, Scale};

type Checked = Both<Library<Plain>>;

/// Runs a group and says how many calls agreed, which are as many as over the library.
fn group(name: &str, run: impl FnOnce(&mut Checked)) {
    let mut both = Checked::default();
    run(&mut both);
    println!("{}: {} calls agree", name, both.calls);
}

fn main() {
    group("member", |both| member::run(both, Scale::Full));
    group("advance", |both| advance::run(both, Scale::Full));
    group("saved", |both| saved::run(both, Scale::Full));
    group("ends", |both| ends::run(both, Scale::Full));
    group("whole", |both| whole::run(both, whole::SEED, whole::CALLS));
    let [membership, advancement] = [Tally::of_membership(), Tally::of_advancement()];
    println!("membership: {}", membership.words());
    println!("advancement: {}", advancement.words());
    let all = membership.and(advancement);
    println!("the plain checker answers as the second program does on {}", all.words());
}
