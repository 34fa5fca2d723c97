//! Says where the library and the second engine disagree, in as few steps as can be found.

use crate::shrink::shrink;
use crate::side_by_side::{replay, Step};

/// Says at once where a disagreement was found, before the list is shortened.
pub fn announce(found: &str) {
    println!("DISAGREEMENT in {found}");
}

/// Shortens the failing list and prints it. Gives `false`.
pub fn report(steps: Vec<Step>) -> bool {
    let steps = shortened(steps);
    let count = steps.len();
    println!("shortest failing list found, from the start, steps {count}:");
    for step in &steps {
        println!("{step}");
    }
    match replay(&steps) {
        Some((0, difference)) => println!("at the start:\n{difference}"),
        Some((_, difference)) => println!("at the last of them:\n{difference}"),
        None => println!("played again, it did not fail: the library is not steady"),
    }
    false
}

/// As few of the steps as can be found to fail.
pub fn shortened(steps: Vec<Step>) -> Vec<Step> {
    shrink_damage(shrink(steps, |list| replay(list).map(|(needed, _)| needed)))
}

/// The number of steps, and of words that their damage names.
pub fn size(steps: &[Step]) -> usize {
    let edits = steps.iter().map(|step| match step {
        Step::Call(_) => 0,
        Step::CallOn(damage, _) | Step::StartOn(damage) => damage.edits.len(),
    });
    steps.len() + edits.sum::<usize>()
}

/// Takes words out of the last step's damage as long as the steps still fail.
fn shrink_damage(mut steps: Vec<Step>) -> Vec<Step> {
    let Some(last) = steps.pop() else {
        return steps;
    };
    let with = |edits: &[(usize, u16)]| {
        let mut step = last.clone();
        if let Step::CallOn(damage, _) | Step::StartOn(damage) = &mut step {
            damage.edits = edits.to_vec();
        }
        let mut all = steps.clone();
        all.push(step);
        all
    };
    let edits = match &last {
        Step::Call(_) => return with(&[]),
        Step::CallOn(damage, _) | Step::StartOn(damage) => damage.edits.clone(),
    };
    let fails = |edits: &[(usize, u16)]| replay(&with(edits)).map(|_| edits.len());
    with(&shrink(edits, fails))
}
