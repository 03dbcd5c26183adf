//! What tells the comparisons of a call, the largest number of any of its
//! rounds, from other numbers that might be taken for them.

use reference::call::Answer;

/// The names of those that hold of an answer.
pub fn told(answer: &Answer) -> impl Iterator<Item = &'static str> {
    let (each, most) = (&answer.compared, answer.comparisons());
    let first = each.first().is_some_and(|n| *n != most);
    let last = each.last().is_some_and(|n| *n != most);
    [
        ("comparisons", most > 0),
        ("comparisons, the most not in the first round", first),
        ("comparisons, the most not in the last round", last),
        ("comparisons, the most in neither", first && last),
        ("comparisons, the most not the sum of all rounds", each.iter().sum::<u64>() != most),
    ]
    .into_iter()
    .filter_map(|(name, holds)| holds.then_some(name))
}
