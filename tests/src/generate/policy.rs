//! Random policies that are accepted.

use super::alphabet::Alphabet;
use super::groups::{fresh_group, full_groups, named_group};
use crate::draft::{allow, constraint, transition, Draft, COMPANION, ROSTER, SEPARATION};
use crate::random::Random;

/// A small policy, in one of ten cases about a separation, in two about a constraint that a switch decides. Of the
/// others one of twenty is larger, and one of a hundred has a section at its limit.
pub fn policy(random: &mut Random, alphabet: &Alphabet) -> Draft {
    let mut counts = [random.of(0..=4), random.of(0..=7), random.of(0..=4)];
    let about: Option<fn(&mut Random, &Alphabet, &mut Draft)> = match random.of(0..=9) {
        0 => Some(add_separation),
        1 | 2 => Some(add_switched),
        _ => None,
    };
    if about.is_some() {
        counts[1] = random.of(0..=2);
    } else if random.percent(5) {
        counts = [random.of(0..=40), random.of(0..=80), random.of(0..=30)];
    }
    if about.is_none() && random.percent(1) {
        let full = random.of(0..=2);
        counts[full] = [256, 1024, 256][full];
    }
    let mut draft = Draft::default();
    for _ in 0..counts[0] {
        let group = fresh_group(random, alphabet, &draft.groups);
        draft.groups.extend(group);
    }
    if counts[0] == 256 {
        full_groups(random, &mut draft.groups);
    }
    let groups = draft.groups.len();
    draft.rules.extend((0..counts[1]).map(|_| alphabet.rule(random, groups)));
    draft.constraints.extend((0..counts[2]).map(|_| alphabet.constraint(random, groups)));
    if let Some(add) = about {
        add(random, alphabet, &mut draft);
    }
    draft
}

/// Adds a separation, a rule to each of its arguments and a rule that covers a query within them. The sources of the
/// two are groups that share one of their two members, or a member.
fn add_separation(random: &mut Random, alphabet: &Alphabet, draft: &mut Draft) {
    let [left, shared, right] = alphabet.three_basics(random);
    let [one, other] = [[left, shared], [shared, right]].map(|mut members| {
        members.sort_unstable();
        named_group(draft, members)
    });
    let sources = [one, other, one, other, left, shared, right];
    let [first, second, _] = alphabet.three_basics(random);
    let (class, action) = (alphabet.class(random), alphabet.action(random));
    for destination in [first, second] {
        let (class, action) = (alphabet.class(random), alphabet.action(random));
        draft.rules.push(allow(random.pick(&sources), destination, class, action, alphabet.condition(random)));
    }
    draft.rules.push(match random.of(0..=1) {
        0 => transition(first, second, alphabet.class(random)),
        _ => allow(first, second, class, action, 1),
    });
    random.shuffle(&mut draft.rules);
    draft.constraints.push(constraint(class, action, first, second, SEPARATION, &[]));
}

/// Adds a constraint, a rule that covers a query within its arguments, and one that waits for a switch and, while that
/// is on, breaks a separation or a roster or is a companion.
fn add_switched(random: &mut Random, alphabet: &Alphabet, draft: &mut Draft) {
    let [first, second, third] = alphabet.three_basics(random);
    let (predicate, list, source, destination) = match random.of(0..=2) {
        0 => (SEPARATION, vec![], third, first),
        1 => (ROSTER, vec![first], third, second),
        _ => (COMPANION, vec![], second, first),
    };
    if predicate == SEPARATION {
        draft.rules.push(allow(third, second, alphabet.class(random), alphabet.action(random), 1));
    }
    draft.rules.push(allow(
        source,
        destination,
        alphabet.class(random),
        alphabet.action(random),
        alphabet.switch(random),
    ));
    draft.rules.push(transition(first, second, alphabet.class(random)));
    random.shuffle(&mut draft.rules);
    let (class, action) = (alphabet.class(random), alphabet.action(random));
    draft.constraints.insert(0, constraint(class, action, first, second, predicate, &list));
}
