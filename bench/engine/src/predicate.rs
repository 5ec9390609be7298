//! What a constraint's predicate says of the live rules, once the query is within both arguments. The query plays no
//! further part.

use crate::constraints::Constraint;
use crate::record::{COMPANION, ROSTER, SEPARATION};
use crate::set::Set;
use crate::sets::{Against, Sets};
use crate::types::Types;

/// Source and destination of a live rule.
pub type Pair = (u16, u16);

/// A separation alone asks for whole groups: `include` puts a group's members into a set.
pub fn holds<S: Sets>(
    constraint: &Constraint<'_>,
    sets: &S,
    live: impl Iterator<Item = Pair>,
    include: impl FnMut(usize, &mut Set),
) -> bool {
    match constraint.predicate {
        SEPARATION => separation(constraint, sets, live, include),
        ROSTER => roster(constraint, sets, live),
        COMPANION => companion(constraint, sets, live),
        _ => false,
    }
}

/// No basic type reaches both arguments. Sources are gathered as types, each of them once, and looked into at the end;
/// a rule that reaches both is enough, as no set is empty.
fn separation<S: Sets>(
    constraint: &Constraint<'_>,
    sets: &S,
    live: impl Iterator<Item = Pair>,
    mut include: impl FnMut(usize, &mut Set),
) -> bool {
    let mut first = Against::new(sets, [constraint.first]);
    let mut second = Against::new(sets, [constraint.second]);
    let mut to_first = Types::NONE;
    let mut to_second = Types::NONE;
    for (source, destination) in live {
        match (first.touched_by(destination), second.touched_by(destination)) {
            (true, true) => return false,
            (true, false) => to_first.insert(source),
            (false, true) => to_second.insert(source),
            (false, false) => {}
        }
    }
    to_first.is_empty() || !to_first.union(&mut include).touches(&to_second.union(include))
}

/// Whoever reaches the second argument is on the list.
fn roster<S: Sets>(constraint: &Constraint<'_>, sets: &S, mut live: impl Iterator<Item = Pair>) -> bool {
    let mut second = Against::new(sets, [constraint.second]);
    let mut list = Against::new(sets, constraint.list());
    live.all(|(source, destination)| !second.touched_by(destination) || list.holds(source))
}

/// Someone of the second argument reaches the first.
fn companion<S: Sets>(constraint: &Constraint<'_>, sets: &S, mut live: impl Iterator<Item = Pair>) -> bool {
    let mut first = Against::new(sets, [constraint.first]);
    let mut second = Against::new(sets, [constraint.second]);
    live.any(|(source, destination)| second.touched_by(source) && first.touched_by(destination))
}
