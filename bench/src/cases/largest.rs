//! The largest policy: 256 groups of 64 members, 1,024 allow rules and 256 rosters of 16 list types.

use mungaite_tests::draft::{allow, constraint, Draft, ROSTER};

/// Groups by numbers below 256, which tell their members, with rules and constraints whose types are given by a number.
pub fn largest(groups: impl IntoIterator<Item = u16>, type_of: impl Fn(u16) -> u16) -> Draft {
    let mut policy = Draft::default();
    for group in groups {
        policy.add_group((0..64).map(|member| member * 16 + if member < 32 { group % 16 } else { group / 16 }));
    }
    for rule in 0..1024 {
        let (source, destination) = (type_of(rule * 5), type_of(rule * 7 + 3));
        policy.rules.push(allow(source, destination, rule * 61, rule * 37, (rule % 8 != 7).into()));
    }
    for number in 0..256 {
        let list: Vec<u16> = (0..16).map(|place| type_of(number + place * 63)).collect();
        let (first, second) = (type_of(number * 11), type_of(number * 13 + 1));
        policy.constraints.push(constraint(number * 241, number * 97, first, second, ROSTER, &list));
    }
    policy
}

/// Every other type is a group, by a name for each group.
pub fn every_other_a_group(n: u16, name: impl Fn(u16) -> u16) -> u16 {
    if n.is_multiple_of(2) {
        mungaite::group(name(n % 256))
    } else {
        n % 1024
    }
}
