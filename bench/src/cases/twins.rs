//! Groups that are much alike, and images with twins beside what they are converted to.

use super::largest::{every_other_a_group, largest};
use crate::contest::Case;
use mungaite_tests::draft::Draft;

/// The largest policy; and 256 groups of 64 members, alike but for one member or two. They have the first, a middle and
/// the last member in common, and no two are twins.
pub fn checked() -> [Case; 5] {
    let alike = |name: &str, members: fn(u16) -> Vec<u16>| {
        let mut policy = Draft::default();
        for group in 0..256 {
            policy.add_group(members(group));
        }
        Case { name: name.to_string(), image: policy.image(), queries: Vec::new() }
    };
    let image = largest(0..256, |n| every_other_a_group(n, |group| group)).image();
    [
        Case { name: "largest".to_string(), image, queries: Vec::new() },
        alike("256 groups, the 21st member differs", one_differs),
        alike("256 groups, the second differs", |group| [&[0, 1 + group], &run(500, 62)[..]].concat()),
        alike("256 groups, the second last differs", |group| [&run(0, 62)[..], &[100 + group, 1023]].concat()),
        alike("256 groups, two differ, of one sum", |group| {
            [&run(0, 20)[..], &[100 + group], &run(500, 22), &[900 - group], &run(1000, 20)].concat()
        }),
    ]
}

/// Members of a group that differs from other such groups in one that is neither at an end nor in the middle.
pub fn one_differs(group: u16) -> Vec<u16> {
    [&run(0, 20)[..], &[100 + group], &run(500, 43)].concat()
}

fn run(from: u16, count: u16) -> Vec<u16> {
    (from..from + count).collect()
}

/// An image and what it is to be converted to.
pub struct Conversion {
    pub name: &'static str,
    pub old: Vec<u8>,
    pub new: Vec<u8>,
}

/// The largest policy: without twins; with half of its groups twins of others, which stand beside them or before; and
/// with 256 groups that are all alike.
pub fn conversions() -> [Conversion; 4] {
    [
        Conversion::new("largest, no twins", 256, |group| group),
        Conversion::new("largest, each second group a twin", 128, |group| group / 2),
        Conversion::new("largest, the second half twins", 128, |group| group % 128),
        Conversion::new("largest, 256 groups alike", 1, |_| 0),
    ]
}

impl Conversion {
    /// So many groups stay, and each group's new number tells its members.
    fn new(name: &'static str, kept: u16, number: fn(u16) -> u16) -> Conversion {
        let old = largest((0..256).map(number), |n| every_other_a_group(n, |group| group));
        let new = largest(0..kept, |n| every_other_a_group(n, number));
        Conversion { name, old: old.image(), new: new.image() }
    }
}

#[cfg(test)]
mod tests {
    use super::*;
    use mungaite::{check, convert, Refusal, LARGEST};

    #[test]
    fn groups_that_are_much_alike_are_no_twins() {
        let images = checked().map(|case| case.image);
        assert_eq!(images.each_ref().map(|image| image.len()), [LARGEST, 33_289, 33_289, 33_289, 33_289]);
        for image in images {
            assert_eq!([check(&image), hand_written::check(&image)], [Ok(()); 2]);
        }
    }

    #[test]
    fn the_first_twin_is_named() {
        let twin = |group: u16| Err(Refusal { number: 19, place: 9 + 130 * group });
        let checks = [Ok(()), twin(1), twin(128), twin(1)];
        assert_eq!(conversions().map(|conversion| check(&conversion.old)), checks);
        assert_eq!(conversions().map(|conversion| hand_written::check(&conversion.old)), checks);
    }

    #[test]
    fn images_are_converted_to_the_policy_without_twins() {
        let lengths = [55_561, 38_921, 38_921, 22_411];
        assert_eq!(conversions().map(|conversion| conversion.new.len()), lengths);
        for Conversion { name, old, new } in conversions() {
            assert_eq!(convert(&old, &mut [0; LARGEST]), Ok(&new[..]), "{name}");
            let mut buffer = [0; LARGEST];
            assert_eq!(hand_written::convert(&old, &mut buffer), Ok(new.len()), "{name}");
            assert_eq!(buffer[..new.len()], new, "{name}");
        }
    }
}
