//! When an allow rule is on.

use std::fmt;

/// What makes an allow rule on. A text writes it as it is shown here: `off`, `on`, or `s0` to `s31` for a switch. In
/// the rule's record it is the last byte.
///
/// ```
/// use mungaite::{build, record, Condition, Section};
///
/// let mut buffer = [0; 64];
/// let image = build(b"allow 15 21 5 1 s7\ntrans 12 20 5\n", &mut buffer).unwrap();
/// let condition = Condition::of(record(image, Section::Rules, 0).unwrap());
/// assert_eq!(condition, Some(Condition::Switch(7)));
/// assert_eq!(condition.unwrap().to_string(), "s7");
///
/// // A transition has none.
/// assert_eq!(Condition::of(record(image, Section::Rules, 1).unwrap()), None);
/// ```
#[derive(Clone, Copy, Debug, PartialEq, Eq, Hash)]
pub enum Condition {
    /// The rule is off, whatever the switches.
    Off,
    /// The rule is on, whatever the switches.
    On,
    /// The rule is on while this switch is, 0 to 31.
    Switch(u8),
}

/// The byte of switch 0.
const FIRST_SWITCH: u8 = 2;

impl Condition {
    /// The condition of an allow rule, given its record; `None` for other records and for other bytes.
    pub fn of(record: &[u8]) -> Option<Condition> {
        match *record {
            [11, 2, _, _, _, _, _, _, _, _, byte] => match byte {
                0 => Some(Condition::Off),
                1 => Some(Condition::On),
                FIRST_SWITCH..=33 => Some(Condition::Switch(byte - FIRST_SWITCH)),
                _ => None,
            },
            _ => None,
        }
    }

    /// The byte that stands for it in a record: 0 for off, 1 for on, 2 to 33 for switches 0 to 31.
    ///
    /// # Panics
    ///
    /// If it is a switch above 31.
    ///
    /// ```
    /// use mungaite::Condition;
    ///
    /// assert_eq!([Condition::Off, Condition::On, Condition::Switch(0)].map(Condition::byte), [0, 1, 2]);
    /// ```
    #[track_caller]
    pub const fn byte(self) -> u8 {
        match self {
            Condition::Off => 0,
            Condition::On => 1,
            Condition::Switch(k) => FIRST_SWITCH + switch(k),
        }
    }
}

/// A switch's number.
#[track_caller]
pub(crate) const fn switch(k: u8) -> u8 {
    assert!(k < 32, "switches are numbered 0 to 31");
    k
}

impl fmt::Display for Condition {
    fn fmt(&self, f: &mut fmt::Formatter<'_>) -> fmt::Result {
        match self {
            Condition::Off => write!(f, "off"),
            Condition::On => write!(f, "on"),
            Condition::Switch(k) => write!(f, "s{k}"),
        }
    }
}
