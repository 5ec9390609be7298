//! What a caller asks.

use crate::condition::switch;

/// A question to a policy: may the source do this action to the destination, while these switches are on?
///
/// A rule may be on only while one of 32 switches is, numbered 0 to 31. [`Query::new`] and `Query::default` have none
/// on.
///
/// ```
/// use mungaite::Query;
///
/// let query = Query::new(10, 21, 5, 1).with_switch(0).with_switch(31);
/// assert_eq!(query, Query { source: 10, destination: 21, class: 5, action: 1, switches: 0x8000_0001 });
/// assert_eq!(Query { switches: 0, ..query }, Query::new(10, 21, 5, 1));
/// ```
#[derive(Clone, Copy, Debug, Default, PartialEq, Eq, Hash)]
pub struct Query {
    /// The source's type field: a basic type, 0 to 1023, or a [`group`].
    pub source: u16,
    /// The destination's type field.
    pub destination: u16,
    /// The class.
    pub class: u16,
    /// The action.
    pub action: u16,
    /// The switch word: switch `k` is on where its bit, `1 << k`, is set.
    pub switches: u32,
}

impl Query {
    /// A query with no switch on.
    pub const fn new(source: u16, destination: u16, class: u16, action: u16) -> Query {
        Query { source, destination, class, action, switches: 0 }
    }

    /// The same query with switch `k` on too.
    ///
    /// # Panics
    ///
    /// If `k` is above 31.
    ///
    /// ```should_panic
    /// mungaite::Query::new(10, 21, 5, 1).with_switch(32);
    /// ```
    #[must_use]
    #[track_caller]
    pub const fn with_switch(self, k: u8) -> Query {
        Query { switches: self.switches | bit(k), ..self }
    }

    /// The same query with switch `k` off.
    ///
    /// # Panics
    ///
    /// If `k` is above 31.
    ///
    /// ```
    /// let query = mungaite::Query { switches: u32::MAX, ..Default::default() };
    /// assert_eq!(query.without_switch(0).without_switch(0).switches, 0xFFFF_FFFE);
    /// ```
    #[must_use]
    #[track_caller]
    pub const fn without_switch(self, k: u8) -> Query {
        Query { switches: self.switches & !bit(k), ..self }
    }

    /// Whether switch `k` is on.
    ///
    /// # Panics
    ///
    /// If `k` is above 31.
    ///
    /// ```
    /// let query = mungaite::Query::new(10, 21, 5, 1).with_switch(7);
    /// assert!(query.has_switch(7) && !query.has_switch(6));
    /// ```
    #[track_caller]
    pub const fn has_switch(self, k: u8) -> bool {
        self.switches & bit(k) != 0
    }

    /// The twelve bytes of the query, as the program `permit` reads them: the switch word is last.
    ///
    /// ```
    /// let query = mungaite::Query::new(10, 21, 5, 1).with_switch(16);
    /// assert_eq!(query.to_bytes(), [0, 10, 0, 21, 0, 5, 0, 1, 0, 1, 0, 0]);
    /// ```
    pub fn to_bytes(self) -> [u8; 12] {
        let mut bytes = [0; 12];
        for (place, number) in bytes.chunks_exact_mut(2).zip(self.numbers()) {
            place.copy_from_slice(&number.to_be_bytes());
        }
        bytes
    }

    /// The six numbers of a row of a run.
    pub(crate) fn numbers(self) -> [u16; 6] {
        let Query { source, destination, class, action, switches } = self;
        [source, destination, class, action, (switches >> 16) as u16, switches as u16]
    }
}

/// The bit of a switch in the switch word.
#[track_caller]
const fn bit(k: u8) -> u32 {
    1 << switch(k)
}

/// The type field of a group: 32768 and its number.
///
/// ```
/// assert_eq!(mungaite::group(1), 32769);
/// ```
pub const fn group(number: u16) -> u16 {
    0x8000 | number
}

/// A section of an image, in the order in which they stand.
#[derive(Clone, Copy, Debug, PartialEq, Eq, PartialOrd, Ord, Hash)]
pub enum Section {
    /// Groups of basic types.
    Groups = 0,
    /// Allow rules and transitions.
    Rules = 1,
    /// Constraints.
    Constraints = 2,
}

impl Section {
    /// The three sections, in order.
    pub const ALL: [Section; 3] = [Section::Groups, Section::Rules, Section::Constraints];
}
