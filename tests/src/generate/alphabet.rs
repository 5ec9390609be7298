//! The few types, classes, actions and switches that a case is made of.

use crate::draft::{allow, constraint, group, switch, transition};
use crate::random::Random;

const BASICS: [u16; 13] = [0, 1, 10, 20, 21, 30, 255, 256, 257, 511, 512, 1022, 1023];
const CLASSES: [u16; 5] = [0, 1, 5, 256, 65535];
const ACTIONS: [u16; 5] = [0, 1, 2, 256, 65535];

pub struct Alphabet {
    basics: Vec<u16>,
    classes: Vec<u16>,
    actions: Vec<u16>,
    switches: Vec<u8>,
    most_members: usize,
}

impl Alphabet {
    /// Most often a few of each. Sometimes all the listed basic types, or many of any kind and large groups of them; in
    /// one of three cases no switch.
    pub fn new(random: &mut Random) -> Alphabet {
        let classes = some_letters(random, &CLASSES, 2);
        let actions = some_letters(random, &ACTIONS, 2);
        let all: Vec<u8> = (0..32).collect();
        let switches = if random.percent(33) { Vec::new() } else { some_letters(random, &all, 3) };
        let (basics, most_members) = match random.of(0..=9) {
            0 => (any_basics(random), 64),
            1 | 2 => (BASICS.to_vec(), 6),
            _ => (some_letters(random, &BASICS, 6), 4),
        };
        Alphabet { basics, classes, actions, switches, most_members }
    }

    pub fn class(&self, random: &mut Random) -> u16 {
        random.pick(&self.classes)
    }

    pub fn action(&self, random: &mut Random) -> u16 {
        random.pick(&self.actions)
    }

    /// A rule's condition: off in one of five cases, and in two a switch, where there are any.
    pub fn condition(&self, random: &mut Random) -> u8 {
        match random.of(0..=4) {
            0 => 0,
            1 | 2 => self.switch(random),
            _ => 1,
        }
    }

    /// The condition of one of its switches; on where it has none.
    pub fn switch(&self, random: &mut Random) -> u8 {
        if self.switches.is_empty() {
            1
        } else {
            switch(random.pick(&self.switches))
        }
    }

    /// A switch word: each of its switches on or off, and the others all off, all on, or any of them on.
    pub fn word(&self, random: &mut Random) -> u32 {
        let others = match random.of(0..=2) {
            0 => 0,
            1 => u32::MAX,
            _ => random.next() as u32,
        };
        self.switches.iter().fold(others, |word, k| if random.percent(50) { word | 1 << k } else { word & !(1 << k) })
    }

    /// Three basic types: its own, where it has as many.
    pub fn three_basics(&self, random: &mut Random) -> [u16; 3] {
        let mut basics = if self.basics.len() < 3 { BASICS.to_vec() } else { self.basics.clone() };
        random.shuffle(&mut basics);
        [basics[0], basics[1], basics[2]]
    }

    /// A valid type field where there are so many groups.
    pub fn type_field(&self, random: &mut Random, groups: usize) -> u16 {
        if groups > 0 && random.percent(55) {
            mungaite::group(random.of(0..=groups - 1) as u16)
        } else {
            random.pick(&self.basics)
        }
    }

    /// A group record: one member in a third of the cases, else several.
    pub fn group(&self, random: &mut Random) -> Vec<u8> {
        let mut members = self.basics.clone();
        random.shuffle(&mut members);
        members.truncate(if random.percent(33) { 1 } else { random.of(1..=self.most_members) });
        members.sort_unstable();
        group(&members)
    }

    /// A rule: a transition in one of seven cases.
    pub fn rule(&self, random: &mut Random, groups: usize) -> Vec<u8> {
        let source = self.type_field(random, groups);
        let destination = self.type_field(random, groups);
        if random.percent(14) {
            transition(source, destination, self.class(random))
        } else {
            let (class, action) = (self.class(random), self.action(random));
            allow(source, destination, class, action, self.condition(random))
        }
    }

    /// A constraint of any of the four predicates.
    pub fn constraint(&self, random: &mut Random, groups: usize) -> Vec<u8> {
        let first = self.type_field(random, groups);
        let second = self.type_field(random, groups);
        let predicate = random.of(0..=3) as u8;
        let most = if random.percent(10) { 16 } else { 4 };
        let listed = if predicate == 2 { random.of(1..=most) } else { 0 };
        let list: Vec<u16> = (0..listed).map(|_| self.type_field(random, groups)).collect();
        constraint(self.class(random), self.action(random), first, second, predicate, &list)
    }
}

fn some_letters<T: Copy>(random: &mut Random, letters: &[T], most: usize) -> Vec<T> {
    let mut letters = letters.to_vec();
    random.shuffle(&mut letters);
    letters.truncate(random.of(1..=most));
    letters
}

fn any_basics(random: &mut Random) -> Vec<u16> {
    let mut basics: Vec<u16> = (0..70).map(|_| random.of(0..=1023) as u16).collect();
    basics.sort_unstable();
    basics.dedup();
    basics
}
