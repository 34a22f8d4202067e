//! What calls were answered, and what they did: a test that meets too little fails.

use crate::calls::{Call, KINDS};
use crate::library::{Device, Page, Unpaged};
use std::collections::BTreeMap;

/// Which numbers each kind of event gave, and how often.
#[derive(Default)]
pub struct Given(BTreeMap<(&'static str, u8), usize>);

impl Given {
    pub fn note(&mut self, kind: &'static str, number: u8) {
        *self.0.entry((kind, number)).or_default() += 1;
    }

    fn of_kind<'a>(&'a self, kind: &'a str) -> impl Iterator<Item = (u8, usize)> + 'a {
        let all = self.0.iter().filter(move |(key, _)| key.0 == kind);
        all.map(|(key, &count)| (key.1, count))
    }

    /// Fails unless this kind gave exactly these numbers.
    pub fn require(&self, kind: &str, wanted: &[u8]) {
        let got: Vec<u8> = self.of_kind(kind).map(|(number, _)| number).collect();
        assert_eq!(got, wanted, "what {kind} gave");
    }

    /// How often this kind gave this number.
    pub fn count(&self, kind: &'static str, number: u8) -> usize {
        self.0.get(&(kind, number)).copied().unwrap_or(0)
    }

    /// How often each number was given, in a line.
    pub fn counts(&self, kind: &str) -> String {
        let counts: Vec<String> = self
            .of_kind(kind)
            .map(|(number, count)| format!("{number}: {count}"))
            .collect();
        counts.join(", ")
    }
}

/// Which answers each kind of call got, and how often.
#[derive(Default)]
pub struct Seen(Given);

impl Seen {
    pub fn note(&mut self, call: &Call, answer: u8) {
        self.0.note(KINDS[call.kind()], answer);
    }

    /// Fails unless each kind got exactly these answers.
    pub fn require(&self, answers: [&[u8]; 6]) {
        for (kind, wanted) in KINDS.iter().zip(answers) {
            self.0.require(kind, wanted);
        }
    }

    pub fn print(&self) {
        for kind in KINDS {
            println!("    {kind}: answers {}", self.0.counts(kind));
        }
    }
}

/// What calls did to states, so that a run that does nothing is noticed.
#[derive(Default)]
pub struct Changes {
    tripped: usize,
    untripped: usize,
    bits_set: usize,
    bits_cleared: usize,
    alert_up: usize,
    alert_down: usize,
}

impl Changes {
    pub fn note(&mut self, before: &Device, after: &Device) {
        self.note_parts(
            (&before.unpaged, &before.pages),
            (&after.unpaged, &after.pages),
        );
    }

    pub fn note_parts(&mut self, before: (&Unpaged, &[Page]), after: (&Unpaged, &[Page])) {
        for (was, is) in before.1.iter().zip(after.1) {
            self.tripped += usize::from(!was.tripped && is.tripped);
            self.untripped += usize::from(was.tripped && !is.tripped);
            let (was, is) = (
                u32::from_le_bytes(was.status),
                u32::from_le_bytes(is.status),
            );
            self.bits_set += usize::from(is & !was != 0);
            self.bits_cleared += usize::from(was & !is != 0);
        }
        self.alert_up += usize::from(!before.0.alert && after.0.alert);
        self.alert_down += usize::from(before.0.alert && !after.0.alert);
    }

    /// Fails where one of them came no more often than this.
    pub fn print(&self, least: usize) {
        let all = [
            self.tripped,
            self.untripped,
            self.bits_set,
            self.bits_cleared,
            self.alert_up,
            self.alert_down,
        ];
        assert!(all.iter().all(|&count| count > least), "{all:?}");
        println!(
            "    trips {}, untrips {}, bits set {}, cleared {}, alert up {}, down {}",
            all[0], all[1], all[2], all[3], all[4], all[5]
        );
    }
}
