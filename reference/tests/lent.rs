//! The device whose page records are lent.

mod common;

use common::*;
use reference::device::{Account, Choice, Device, Format, Machine, Page, Reading, ALL_PAGES};
use reference::lent::{self, Unpaged, MOST};

/// Numbers with no pattern to them.
struct Random(u64);

impl Random {
    fn below(&mut self, bound: usize) -> usize {
        self.0 = self
            .0
            .wrapping_mul(6_364_136_223_846_793_005)
            .wrapping_add(1_442_695_040_888_963_407);
        (self.0 >> 33) as usize % bound
    }

    fn byte(&mut self) -> u8 {
        self.below(256) as u8
    }

    fn word(&mut self) -> u16 {
        self.below(65_536) as u16
    }

    fn pick<T: Copy>(&mut self, choices: &[T]) -> T {
        choices[self.below(choices.len())]
    }

    /// A valid record with any values.
    fn page(&mut self) -> Page {
        let mut page = Page::power_on();
        page.operation = self.pick(&[0x00, 0x40, 0x80]);
        page.vout_command = self.word();
        page.limits = [0; 6].map(|_: u16| self.word());
        page.warn_limits = [0; 5].map(|_: u16| self.word());
        page.responses = [0; 6].map(|_: u8| self.byte());
        page.responses[1] = self.pick(&[0x00, 0xC0]);
        page.status = [0; 4].map(|_: u8| self.pick(&[0x00, 0x90, 0xFF]));
        page.tripped = self.below(2) == 0;
        page.machines = [Machine::AT_REST; 5].map(|_| self.machine());
        page.readings = [Reading::default(); 4].map(|_| Reading {
            measured: self.below(2) == 0,
            word: self.word(),
        });
        page.formats = self.choice().formats;
        page
    }

    /// A valid choice, linear and DIRECT.
    fn choice(&mut self) -> Choice {
        let format = |random: &mut Random| Format {
            direct: random.below(2) == 0,
            m: random.pick(&[1, -1, 3, -700, i16::MIN]),
            b: random.word() as i16,
            r: random.below(13) as i8 - 6,
        };
        Choice {
            formats: [(); 3].map(|_| format(self)),
            limits: [(); 6].map(|_| self.word()),
        }
    }

    /// Any of the machines that occur.
    fn machine(&mut self) -> Machine {
        loop {
            let machine = Machine {
                phase: self.below(5) as u8,
                ticks: self.below(8) as u8,
                tries: self.below(8) as u8,
            };
            if machine.valid() {
                return machine;
            }
        }
    }

    fn unpaged(&mut self, pages: usize) -> Unpaged {
        Unpaged {
            page: match self.below(4) {
                0 => ALL_PAGES,
                _ => self.below(pages) as u8,
            },
            protect: self.pick(&[0x00, 0x00, 0x00, 0x20, 0x40, 0x80]),
            cml: self.pick(&[0x00, 0x02, 0xFF]),
            alert: self.below(2) == 0,
            account: Account {
                accumulator: self.word() & 0x7FFF,
                rollover: u16::from(self.byte()),
                samples: self.below(1 << 24) as u32,
            },
        }
    }

    /// A call of any kind, more often good than not.
    fn call(&mut self, pages: usize) -> Call {
        match self.below(9) {
            8 => Call::Tick,
            0..=3 => {
                let (code, data) = self.pick(&WRITTEN);
                let mut bytes = vec![0xC0, code];
                for _ in 0..data {
                    let byte = self.byte();
                    bytes.push(self.pick(&[0x00, 0x80, 0xC0, 0xFF, byte]));
                }
                if code == 0x00 {
                    bytes[2] = self.pick(&[0, pages as u8 - 1, pages as u8, 0xFF]);
                }
                Call::Write(bytes)
            }
            4 if self.below(4) == 0 => {
                let of = self.pick(&READABLE).0;
                let direction = self.below(3) as u8;
                Call::Read(vec![0xC0, 0x30, 0x02, of, direction, 0xC1], self.below(10))
            }
            4 => Call::Read(vec![0xC0, self.pick(&READABLE).0, 0xC1], self.below(10)),
            5 | 6 => Call::Measure(
                self.below(pages + 1) as u8,
                self.below(5) as u8,
                self.word(),
            ),
            _ if self.below(2) == 0 => Call::Sample(self.word()),
            _ => Call::Alert(self.below(3)),
        }
    }
}

#[derive(Clone, Debug)]
enum Call {
    Write(Vec<u8>),
    Read(Vec<u8>, usize),
    Measure(u8, u8, u16),
    Sample(u16),
    Alert(usize),
    Tick,
}

/// The call on lent records: its answer and reply.
fn on_lent(unpaged: &mut Unpaged, pages: &mut [Page], call: &Call) -> (u8, Vec<u8>) {
    let mut reply = Vec::new();
    let answer = match call {
        Call::Write(bytes) => lent::write(unpaged, pages, bytes),
        Call::Read(header, n) => {
            reply.resize(*n, 0x55);
            lent::read(unpaged, pages, header, &mut reply)
        }
        Call::Measure(page, quantity, word) => {
            lent::measure(unpaged, pages, *page, *quantity, *word)
        }
        Call::Sample(sample) => lent::sample(unpaged, pages, *sample),
        Call::Alert(n) => {
            reply.resize(*n, 0x55);
            lent::alert_response(unpaged, pages, &mut reply)
        }
        Call::Tick => lent::tick(unpaged, pages),
    };
    (answer, reply)
}

/// The same call on the device of eight pages.
fn on_device(device: &mut Device, call: &Call) -> (u8, Vec<u8>) {
    match call {
        Call::Write(bytes) => (device.write(bytes), Vec::new()),
        Call::Read(header, n) => read_header(device, header, *n),
        Call::Measure(page, quantity, word) => {
            (device.measure(*page, *quantity, *word), Vec::new())
        }
        Call::Sample(sample) => (device.sample(*sample), Vec::new()),
        Call::Alert(n) => alert(device, *n),
        Call::Tick => (device.tick(), Vec::new()),
    }
}

/// One call of each kind that is good with any number of pages.
fn one_of_each() -> [Call; 6] {
    [
        Call::Write(vec![0xC0, 0x03]),
        Call::Read(vec![0xC0, 0x98, 0xC1], 3),
        Call::Measure(0, 0, 0xFFFF),
        Call::Sample(1),
        Call::Alert(1),
        Call::Tick,
    ]
}

/// Every kind of call gets 15, changes nothing and replies FFh throughout.
fn all_get_15(unpaged: Unpaged, pages: &[Page]) {
    assert!(!lent::valid(&unpaged, pages));
    for call in one_of_each() {
        let (mut after, mut records) = (unpaged, pages.to_vec());
        let (answer, reply) = on_lent(&mut after, &mut records, &call);
        assert_eq!(answer, 15, "{call:?}");
        assert_eq!((after, &records[..]), (unpaged, pages));
        assert!(reply.iter().all(|&byte| byte == 0xFF));
    }
}

fn none_gets_15(unpaged: Unpaged, pages: &[Page]) {
    for call in one_of_each() {
        let (mut after, mut records) = (unpaged, pages.to_vec());
        assert_ne!(on_lent(&mut after, &mut records, &call).0, 15, "{call:?}");
    }
}

#[test]
fn power_on_sets_every_record() {
    let mut random = Random(1);
    for count in 1..=MOST {
        let mut pages: Vec<Page> = (0..count).map(|_| random.page()).collect();
        pages[count / 2].operation = 0xAB;
        let (unpaged, answer) = lent::power_on(&mut pages);
        assert_eq!((unpaged, answer), (Unpaged::power_on(), 0));
        assert!(pages.iter().all(|page| *page == Page::power_on()));
        none_gets_15(unpaged, &pages);
    }
}

#[test]
fn power_on_with_none_or_too_many() {
    let mut random = Random(2);
    for count in [0, 97, 98, 200, 255, 256, 257, 352] {
        let mut pages: Vec<Page> = (0..count).map(|_| random.page()).collect();
        let before = pages.clone();
        let (unpaged, answer) = lent::power_on(&mut pages);
        assert_eq!((unpaged, answer), (Unpaged::power_on(), 15));
        assert_eq!(pages, before);
    }
}

/// One choice a record; 15 comes before 27, and only 15 leaves the records alone.
#[test]
fn power_on_with_choices() {
    let mut random = Random(5);
    for count in [0, 1, 2, 8, 95, 96, 97, 300] {
        for told in [0, 1, 2, 7, 8, 9, 95, 96, 97, 300] {
            let mut pages: Vec<Page> = (0..count).map(|_| random.page()).collect();
            let mut choices: Vec<Choice> = (0..told).map(|_| random.choice()).collect();
            let before = pages.clone();
            let (unpaged, answer) = lent::power_on_with(&mut pages, &choices);
            assert_eq!(unpaged, Unpaged::power_on());
            if count == 0 || count > 96 {
                assert_eq!((answer, pages), (15, before));
                continue;
            }
            if count != told {
                assert_eq!((answer, pages), (27, vec![Page::power_on(); count]));
                continue;
            }
            assert_eq!(answer, 0);
            for (page, choice) in pages.iter().zip(&choices) {
                assert_eq!(*page, Page::power_on_with(choice));
            }
            choices[told - 1].formats[2] = Format::direct(0, 0, 0);
            let (unpaged, answer) = lent::power_on_with(&mut pages, &choices);
            assert_eq!((unpaged, answer), (Unpaged::power_on(), 27));
            assert_eq!(pages, vec![Page::power_on(); count]);
        }
    }
}

#[test]
fn calls_with_none_or_too_many() {
    for count in [0, 97, 255, 256, 257, 352] {
        all_get_15(Unpaged::power_on(), &vec![Page::power_on(); count]);
    }
}

#[test]
fn the_selected_page_must_be_there() {
    for count in 1..=MOST {
        let pages = vec![Page::power_on(); count];
        for page in 0..=255u8 {
            let unpaged = Unpaged {
                page,
                ..Unpaged::power_on()
            };
            if usize::from(page) < count || page == 0xFF {
                none_gets_15(unpaged, &pages);
            } else {
                all_get_15(unpaged, &pages);
            }
        }
    }
}

#[test]
fn any_record_or_the_unpaged_part() {
    let usual = Unpaged::power_on();
    for count in [1, 8, 96] {
        for place in [0, count / 2, count - 1] {
            let mut pages = vec![Page::power_on(); count];
            pages[place].operation = 0x81;
            all_get_15(usual, &pages);
            pages[place] = Page::power_on();
            pages[place].responses[1] = 0x80;
            all_get_15(usual, &pages);
            pages[place] = Page::power_on();
            pages[place].machines[4].tries = 1;
            all_get_15(usual, &pages);
        }
        let pages = vec![Page::power_on(); count];
        let mut bad = usual;
        bad.protect = 0x81;
        all_get_15(bad, &pages);
        let mut bad = usual;
        bad.account.rollover = 0x100;
        all_get_15(bad, &pages);
    }
}

#[test]
fn the_number_of_records_is_the_page_limit() {
    for count in 1..=MOST {
        let mut pages = vec![Page::power_on(); count];
        for page in 0..=255u8 {
            let there = usize::from(page) < count;
            let mut unpaged = Unpaged::power_on();
            let answer = lent::write(&mut unpaged, &mut pages, &[0xC0, 0x00, page]);
            assert_eq!(answer, if there || page == 0xFF { 0 } else { 9 });
            let answer = lent::measure(&mut unpaged, &mut pages, page, 0, 0x1000);
            assert_eq!(answer, if there { 0 } else { 12 });
            assert!(!lent::supplies(&pages, usize::from(page)));
            if there {
                pages[usize::from(page)].operation = 0x80;
                assert!(lent::supplies(&pages, usize::from(page)));
                pages[usize::from(page)].operation = 0x00;
            }
        }
    }
}

/// From equal fields the two devices answer, reply and change alike.
#[test]
fn eight_lent_records_are_the_device_of_eight_pages() {
    let mut random = Random(3);
    for round in 0..20_000 {
        let mut unpaged = random.unpaged(8);
        let mut pages: [Page; 8] = std::array::from_fn(|_| random.page());
        match round % 40 {
            3 => pages[random.below(8)].machines[random.below(5)].phase = random.byte(),
            0 => unpaged.page = random.byte(),
            1 => pages[random.below(8)].operation = random.byte(),
            2 => unpaged.account.accumulator = random.word(),
            _ => {}
        }
        let mut device = Device::from_parts(unpaged, pages);
        assert_eq!(device.lend(), (unpaged, pages));
        for _ in 0..8 {
            let call = random.call(8);
            let lent = on_lent(&mut unpaged, &mut pages, &call);
            assert_eq!(on_device(&mut device, &call), lent, "{call:?}");
            assert_eq!(device, Device::from_parts(unpaged, pages));
        }
    }
}

/// The records that a call leaves alone (data sheet 16.5).
#[test]
fn records_that_a_call_leaves_alone() {
    let mut random = Random(4);
    for count in [1, 2, 8, 33, 95, 96] {
        let mut pages: Vec<Page> = (0..count).map(|_| random.page()).collect();
        let (mut unpaged, _) = lent::power_on(&mut pages);
        let mut changed = 0;
        for _ in 0..4_000 {
            let call = random.call(count);
            unpaged.protect = 0x00;
            let (before, records) = (unpaged, pages.clone());
            on_lent(&mut unpaged, &mut pages, &call);
            for (place, record) in records.iter().enumerate() {
                let touched = match call {
                    Call::Write(_) => before.page == ALL_PAGES || usize::from(before.page) == place,
                    Call::Measure(page, _, _) => usize::from(page) == place,
                    Call::Tick => pages[place].status == record.status,
                    _ => false,
                };
                assert!(touched || pages[place] == *record, "{call:?} page {place}");
                changed += usize::from(pages[place] != *record);
            }
        }
        assert!(changed > 1_000);
    }
}
