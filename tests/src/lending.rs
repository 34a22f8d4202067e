//! A call over lent records, made on the library and on the second program.

use crate::calls::{Call, GUARD};
use crate::library::{lent, Page, Unpaged};
use crate::mirror;
use reference::lent as second;

/// What a call leaves: the unpaged part, the records, the answer and the reply buffer.
#[derive(Clone, Debug, PartialEq, Eq)]
pub struct Outcome {
    pub unpaged: Unpaged,
    pub pages: Vec<Page>,
    pub answer: u8,
    pub reply: Vec<u8>,
}

/// The records with one more before and one more behind them, which no call may touch.
pub struct Fenced {
    room: Vec<Page>,
    fence: Page,
}

impl Fenced {
    pub fn new(pages: &[Page], fence: Page) -> Fenced {
        let mut room = vec![fence];
        room.extend(pages);
        room.push(fence);
        Fenced { room, fence }
    }

    pub fn lent(&mut self) -> &mut [Page] {
        let end = self.room.len() - 1;
        &mut self.room[1..end]
    }

    pub fn back(mut self) -> Vec<Page> {
        let ends = [self.room.pop(), Some(self.room.remove(0))];
        assert_eq!(ends, [Some(self.fence); 2], "a record beside those lent");
        self.room
    }
}

fn on_library(u: Unpaged, pages: &[Page], call: &Call, before: u8, fence: Page) -> Outcome {
    let n = call.clocked();
    let mut room = vec![before; n + GUARD];
    let reply = &mut room[..n];
    let mut fenced = Fenced::new(pages, fence);
    let records = fenced.lent();
    let done = match call {
        Call::Write(bytes) => lent::write(u, records, bytes),
        Call::Read(header, _) => lent::read(u, records, header, reply),
        Call::Measure(page, quantity, word) => lent::measure(u, records, *page, *quantity, *word),
        Call::Sample(sample) => lent::sample(u, records, *sample),
        Call::AlertResponse(_) => lent::alert_response(u, records, reply),
        Call::Tick => lent::tick(u, records),
    };
    assert_eq!(room[n..], [before; GUARD], "behind the reply: {call:02x?}");
    room.truncate(n);
    Outcome {
        unpaged: done.unpaged,
        pages: fenced.back(),
        answer: done.answer,
        reply: room,
    }
}

fn on_reference(u: Unpaged, pages: &[Page], call: &Call, before: u8) -> Outcome {
    let mut unpaged = mirror::unpaged_to_reference(&u);
    let mut records: Vec<_> = pages.iter().map(mirror::page_to_reference).collect();
    let mut reply = vec![before; call.clocked()];
    let answer = match call {
        Call::Write(bytes) => second::write(&mut unpaged, &mut records, bytes),
        Call::Read(header, _) => second::read(&mut unpaged, &records, header, &mut reply),
        Call::Measure(page, quantity, word) => {
            second::measure(&mut unpaged, &mut records, *page, *quantity, *word)
        }
        Call::Sample(sample) => second::sample(&mut unpaged, &records, *sample),
        Call::AlertResponse(_) => second::alert_response(&mut unpaged, &records, &mut reply),
        Call::Tick => second::tick(&unpaged, &mut records),
    };
    Outcome {
        unpaged: mirror::unpaged_from_reference(&unpaged),
        pages: records.iter().map(mirror::page_from_reference).collect(),
        answer,
        reply,
    }
}

/// The call on both: fails where a field of the unpaged part or of any record, the answer or a reply byte differs, or where a record
/// beside those lent is touched.
pub fn on_both(u: Unpaged, pages: &[Page], call: &Call, before: u8, fence: Page) -> Outcome {
    let ours = on_library(u, pages, call, before, fence);
    let theirs = on_reference(u, pages, call, before);
    assert_eq!(
        ours,
        theirs,
        "library left, second program right: {call:02x?} with {} records",
        pages.len()
    );
    ours
}
