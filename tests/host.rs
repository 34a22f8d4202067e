//! The host's frames, replies and totalizer by code: the library against the second program, and what it builds on the library's devices.

use conformance::buffer::{decode, encode, Lent, AT_REST};
use conformance::calls::{on_both, Call};
use conformance::library::stream::ACK;
use conformance::library::{self, host, Account, Built, Device, Reply, Taken, Totalizer};
use conformance::mirror;
use conformance::random::Random;
use conformance::states;
use conformance::streaming::{events_of, on_library, Event};
use conformance::tally::Given;
use reference::command::{self, Command};
use reference::host as second;
use reference::pec;

/// The most data bytes tried; the table has seven at most.
const MOST_DATA: usize = 9;
/// The longest of the small buffers; the longest frame has five bytes.
const MOST_ROOM: usize = 16;
const READ_EIN: u8 = 0x86;
const FRAMES: usize = 1_000_000;
const TRANSACTIONS: usize = 300_000;
const REPLIES: usize = 1_000_000;

/// What the host asks for: a write of a code with its data, or a read of a code, with PEC or without.
#[derive(Clone, Debug)]
enum Wish {
    Write(u8, Vec<u8>, bool),
    Read(u8, bool),
}

impl Wish {
    fn name(&self) -> &'static str {
        match self {
            Wish::Write(..) => "write",
            Wish::Read(..) => "read",
        }
    }

    fn on_library(&self, buffer: &mut [u8], place: usize) -> Built {
        match self {
            Wish::Write(code, data, check) => host::write(buffer, place, *code, data, *check),
            Wish::Read(code, check) => host::read(buffer, place, *code, *check),
        }
    }

    fn on_second(&self, buffer: &mut [u8], place: usize) -> Built {
        let built = match self {
            Wish::Write(code, data, check) => second::write(buffer, place, *code, data, *check),
            Wish::Read(code, check) => second::read(buffer, place, *code, *check),
        };
        mirror::built_from_reference(&built)
    }
}

/// The answers that the two kinds of frame may get.
const ANSWERS: [(&str, &[u8]); 2] = [("write", &[0, 3, 5, 6, 26]), ("read", &[0, 3, 26])];

fn print(given: &Given) {
    for (name, _) in ANSWERS {
        println!("    {name}: answers {}", given.counts(name));
    }
}

/// Builds a frame in a buffer of random bytes on both: fails where the result or any byte of the buffer differs, where a byte beside the
/// buffer is touched, or where a refusal touches any.
fn build_on_both(random: &mut Random, size: usize, place: usize, wish: &Wish) -> Built {
    let before = random.bytes(size);
    let mut lent = Lent::new(random, &before);
    let ours = wish.on_library(lent.bytes_mut(), place);
    lent.check();
    let mut due = before.clone();
    let theirs = wish.on_second(&mut due, place);
    assert_eq!(
        ours, theirs,
        "library left, second program right: {wish:02x?} at {place} of {size}"
    );
    assert_eq!(lent.bytes(), due, "{wish:02x?} at {place} of {size}");
    if ours.answer != 0 {
        assert_eq!(lent.bytes(), before, "{wish:02x?} at {place} of {size}");
    }
    ours
}

#[test]
fn every_code_in_every_small_buffer() {
    let mut random = Random::new(40);
    let mut given = Given::default();
    let mut count = 0;
    for code in 0..=0xFF {
        let mut wishes = vec![Wish::Read(code, false), Wish::Read(code, true)];
        for number in 0..=MOST_DATA {
            wishes.push(Wish::Write(code, random.bytes(number), false));
            wishes.push(Wish::Write(code, random.bytes(number), true));
        }
        for wish in &wishes {
            for size in 0..=MOST_ROOM {
                for place in (0..=size + 2).chain([usize::MAX - 1, usize::MAX]) {
                    let built = build_on_both(&mut random, size, place, wish);
                    given.note(wish.name(), built.answer);
                    count += 1;
                }
            }
        }
    }
    for (name, answers) in ANSWERS {
        given.require(name, answers);
    }
    println!("  host: {count} frames agree in every byte: 256 codes read and written with 0 to {MOST_DATA} data, with PEC and without, at every place of buffers of 0 to {MOST_ROOM} bytes");
    print(&given);
}

/// A code of the table, or any.
fn random_code(random: &mut Random) -> u8 {
    let any = random.u8();
    let code = random.pick(&command::TABLE).code;
    random.pick(&[code, code, code, code, code, code, any])
}

/// Mostly one that the table has.
fn random_wish(random: &mut Random) -> Wish {
    let (code, check) = (random_code(random), random.bool());
    if random.once_in(4) {
        return Wish::Read(code, check);
    }
    let due = command::lookup(code).map_or(0, |command| command.data);
    let number = match random.below(8) {
        0 => random.below(300),
        1 => random.below(MOST_DATA + 1),
        2 => due + 1,
        _ => due,
    };
    Wish::Write(code, random.bytes(number), check)
}

/// A place in a buffer, mostly one where a frame fits, about its end, or far beyond.
fn random_place(random: &mut Random, size: usize) -> usize {
    let (any, near) = (random.u64() as usize, random.below(8));
    match random.below(8) {
        0 => size.saturating_sub(near),
        1 => size + near,
        2 => random.pick(&[any, usize::MAX - near, 1 << 32, 1 << 63]),
        _ => random.below(size + 1),
    }
}

#[test]
fn random_frames_in_larger_buffers() {
    let mut random = Random::new(41);
    let mut given = Given::default();
    for _ in 0..FRAMES {
        let size = random.below(300);
        let place = random_place(&mut random, size);
        let wish = random_wish(&mut random);
        let built = build_on_both(&mut random, size, place, &wish);
        given.note(wish.name(), built.answer);
    }
    for (name, answers) in ANSWERS {
        given.require(name, answers);
    }
    println!("  host: {FRAMES} random frames in buffers of 0 to 299 bytes agree in every byte");
    print(&given);
}

fn table(marked: fn(&Command) -> bool) -> Vec<Command> {
    command::TABLE.iter().copied().filter(marked).collect()
}

/// A frame by the library, which must not refuse it, and the bytes to clock.
fn built(wish: &Wish) -> (Vec<u8>, usize) {
    let mut buffer = [0; MOST_ROOM];
    let built = wish.on_library(&mut buffer, 0);
    assert_eq!(built.answer, 0, "{wish:02x?}");
    (buffer[..built.length].to_vec(), built.count)
}

/// No other code, data and PEC choice builds the same bytes: all codes are tried, with every beginning of what follows the code as data.
#[test]
fn built_in_one_way_only() {
    let mut random = Random::new(42);
    let mut count = 0;
    for Command { code, data, .. } in table(Command::written) {
        for check in [false, true] {
            let wish = Wish::Write(code, random.bytes(data), check);
            let frame = built(&wish).0;
            let mut ways = 0;
            for other in 0..=0xFF {
                for number in 0..=frame.len() - 2 {
                    for choice in [false, true] {
                        let mut buffer = [0; MOST_ROOM];
                        let data = &frame[2..2 + number];
                        let built = host::write(&mut buffer, 0, other, data, choice);
                        let same = built.answer == 0 && buffer[..built.length] == frame[..];
                        ways += usize::from(same);
                    }
                }
            }
            assert_eq!(ways, 1, "{frame:02x?}");
            count += 1;
        }
    }
    for Command { code, data, .. } in table(Command::read) {
        for n in [data, data + 1] {
            let mut ways = 0;
            for other in 0..=0xFF {
                for choice in [false, true] {
                    let mut buffer = [0; 3];
                    let built = host::read(&mut buffer, 0, other, choice);
                    let same = built.count == n && buffer == [0xC0, code, 0xC1];
                    ways += usize::from(same);
                }
            }
            assert_eq!(ways, 1, "{code:02x}, {n} bytes");
            count += 1;
        }
    }
    println!("  host: {count} writes and reads, each code of the table with PEC and without, are each built by one choice of 256 codes alone");
}

// ---- replies

/// Data with the PEC of a reply to the code.
fn sealed(code: u8, data: &[u8]) -> Vec<u8> {
    let check = pec::pec_from(pec::pec(&[0xC0, code, 0xC1]), data);
    [data, &[check]].concat()
}

fn reply_on_both(code: u8, check: bool, bytes: &[u8]) -> Reply {
    let ours = host::reply(code, check, bytes);
    let theirs = mirror::reply_from_reference(&second::reply(code, check, bytes));
    assert_eq!(
        ours, theirs,
        "library left, second program right: {code:02x}, PEC {check}, {bytes:02x?}"
    );
    ours
}

const NOTHING: Account = Account {
    accumulator: 0,
    rollover: 0,
    count: 0,
};

/// A reply with one field, or none of them.
fn fields(answer: u8, byte: u8, word: u16, account: Account) -> Reply {
    Reply {
        answer,
        byte,
        word,
        account,
    }
}

fn refusal(answer: u8) -> Reply {
    fields(answer, 0, 0, NOTHING)
}

/// Bytes of a reply: any, those with a right PEC at their end, and those of an account, which is right more often than not.
fn random_reply(random: &mut Random, code: u8, length: usize) -> Vec<u8> {
    let mut bytes = random.bytes(length);
    if length > 2 && !random.once_in(4) {
        bytes[0] = 6;
        bytes[2] &= random.pick(&[0x7F, 0x7F, 0xFF]);
    }
    if length > 0 && !random.once_in(3) {
        bytes.pop();
        bytes = sealed(code, &bytes);
    }
    bytes
}

#[test]
fn replies_of_every_length() {
    let mut random = Random::new(43);
    let mut given = Given::default();
    let mut count = 0;
    for code in 0..=0xFF {
        let each = if code == READ_EIN { 2000 } else { 60 };
        for check in [false, true] {
            for length in 0..=12 {
                for _ in 0..each {
                    let bytes = random_reply(&mut random, code, length);
                    let answer = reply_on_both(code, check, &bytes).answer;
                    let name = if check { "with PEC" } else { "without PEC" };
                    given.note(name, answer);
                    count += 1;
                }
            }
        }
    }
    given.require("with PEC", &[0, 3, 20, 21, 22, 23]);
    given.require("without PEC", &[0, 3, 20, 22, 23]);
    println!("  host: {count} replies agree in every field, to 256 codes, of 0 to 12 bytes");
    for name in ["with PEC", "without PEC"] {
        println!("    {name}: answers {}", given.counts(name));
    }
}

/// Replies of each kind: the fields that the data have, and 21 for a change of any bit where there is a PEC.
#[test]
fn right_replies_and_each_bit_of_them() {
    let mut random = Random::new(44);
    let (mut right, mut changed) = (0, 0);
    for Command { code, data, .. } in table(Command::read) {
        for _ in 0..200 {
            let account = states::account(&mut random);
            let word = random.u16();
            let [low, high] = word.to_le_bytes();
            let (bytes, due) = match data {
                1 => (vec![low], fields(0, low, 0, NOTHING)),
                2 => (vec![low, high], fields(0, 0, word, NOTHING)),
                _ => (account_bytes(account), fields(0, 0, 0, account)),
            };
            let whole = sealed(code, &bytes);
            assert_eq!(reply_on_both(code, false, &bytes), due, "{bytes:02x?}");
            assert_eq!(reply_on_both(code, true, &whole), due, "{whole:02x?}");
            right += 2;
            for bit in 0..8 * whole.len() {
                let mut other = whole.clone();
                other[bit / 8] ^= 0x80 >> (bit % 8);
                assert_eq!(reply_on_both(code, true, &other), refusal(21));
                if bit / 8 < data {
                    reply_on_both(code, false, &other[..data]);
                }
                changed += 1;
            }
        }
    }
    println!("  host: {right} right replies give their fields; each of {changed} with one bit changed gets 21, without its PEC what the second program says");
}

/// The seven bytes of READ_EIN.
fn account_bytes(account: Account) -> Vec<u8> {
    let [low, high] = account.accumulator.to_le_bytes();
    let [count @ .., _] = account.count.to_le_bytes();
    [&[6, low, high, account.rollover as u8], &count[..]].concat()
}

// ---- the totalizer by code

fn take_on_both(totalizer: Totalizer, code: u8, reply: &[u8]) -> Taken {
    let ours = host::totalizer_take(totalizer, code, reply);
    let mut theirs = mirror::totalizer_to_reference(&totalizer);
    let answer = theirs.take_of(code, reply);
    let theirs = Taken {
        totalizer: mirror::totalizer_from_reference(&theirs),
        answer,
    };
    assert_eq!(
        ours, theirs,
        "library left, second program right: {reply:02x?} of {code:02x} on {totalizer:x?}"
    );
    if code == READ_EIN {
        assert_eq!(ours, library::totalizer_take(totalizer, reply));
    }
    ours
}

#[test]
fn totalizer_of_every_code() {
    assert_eq!(host::totalizer_fresh(), library::totalizer_fresh());
    let mut random = Random::new(45);
    let mut given = Given::default();
    for code in 0..=0xFF {
        let fresh = host::totalizer_fresh();
        let data = account_bytes(states::account(&mut random));
        for other in 0..=0xFF {
            let taken = take_on_both(fresh, code, &sealed(other, &data));
            assert_eq!(taken.answer, if code == other { 0 } else { 21 });
        }
    }
    for turn in 0..REPLIES {
        let code = if turn % 2 == 0 { READ_EIN } else { random.u8() };
        let length = if random.once_in(8) {
            random.below(13)
        } else {
            8
        };
        let state = states::totalizer(&mut random);
        let reply = random_reply(&mut random, code, length);
        given.note("any", take_on_both(state, code, &reply).answer);
    }
    given.require("any", &[0, 15, 20, 21, 22, 23, 24]);
    println!("  host: {REPLIES} replies to random totalizers by code agree, half of them 86h, as tongsorrel_totalizer_take; each code takes its own replies and gives 21 to those of the 255 others");
    println!("    answers {}", given.counts("any"));
}

// ---- what is built, on the devices

/// A built transaction on the library's whole device (and the second program's), and event by event on its streaming device: the same
/// answer, bytes and state, and each byte written gets ACK.
fn on_devices(random: &mut Random, device: Device, call: Call) -> (Device, u8, Vec<u8>) {
    let whole = on_both(device, &call, random.u8());
    let mut lent = Lent::new(random, &encode(AT_REST, device));
    let (mut sent, mut answer) = (vec![], 0xFF);
    for event in events_of(call) {
        let (number, _) = on_library(lent.bytes_mut(), &event, 0);
        match event {
            Event::Byte(byte) => assert_eq!(number, ACK, "{byte:02x}"),
            Event::Clock => sent.push(number),
            Event::Stop => answer = number,
            _ => assert_eq!(number, 0, "{event:?}"),
        }
    }
    lent.check();
    assert_eq!((answer, &sent), (whole.answer, &whole.reply));
    assert_eq!(decode(lent.bytes()).1, whole.device);
    (whole.device, answer, sent)
}

/// A read of the code on both devices and its reply in fields.
fn asked(random: &mut Random, device: Device, code: u8, check: bool) -> (u8, Vec<u8>, Reply) {
    let (header, count) = built(&Wish::Read(code, check));
    let (_, answer, sent) = on_devices(random, device, Call::Read(header, count));
    assert_eq!(sent.len(), count);
    let reply = reply_on_both(code, check, &sent);
    (answer, sent, reply)
}

/// What data bytes are in fields.
fn in_fields(data: &[u8]) -> Reply {
    match *data {
        [byte] => fields(0, byte, 0, NOTHING),
        [low, high] => fields(0, 0, u16::from_le_bytes([low, high]), NOTHING),
        _ => unreachable!("one byte or two"),
    }
}

/// Data that is often valid.
fn random_data(random: &mut Random, number: usize) -> Vec<u8> {
    let mut data = random.bytes(number);
    if random.bool() {
        data.fill_with(|| random.pick(&[0x00, 0x20, 0x40, 0x80, 0xC0, 0xFF, 0x07]));
    }
    data
}

/// Codes whose accepted data are read back as they were written.
fn stores(code: u8) -> bool {
    !matches!(code, 0x03 | 0x7A..=0x7E)
}

/// Whether a read of the code has one value to give: not a paged one while every page is selected.
fn readable(device: &Device, command: &Command) -> bool {
    device.unpaged.page != 0xFF || !command.paged()
}

#[test]
fn the_devices_take_what_is_written() {
    let mut random = Random::new(46);
    let mut given = Given::default();
    let mut back = 0;
    let commands = table(Command::written);
    for turn in 0..TRANSACTIONS {
        let command = commands[turn % commands.len()];
        let (code, check) = (command.code, random.bool());
        let data = random_data(&mut random, command.data);
        let (frame, count) = built(&Wish::Write(code, data.clone(), check));
        assert_eq!(count, 0);
        let device = states::valid(&mut random);
        let (after, answer, _) = on_devices(&mut random, device, Call::Write(frame));
        given.note("write", answer);
        if answer == 0 && stores(code) && readable(&after, &command) {
            let (answer, _, reply) = asked(&mut random, after, code, check);
            assert_eq!((answer, reply), (0, in_fields(&data)), "{code:02x}");
            back += 1;
        }
    }
    given.require("write", &[0, 8, 9]);
    println!("  host: {TRANSACTIONS} writes built and handed to tongsorrel_write, and byte by byte to the streaming device: the same answer and state, each byte ACK; {back} read back what was written");
    println!("    answers {}", given.counts("write"));
}

#[test]
fn the_devices_answer_what_is_read() {
    let mut random = Random::new(47);
    let mut given = Given::default();
    let commands = table(Command::read);
    for turn in 0..TRANSACTIONS {
        let command = commands[turn % commands.len()];
        let (code, check) = (command.code, random.bool());
        let device = states::valid(&mut random);
        let (answer, sent, reply) = asked(&mut random, device, code, check);
        let one = readable(&device, &command);
        assert_eq!(answer, if one { 0 } else { 9 }, "{code:02x}");
        given.note("read", answer);
        if one {
            let due = match command.data {
                7 => fields(0, 0, 0, device.unpaged.energy),
                data => in_fields(&sent[..data]),
            };
            assert_eq!(reply, due, "{code:02x}");
        }
    }
    given.require("read", &[0, 9]);
    println!("  host: {TRANSACTIONS} reads built and handed to tongsorrel_read, and byte by byte to the streaming device: the same answer and bytes, each byte ACK; replies with answer 0 give the data");
    println!(
        "    answers {} (9: a paged code under PAGE FFh)",
        given.counts("read")
    );
}
