//! The device over lent records: the library against the second program, with 0 to 97 records, and with eight against the eight-page device.

use conformance::calls::{self, random_call, Call};
use conformance::headers;
use conformance::lending::{on_both, Fenced};
use conformance::library::{self, lent, Device, Page, PageChoice, Unpaged};
use conformance::mirror;
use conformance::random::Random;
use conformance::states;
use conformance::tally::{Changes, Seen};
use reference::lent as second;

const CALLS: usize = 400_000;
const RUN: usize = 1_000;
/// How many records are lent, the refused numbers among them.
const NUMBERS: [usize; 8] = [0, 1, 2, 7, 8, 9, 96, 97];

/// Records and an unpaged part: mostly valid but for one field, or anything at all.
fn lend(random: &mut Random, number: usize) -> (Unpaged, Vec<Page>) {
    let mut pages: Vec<Page> = (0..number).map(|_| states::page(random)).collect();
    let mut unpaged = states::unpaged(random, number.clamp(1, 96));
    match random.below(10) {
        0 => {
            unpaged = states::any_unpaged(random);
            pages.fill_with(|| states::any_page(random));
        }
        1 | 2 if number > 0 => states::spoil(random, &mut unpaged, &mut pages),
        _ => {}
    }
    (unpaged, pages)
}

#[test]
fn power_on() {
    let mut random = Random::new(20);
    for number in 0..=100 {
        let before: Vec<Page> = (0..number).map(|_| states::any_page(&mut random)).collect();
        let mut fenced = Fenced::new(&before, states::any_page(&mut random));
        let done = lent::power_on(fenced.lent());
        let mut records: Vec<_> = before.iter().map(mirror::page_to_reference).collect();
        let (unpaged, answer) = second::power_on(&mut records);
        assert_eq!(
            (mirror::unpaged_to_reference(&done.unpaged), done.answer),
            (unpaged, answer)
        );
        let after = fenced.back();
        assert!(after.iter().map(mirror::page_to_reference).eq(records));
        assert_eq!(answer == 15, !(1..=96).contains(&number));
    }
    println!("  lent: power-on of 0 to 100 records agrees in every record");
}

/// Each number of records beside as many choices, one fewer, one more, none and 96.
#[test]
fn power_on_by_choices() {
    let mut random = Random::new(25);
    let mut seen = [0; 3];
    for round in 0..505usize {
        let number = round % 101;
        for chosen in [number, number, number.saturating_sub(1), number + 1, 0, 96] {
            let before: Vec<Page> = (0..number).map(|_| states::any_page(&mut random)).collect();
            let choices = states::choices(&mut random, chosen);
            let mut fenced = Fenced::new(&before, states::any_page(&mut random));
            let done = lent::power_on_by(fenced.lent(), &choices);
            let mut records: Vec<_> = before.iter().map(mirror::page_to_reference).collect();
            let told: Vec<_> = choices.iter().map(mirror::choice_to_reference).collect();
            let (unpaged, answer) = second::power_on_with(&mut records, &told);
            assert_eq!(
                (mirror::unpaged_to_reference(&done.unpaged), done.answer),
                (unpaged, answer),
                "{number} records, {chosen} choices"
            );
            let after = fenced.back();
            assert!(after.iter().map(mirror::page_to_reference).eq(records));
            match answer {
                15 => assert_eq!(after, before, "{number} records"),
                27 => assert_eq!(after, vec![library::power_on().pages[0]; number]),
                _ => assert_eq!((answer, chosen), (0, number)),
            }
            seen[usize::from(answer == 15) + 2 * usize::from(answer == 27)] += 1;
        }
    }
    assert!(seen.iter().all(|&count| count > 20), "{seen:?}");
    println!(
        "  lent: power-on of 0 to 100 records by 0 to 101 choices agrees: {} as chosen, {} with 15, {} with 27",
        seen[0], seen[1], seen[2]
    );
}

/// With eight choices the records are the eight pages of the other device.
#[test]
fn eight_choices_are_those_of_the_eight_page_device() {
    let mut random = Random::new(26);
    for _ in 0..CALLS / 20 {
        let choices: [PageChoice; 8] = states::eight_choices(&mut random);
        let mut pages: [Page; 8] = std::array::from_fn(|_| states::any_page(&mut random));
        let parts = lent::power_on_by(&mut pages, &choices);
        let whole = library::power_on_by(choices);
        assert_eq!(
            (whole.device.unpaged, whole.answer),
            (parts.unpaged, parts.answer)
        );
        assert_eq!(whole.device.pages, pages);
    }
    println!(
        "  lent: power-on by {} choices for eight records does what the eight-page device does",
        CALLS / 20
    );
}

/// COEFFICIENTS on 1, 8 and 96 records with DIRECT quantities.
#[test]
fn coefficients() {
    let mut random = Random::new(27);
    let mut seen = Seen::default();
    for number in [1, 8, 96].repeat(3) {
        let pages: Vec<Page> = (0..number).map(|_| states::page(&mut random)).collect();
        let unpaged = states::unpaged(&mut random, number);
        let fence = states::any_page(&mut random);
        let mut all = headers::every_code();
        all.extend(headers::wrong(&mut random));
        for header in all {
            let call = Call::Read(header, random.pick(&[0, 5, 6, 7, 8]));
            let outcome = on_both(unpaged, &pages, &call, random.u8(), fence);
            seen.note(&call, outcome.answer);
        }
    }
    seen.require([&[], &[0, 2, 3, 9, 10, 11], &[], &[], &[], &[]]);
    println!("  lent: COEFFICIENTS with right and wrong headers of every kind agrees on 1, 8 and 96 records");
}

#[test]
fn supplies() {
    let mut random = Random::new(21);
    let mut on = 0;
    for number in NUMBERS.repeat(10) {
        let (_, mut pages) = lend(&mut random, number);
        pages.iter_mut().for_each(states::without_iout_oc_machine);
        let records: Vec<_> = pages.iter().map(mirror::page_to_reference).collect();
        for page in 0..=u8::MAX {
            let expected = second::supplies(&records, usize::from(page));
            assert_eq!(
                lent::supplies(&pages, page),
                expected,
                "page {page} of {number}"
            );
            on += usize::from(expected);
        }
    }
    assert!(on > 10, "{on}");
    println!("  lent: 256 page numbers supply alike with each number of records, {on} on");
}

#[test]
fn random_calls_on_random_records() {
    let mut random = Random::new(22);
    let (mut seen, mut changes) = (Seen::default(), Changes::default());
    for _ in 0..CALLS {
        let number = random.pick(&NUMBERS);
        let (unpaged, pages) = lend(&mut random, number);
        let call = random_call(&mut random, &unpaged, &pages);
        let (before, fence) = (random.u8(), states::any_page(&mut random));
        let outcome = on_both(unpaged, &pages, &call, before, fence);
        seen.note(&call, outcome.answer);
        changes.note_parts((&unpaged, &pages), (&outcome.unpaged, &outcome.pages));
    }
    seen.require([
        &[0, 1, 2, 3, 5, 6, 7, 8, 9, 15],
        &[0, 1, 2, 3, 9, 10, 11, 15],
        &[0, 12, 15],
        &[0, 13, 15],
        &[0, 2, 14, 15],
        &[0, 15],
    ]);
    println!("  lent: {CALLS} calls on 0 to 97 random records agree in every field of every record, answer and reply byte");
    seen.print();
    changes.print(CALLS / 1000);
}

#[test]
fn random_runs_from_power_on() {
    let mut random = Random::new(23);
    let mut seen = Seen::default();
    for run in 0..CALLS / RUN {
        let number = [1, 8, 96][run % 3];
        let mut pages = vec![states::any_page(&mut random); number];
        let choices = states::choices(&mut random, number);
        let mut unpaged = match run % 2 {
            0 => lent::power_on(&mut pages).unpaged,
            _ => lent::power_on_by(&mut pages, &choices).unpaged,
        };
        for _ in 0..RUN {
            let call = random_call(&mut random, &unpaged, &pages);
            let (before, fence) = (random.u8(), states::any_page(&mut random));
            let outcome = on_both(unpaged, &pages, &call, before, fence);
            seen.note(&call, outcome.answer);
            (unpaged, pages) = (outcome.unpaged, outcome.pages);
        }
    }
    seen.require([
        &[0, 1, 2, 3, 5, 6, 7, 8, 9],
        &[0, 1, 2, 3, 9, 10, 11],
        &[0, 12],
        &[0, 13],
        &[0, 2, 14],
        &[0],
    ]);
    println!(
        "  lent: {} runs of {RUN} calls from power-on with 1, 8 and 96 records agree",
        CALLS / RUN
    );
}

/// From equal fields the eight-page device and the one with eight records lent do the same.
#[test]
fn eight_records_are_the_eight_page_device() {
    let mut random = Random::new(24);
    for _ in 0..CALLS {
        let device: Device = match random.below(10) {
            0 => states::anything(&mut random),
            1 | 2 => states::one_field_invalid(&mut random),
            _ => states::valid(&mut random),
        };
        let call: Call = random_call(&mut random, &device.unpaged, &device.pages);
        let before = random.u8();
        let whole = calls::on_library(device, &call, before);
        let parts = on_both(
            device.unpaged,
            &device.pages,
            &call,
            before,
            device.pages[0],
        );
        assert_eq!(whole.device.unpaged, parts.unpaged);
        assert_eq!(whole.device.pages[..], parts.pages);
        assert_eq!((whole.answer, whole.reply), (parts.answer, parts.reply));
        let page = random.below(10) as u8;
        let on = library::supplies(device, page);
        assert_eq!(on, lent::supplies(&device.pages, page));
    }
    println!("  lent: with eight records {CALLS} calls do what the eight-page device does");
}
