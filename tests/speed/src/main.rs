//! `speed` prints tables of nanoseconds a call; `speed BENCH REFERENCE FILE` also one of frames a second, for two programs on a frame file.
//! Figures are best / median of many repetitions; a ratio over 1 says that the proved program is slower.

mod calls;
mod frames;
mod host;
mod lent;
mod race;
mod routines;
mod stream;
mod thousandths;

fn main() {
    println!("Best / median of {} batches.\n", race::REPETITIONS);
    race::print_head(&["Rust, table", "Rust, bit loop", "Rust, bit by bit"]);
    calls::pec_of("PEC, 8 bytes", 8, 2000);
    calls::pec_of("PEC, 4 KiB", 4096, 4);
    println!();
    race::print_head(&["Rust by value", "Rust by `&mut`"]);
    calls::write("write, limit with PEC, accepted", 0, calls::ONE_PAGE);
    calls::write("the same with PAGE FFh", 0, calls::EVERY_PAGE);
    calls::write("write, limit with wrong PEC, refused", 7, calls::ONE_PAGE);
    calls::read("read, STATUS_WORD", 0x79, 2);
    calls::read("read, READ_EIN", 0x86, 7);
    calls::measure("measure");
    calls::sample("sample");
    calls::tick("tick", false);
    calls::tick("tick, every page trying again", true);
    calls::alert_response("alert response, answered");
    calls::totalizer("totalizer, one reply");

    println!();
    race::print_head(&["Rust on `&mut [Page]`"]);
    lent::rows(8);
    lent::rows(96);
    lent::sample(1);
    lent::sample(48);

    println!();
    stream::tables();

    println!();
    host::tables();
    println!();
    thousandths::table();

    let arguments: Vec<String> = std::env::args().skip(1).collect();
    if let [bench, reference, file] = &arguments[..] {
        println!();
        frames::compare(bench, reference, file);
    }
}
