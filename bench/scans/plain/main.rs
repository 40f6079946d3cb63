//! What the program does, in plain code as one would write it in Rust by hand: a snapshot object, renaming over a grid or a tree of doors, a
//! pool, and the lines and records of them.
//!
//! `plain play`, `check`, `migrate`, `show` and `draw` write the bytes of `slotctl`. `plain scans`, `updates` and `names` take so many turns, and
//! write how many steps those were.

mod commands;
mod digits;
mod draws;
mod grid;
mod pages;
mod places;
mod play;
mod pool;
mod records;
mod renaming;
mod replies;
mod roster;
mod snapshot;
mod tree;
mod turns;
mod worlds;

use std::env;

fn draw(words: &[String]) {
    let told = |name: &str| words.windows(2).find(|pair| pair[0] == name).map(|pair| pair[1].as_str());
    let number = |name: &str| told(name).unwrap().parse().unwrap();
    match told("--world") {
        Some("tree") => draws::draws::<tree::Tree>(number),
        _ => draws::draws::<grid::Grid>(number),
    }
}

fn main() {
    let words: Vec<String> = env::args().collect();
    let turns = || words[2].parse().unwrap();
    match words[1].as_str() {
        "play" => play::play(&words[2..]),
        "check" => records::check(),
        "migrate" => records::migrate(),
        "show" => pages::show(&words[2]),
        "draw" => draw(&words),
        "scans" => println!("{}", turns::scans(turns())),
        "updates" => println!("{}", turns::updates(turns())),
        "names" => println!("{}", (0..turns()).map(|_| turns::names()).sum::<u64>()),
        other => panic!("no {other}"),
    }
}
