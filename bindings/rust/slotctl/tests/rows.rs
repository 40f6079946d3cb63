//! The worked rows of the repository: each ends as its files say. A package by itself has none.

use std::fs;
use std::io::Write;
use std::path::Path;
use std::process::{Command, Stdio};
use std::thread;

/// What a run writes, and its status.
fn ended(words: &str, input: Vec<u8>) -> (Vec<u8>, Option<i32>) {
    let mut child = Command::new(env!("CARGO_BIN_EXE_slotctl"))
        .args(words.split_whitespace())
        .stdin(Stdio::piped())
        .stdout(Stdio::piped())
        .stderr(Stdio::null())
        .spawn()
        .expect("the program is built");
    let mut stdin = child.stdin.take().expect("its input is a pipe");
    // A program that has ended takes no more.
    let writer = thread::spawn(move || drop(stdin.write_all(&input)));
    let output = child.wait_with_output().expect("the program ends");
    writer.join().expect("the input is written");
    (output.stdout, output.status.code())
}

#[test]
fn each_row_ends_as_its_files_say() {
    let rows = Path::new(env!("CARGO_MANIFEST_DIR")).join("../../../tests/rows");
    let Ok(found) = fs::read_dir(rows) else {
        return;
    };
    let mut count = 0;
    for entry in found {
        let row = entry.expect("the folder is read").path();
        if row.extension().is_none_or(|ending| ending != "args") {
            continue;
        }
        let words = fs::read_to_string(&row).expect("words are text");
        let input = fs::read(row.with_extension("in")).expect("a row has an input");
        let wanted = fs::read(row.with_extension("out")).expect("a row has an output");
        let status = fs::read_to_string(row.with_extension("status"))
            .map_or(0, |text| text.trim().parse().expect("a status is a number"));
        assert_eq!(ended(&words, input), (wanted, Some(status)), "{row:?}");
        count += 1;
    }
    assert!(count >= 40, "{count} rows");
}
