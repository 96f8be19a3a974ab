//! The example script and what it prints.

use std::process::{Command, Output};

const FOLDER: &str = concat!(env!("CARGO_MANIFEST_DIR"), "/examples/");

fn car(arguments: &[&str]) -> Output {
    Command::new(env!("CARGO_BIN_EXE_car")).args(arguments).output().expect("car runs")
}

#[test]
fn the_story_is_told() {
    let output = car(&["3", &format!("{FOLDER}story.txt")]);
    assert!(output.status.success());
    let expected =
        std::fs::read_to_string(format!("{FOLDER}story.expected.txt")).expect("the expected output");
    assert_eq!(String::from_utf8_lossy(&output.stdout), expected);
}

#[test]
fn bad_arguments_are_refused() {
    for arguments in [&[][..], &["1"], &["9"], &["many"], &["3", "no such script"]] {
        let output = car(arguments);
        assert!(!output.status.success(), "{arguments:?}");
        assert!(!output.stderr.is_empty(), "{arguments:?}");
    }
}
