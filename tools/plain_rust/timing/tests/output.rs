//! What the program prints is the same at each run.
use std::process::Command;

fn run(words: &[&str]) -> (Option<i32>, String) {
    let done = Command::new(env!("CARGO_BIN_EXE_timing")).args(words).output().expect("it starts");
    (done.status.code(), String::from_utf8(done.stdout).expect("it is text"))
}

#[test]
fn each_part_prints_what_came_of_it() {
    let all = "read 374625\nsent on 999 88911\nbook 999 999\npool 7 0\n";
    assert_eq!(run(&["all", "999"]), (Some(0), all.to_string()));
    assert_eq!(run(&["pool", "0"]), (Some(0), "pool 0 7\n".to_string()));
}

#[test]
fn other_words_write_the_usage_line() {
    for words in [&[][..], &["all"], &["some", "1"], &["all", "-1"], &["all", "1", "1"]] {
        let (status, text) = run(words);
        assert!(status == Some(2) && text.starts_with("usage: timing "), "{words:?}");
    }
}
