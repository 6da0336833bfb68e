//! Times and per cent in texts.

use std::dialect::*;

use plan_tables::{hundredths_of, seconds_of};

#[test]
fn has_the_times_of_texts() {
    std::test::check(|rt: HostRuntime| {
    for (text, seconds) in [
        ("90s", Some(90)),
        ("5m", Some(300)),
        ("2h", Some(7_200)),
        ("1d", Some(86_400)),
        ("06:30", Some(23_400)),
        ("27:00", Some(97_200)),
        ("06:30:15", Some(23_415)),
        ("6:60", None),
        ("06:30:15:00", None),
        ("5", None),
        ("m", None),
        ("-5m", None),
        ("", None),
        ("5 m", None),
    ] {
        assert_eq!(rt; seconds_of(text.as_bytes()), seconds);
    }
})
}

#[test]
fn has_the_per_cent_of_texts() {
    std::test::check(|rt: HostRuntime| {
    for (text, chance) in [
        ("5", Some(500)),
        ("2.5", Some(250)),
        ("0.25", Some(25)),
        ("100", Some(10_000)),
        ("2.505", None),
        (".5", None),
        ("2.", None),
        ("1e1", None),
    ] {
        assert_eq!(rt; hundredths_of(text.as_bytes()), chance);
    }
})
}
