//! A summary.

use std::dialect::*;

use line_figures::{Ending, Figures, Line};
use std::test::Fail;

#[test]
fn has_what_was_counted() {
    std::test::check(|rt: HostRuntime| -> Result<(), Fail> {
    let mut figures = Figures::new(rt.alloc());
    figures.readings.due(1, 1, 2_000_000)?;
    figures.readings.came(1, 1, 2_500_000, 2)?;
    figures.answers.count("send", "Sent")?;
    let line = Line {
        title: "a \"line\"",
        seed: 1,
        meters: 1,
        links: 2,
    };
    let ending = Ending {
        whole: true,
        at: 86_400_000_000,
        events: 7,
        flights: 1,
        forged: 0,
        joined: 1,
    };
    let summary = figures.summary(rt.alloc(), &line, &ending)?;
    let begin =
        "{\"title\":\"a \\\"line\\\"\",\"seed\":1,\"meters\":1,\"links\":2,\"whole\":true,\"until_s\":86400,\"events\":7,\"flights\":1";
    assert!(rt; summary.as_str().starts_with(begin));
    let by_hops = "\"most_hops\":2,\"by_hops\":[{\"hops\":2,\"came\":1,\"came_ms\":{\"median\":500,\"most\":500,\"last\":500}}],\"restarts\":0";
    assert!(rt; summary.as_str().contains(by_hops));
    Ok(())
})
}
