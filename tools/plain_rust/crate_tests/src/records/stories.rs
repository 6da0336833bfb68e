use std::dialect::*;

use frame_facts::{FrameTarget, Gist, PayloadKind};
use line_events::Answer;
use line_record::{
    Act, Fate, RecordedEvent, RecordedFlight, RunRecord, RunStories, StoryKind, Verdict, ends_of,
    flight_come, stories_of, verdict_of,
};
use plc_base::Eui;
use std::alloc::{AllocError, Global};
use std::test::Fail;

const DEVICE: Eui = Eui([0, 0, 0, 0, 0, 0, 0, 2]);

// An event that made this many flights, the first of this number.
pub fn event(
    clock: u64,
    act: Act,
    answer: Answer,
    first_flight: u32,
    flights: u8,
) -> RecordedEvent {
    RecordedEvent {
        line: 1,
        act,
        came: flight_come(&act, 0),
        answer,
        forged: false,
        clock,
        up: None,
        address: None,
        took: None,
        done: None,
        first_flight,
        flights,
    }
}

// A datagram of a send is handed up by the coordinator.
fn up(clock: u64, flight: u32, note: u32, first_flight: u32) -> RecordedEvent {
    let act = Act::Deliver {
        flight,
        node: 0,
        cost: 5,
    };
    RecordedEvent {
        line: 1,
        act,
        came: flight,
        answer: Answer::Up,
        forged: false,
        clock,
        up: Some(note),
        address: None,
        took: None,
        done: None,
        first_flight,
        flights: 0,
    }
}

fn flight(note: u32, target: FrameTarget, gist: Gist, device: Option<u32>) -> RecordedFlight {
    RecordedFlight {
        from: 1,
        note,
        target,
        kind: PayloadKind::Datagram,
        gist,
        device,
    }
}

// Node 1 sends to node 0, and the datagram comes up. Another datagram waits for a route, and nobody hears the request. Time passes. Then
// node 1 joins anew, and what prepares it stands right before.
pub fn small(alloc: Global) -> Result<RunRecord, AllocError> {
    let mut run_record = RunRecord::new(alloc);
    let sent = Act::Send {
        from: 1,
        to: 0,
        octets: 1,
    };
    let events = [
        event(0, Act::Coordinator { eui: DEVICE }, Answer::Made, 1, 0),
        event(0, Act::Meter { eui: DEVICE }, Answer::Made, 1, 0),
        event(0, sent, Answer::Sent, 1, 1),
        up(0, 1, 1, 2),
        event(0, sent, Answer::Waiting, 2, 1),
        event(10, Act::Tick { seconds: 10 }, Answer::Ticked, 3, 0),
        event(31, Act::Tick { seconds: 21 }, Answer::Ticked, 3, 0),
        event(31, Act::RandomOctets { node: 1 }, Answer::Given, 3, 0),
        event(31, Act::Allow { node: 1 }, Answer::Allowed, 3, 0),
        event(31, Act::Join { node: 1, agent: 0 }, Answer::Asked, 3, 1),
        event(31, Act::RandomOctets { node: 1 }, Answer::Given, 4, 0),
    ];
    run_record.events.extend_from_slice(&events)?;
    let flights = [
        flight(
            1,
            FrameTarget::Node { address: 0 },
            Gist::Bears { hops: 15 },
            None,
        ),
        flight(
            0,
            FrameTarget::All,
            Gist::Seeks {
                origin: 1,
                sought: 0,
                cost: 0,
            },
            None,
        ),
        flight(
            0,
            FrameTarget::Node { address: 0 },
            Gist::Joins { eui: DEVICE },
            Some(1),
        ),
    ];
    run_record.flights.extend_from_slice(&flights)?;
    Ok(run_record)
}

fn recorded(alloc: Global) -> Result<RunStories, AllocError> {
    let run_record = small(alloc)?;
    stories_of(alloc, &run_record)
}

#[test]
fn each_event_has_its_story() {
    std::test::check(|rt: HostRuntime| -> Result<(), Fail> {
    let run_stories = recorded(rt.alloc())?;
    // The setup, two datagrams, what happened on the line, a joining with what readied it, what readied no joining.
    assert_eq!(rt;
        run_stories.owners.as_slice(),
        [1, 1, 2, 2, 3, 4, 4, 5, 5, 5, 6].as_slice()
    );
    assert_eq!(rt; run_stories.stories.len(), 6);
    Ok(())
})
}

#[test]
fn stories_have_their_kinds() {
    std::test::check(|rt: HostRuntime| -> Result<(), Fail> {
    let run_stories = recorded(rt.alloc())?;
    let kinds = [
        StoryKind::Setup,
        StoryKind::Datagram,
        StoryKind::Datagram,
        StoryKind::Line,
        StoryKind::Joining,
        StoryKind::Line,
    ];
    for (story, kind) in run_stories.stories.iter().zip(kinds) {
        assert_eq!(rt; story.kind, kind);
    }
    Ok(())
})
}

#[test]
fn flights_have_their_fates() {
    std::test::check(|rt: HostRuntime| -> Result<(), Fail> {
    let run_stories = recorded(rt.alloc())?;
    let fates = [
        (2, Fate::WentOn { event: 4 }),
        (3, Fate::Missed),
        (5, Fate::Missed),
    ];
    for (course, (story, fate)) in run_stories.courses.iter().zip(fates) {
        assert_eq!(rt; course.story, story);
        assert_eq!(rt; course.fate, fate);
    }
    Ok(())
})
}

#[test]
fn stories_have_their_verdicts() {
    std::test::check(|rt: HostRuntime| -> Result<(), Fail> {
    let run_record = small(rt.alloc())?;
    let run_stories = stories_of(rt.alloc(), &run_record)?;
    let ends = ends_of(
        rt.alloc(),
        run_stories.stories.len(),
        run_stories.courses.as_slice(),
    )?;
    let verdicts = [
        Verdict::Nothing,
        Verdict::Reached { event: 4 },
        Verdict::NeverLeft { last: 2 },
        Verdict::Nothing,
        Verdict::Loose { last: 3 },
        Verdict::Nothing,
    ];
    for ((story, end), verdict) in run_stories.stories.iter().zip(&ends).zip(verdicts) {
        let Some(first) = run_record.event(story.first) else {
            return Ok(());
        };
        assert_eq!(rt; verdict_of(story, end, first), verdict);
    }
    Ok(())
})
}
