//! The air by itself, with times worked out by hand.

use std::dialect::*;

use line_air::{
    Air, Calendar, CutLink, Due, End, Ended, Frame, Moment, Noise, Rate, Settings, Target, airtime,
};
use line_place::{Costs, Layout, Losses, Place, Street};
use std::alloc::{AllocError, Global};
use std::test::Fail;

#[test]
fn has_the_airtimes() {
    std::test::check(|rt: HostRuntime| {
    // a route request of 30 octets, a reading of 65, and 400 octets more: the symbols were counted by hand
    for (octets, rate, micros, segments) in [
        (30, Rate::Robo, 15_115 + 73 * 695, 1),
        (30, Rate::Dqpsk, 15_115 + 11 * 695, 1),
        (65, Rate::Robo, 15_115 + 135 * 695, 1),
        (131, Rate::Robo, 15_115 + 252 * 695, 1),
        (132, Rate::Robo, 2 * 15_115 + (252 + 18) * 695, 2),
        (233, Rate::D8psk, 15_115 + 38 * 695, 1),
    ] {
        let span = airtime(octets, rate);
        assert_eq!(rt; span.micros, micros);
        assert_eq!(rt; span.segments, segments);
    }
})
}

// What a run of 39 frames over a street came to: how many entries it has, when it ended, and a sum over its entries in their order.
#[derive(Clone, Copy, Debug, PartialEq, Eq)]
struct SessionWay {
    entries: u32,
    end: u64,
    sum: u32,
}

impl SessionWay {
    fn note(&mut self, now: u64, flight: u32, what: u32) {
        let entry = ((now % 0x1_0000_0000) as u32)
            .wrapping_mul(7)
            .wrapping_add(flight.wrapping_mul(3))
            .wrapping_add(what);
        self.entries = self.entries.wrapping_add(1);
        self.sum = self.sum.wrapping_mul(31).wrapping_add(entry);
    }
}

// The kth frame of 39: every third one to all, the others to the next node or the one after it.
fn frame_of(k: u32) -> Frame
    // requires { k < 39 }
{
    let node = k % 13;
    let to = if k % 3 == 1 { node + 1 } else { node + 2 };
    let target = if k % 3 == 0 {
        Target::All
    } else if to >= 13 {
        Target::Node(0)
    } else {
        Target::Node(to)
    };
    Frame {
        flight: k + 1,
        octets: (20 + k * 37 % 300) as u16,
        target,
        counts: true,
    }
}

fn street(alloc: Global, loss: u16) -> Result<Place, AllocError> {
    let layout = Layout::InStreet(Street {
        meters: 12,
        reach: 3,
        middle: false,
    });
    let losses = Losses {
        nearest: loss,
        step: 1_000,
    };
    Place::on(alloc, 13, &layout, &losses, &Costs::ByLoss)
}

fn disturb(air: &mut Air) -> Result<(), AllocError> {
    for node in [3, 4] {
        air.add_noise(Noise {
            from: 300_000,
            until: 900_000,
            at: Some(node),
            loss: 5_000,
        })?;
    }
    air.add_cut(CutLink {
        from: 100_000,
        until: 2_000_000,
        one: 5,
        other: 6,
    })
}

fn end_of(
    alloc: Global,
    air: &mut Air,
    calendar: &mut Calendar,
    end: &End,
    session_way: &mut SessionWay,
) -> Result<(), AllocError> {
    let mut came = Vec::new(alloc);
    let ended = air.end(alloc, end, &mut came)?;
    for to in came.iter() {
        session_way.note(end.at, end.flight, *to);
    }
    if let Ended::GivenUp {
        frame,
        broke: true,
        ..
    } = ended
    {
        if let Target::Node(to) = frame.target {
            session_way.note(end.at, 0, end.node.wrapping_mul(1_000).wrapping_add(to));
        }
    }
    air.go_on(calendar, end.at, end.node)
}

// A street of 13 nodes that have all joined, disturbed at two nodes and between two others.
fn street_air(alloc: Global, seed: u64, loss: u16, settings: Settings) -> Result<Air, AllocError> {
    let mut air = Air::new(alloc, street(alloc, loss)?, settings, seed)?;
    disturb(&mut air)?;
    for node in 0..13 {
        air.set_joined(node, true);
    }
    Ok(air)
}

// The 39 frames, one every 40 milliseconds.
fn frames_due(alloc: Global) -> Result<Calendar, AllocError> {
    let mut calendar = Calendar::new(alloc);
    for k in 0..39 {
        calendar.put(u64::from(k) * 40_000, Moment::Task(k))?;
    }
    Ok(calendar)
}

// What is due happens.
fn carry_out(
    alloc: Global,
    air: &mut Air,
    calendar: &mut Calendar,
    due: Due,
    session_way: &mut SessionWay,
) -> Result<(), AllocError> {
    let now = due.at;
    match due.moment {
        Moment::Task(k) => air.send(calendar, now, k % 13, frame_of(k % 39)),
        Moment::Attempt { node } => {
            air.attempt(calendar, now, node)?;
            Ok(())
        }
        Moment::End {
            node,
            flight,
            segments,
        } => {
            let end = End {
                at: now,
                node,
                flight,
                segments,
            };
            end_of(alloc, air, calendar, &end, session_way)
        }
    }
}

fn session_way_of(
    alloc: Global,
    seed: u64,
    loss: u16,
    settings: Settings,
) -> Result<SessionWay, AllocError> {
    let mut air = street_air(alloc, seed, loss, settings)?;
    let mut calendar = frames_due(alloc)?;
    let mut session_way = SessionWay {
        entries: 0,
        end: 0,
        sum: 0,
    };
    for _ in 0..100_000 {
        let Some(due) = calendar.take() else {
            return Ok(session_way);
        };
        session_way.end = due.at;
        carry_out(alloc, &mut air, &mut calendar, due, &mut session_way)?;
    }
    Ok(session_way)
}

const USUAL: Settings = Settings {
    rate: Rate::Robo,
    repeats: 5,
    break_after: 3,
    backoffs: 50,
    min_be: 3,
    max_be: 8,
    jitter: 300_000,
    ack_loss: 25,
    duplicates: true,
    overhear: false,
    collisions: true,
};

/// The courses that other code takes by the same rules, from the same words of PCG32: what came to whom and when, and which links broke.
#[test]
fn has_the_same_courses_as_other_code() {
    std::test::check(|rt: HostRuntime| -> Result<(), Fail> {
    let quick = Settings {
        collisions: false,
        rate: Rate::Dqpsk,
        duplicates: false,
        ..USUAL
    };
    let heard_by_others = Settings {
        overhear: true,
        break_after: 1,
        repeats: 1,
        ..USUAL
    };
    let impatient = Settings {
        jitter: 0,
        backoffs: 2,
        ..USUAL
    };
    for (seed, loss, settings, entries, end, sum) in [
        (7, 1_000, USUAL, 46, 13_844_597, 2_582_700_814),
        (7, 1_000, quick, 65, 4_348_994, 375_681_385),
        (8, 2_000, heard_by_others, 73, 8_129_100, 3_981_209_379),
        (9, 0, impatient, 12, 3_289_195, 3_541_662_653),
    ] {
        assert_eq!(rt;
            session_way_of(rt.alloc(), seed, loss, settings)?,
            SessionWay { entries, end, sum }
        );
    }
    Ok(())
})
}
