//! Small runs, with links, hops and places worked out by hand.

use std::dialect::*;

use super::stories::event;
use frame_facts::{FrameTarget, Gist, PayloadKind};
use line_events::Answer;
use line_record::{Act, Pasts, RecordedEvent, RecordedFlight, RunRecord};
use node_rules::{Shown, ShownPeers, ShownRoute, ShownRoutes};
use plc_base::Short;
use run_maps::{Found, Heard, Link, links_of, push_map, search_of};
use std::alloc::{AllocError, Global};
use std::test::Fail;

fn deliver(flight: u32, node: u32, cost: u8) -> RecordedEvent {
    event(0, Act::Deliver { flight, node, cost }, Answer::Set, 1, 0)
}

// A run of a flight of each of these nodes.
fn record_of(
    alloc: Global,
    senders: &[u16],
    events: &[RecordedEvent],
) -> Result<RunRecord, AllocError> {
    let mut run_record = RunRecord::new(alloc);
    run_record.events.extend_from_slice(events)?;
    for from in senders {
        run_record.flights.push(RecordedFlight {
            from: *from,
            note: 0,
            target: FrameTarget::All,
            kind: PayloadKind::Datagram,
            gist: Gist::Unread,
            device: None,
        })?;
    }
    Ok(run_record)
}

// This many nodes, of which nothing was shown.
fn pasts_of(alloc: Global, nodes: u32) -> Result<Pasts, AllocError> {
    let mut pasts = Pasts::new(alloc);
    for _ in 0..nodes {
        pasts.push_node()?;
    }
    Ok(pasts)
}

// The map of a run, where each of the first two nodes has its number as its address.
fn map_of(alloc: Global, pasts: &Pasts, run_record: &RunRecord) -> Result<String, AllocError> {
    let mut out = Vec::new(alloc);
    push_map(&mut out, alloc, run_record, pasts, &[0, 1])?;
    String::from_utf8_lossy(alloc, out.as_slice())
}

// Whether a map has the circle of a node there.
fn has_node(alloc: Global, map: &str, node: u32, x: u32, y: u32) -> Result<bool, AllocError> {
    let circle = format!(in alloc;
        "<circle class=\"N out\" data-node=\"{node}\" cx=\"{x}\" cy=\"{y}\" r=\"15\"/>"
    )?;
    Ok(map.contains(circle.as_str()))
}

fn heard(from: u32, to: u32, least: Option<u8>, frames: u32) -> Heard {
    Heard {
        from,
        to,
        link: Link { least, frames },
    }
}

// A route joins both ways, a frame one way; there is no flight 9.
#[test]
fn links_of_a_small_run() {
    std::test::check(|rt: HostRuntime| -> Result<(), Fail> {
    let events = [
        event(0, Act::Near { a: 0, b: 1 }, Answer::Set, 1, 0),
        deliver(1, 2, 5),
        deliver(1, 2, 3),
        deliver(9, 1, 2),
        deliver(1, 1, 7),
    ];
    let run_record = record_of(rt.alloc(), &[0], &events)?;
    let links = links_of(rt.alloc(), &run_record)?;
    let list = links.list(rt.alloc())?;
    let wanted = [
        heard(0, 1, Some(7), 1),
        heard(0, 2, Some(3), 2),
        heard(1, 0, None, 0),
    ];
    assert!(rt; list.as_slice() == wanted.as_slice());
    Ok(())
})
}

fn found(hops: usize, parent: u32) -> Option<Found> {
    Some(Found { hops, parent })
}

// A chain whose links go this way and that way, two ends of which are beside each other, and a node that nothing leads to.
#[test]
fn hops_of_a_chain() {
    std::test::check(|rt: HostRuntime| -> Result<(), Fail> {
    let heards = [
        heard(0, 1, Some(3), 1),
        heard(2, 1, Some(3), 1),
        heard(2, 4, Some(3), 1),
        heard(4, 1, Some(3), 1),
        heard(5, 4, None, 0),
    ];
    let search = search_of(rt.alloc(), 6, &heards)?;
    let wanted = [
        found(0, 0),
        found(1, 0),
        found(2, 1),
        found(4, 0),
        found(2, 1),
        found(3, 4),
    ];
    assert!(rt; search.found.as_slice() == wanted.as_slice());
    let order = [0, 1, 2, 4, 5, 3];
    assert!(rt; search.order.as_slice() == order.as_slice());
    Ok(())
})
}

// Behind meter 1 are two others: it is in the middle between them.
#[test]
fn places_of_a_fork() {
    std::test::check(|rt: HostRuntime| -> Result<(), Fail> {
    let events = [deliver(1, 1, 3), deliver(2, 2, 3), deliver(2, 3, 3)];
    let run_record = record_of(rt.alloc(), &[0, 1], &events)?;
    let map = map_of(rt.alloc(), &pasts_of(rt.alloc(), 4)?, &run_record)?;
    assert!(rt;
        map.as_str()
            .starts_with("<svg width=\"400\" height=\"172\" ")
    );
    for (node, x, y) in [(0, 50, 77), (1, 200, 95), (2, 350, 40), (3, 350, 114)] {
        assert!(rt; has_node(rt.alloc(), map.as_str(), node, x, y)?);
    }
    assert!(rt; !map.as_str().contains("data-node=\"4\""));
    Ok(())
})
}

// More than 24 nodes stand in a grid, here five in a row.
#[test]
fn places_of_a_grid() {
    std::test::check(|rt: HostRuntime| -> Result<(), Fail> {
    let run_record = record_of(rt.alloc(), &[], &[])?;
    let map = map_of(rt.alloc(), &pasts_of(rt.alloc(), 25)?, &run_record)?;
    assert!(rt;
        map.as_str()
            .starts_with("<svg width=\"616\" height=\"616\" ")
    );
    for (node, x, y) in [(0, 44, 44), (6, 139, 139), (24, 508, 508)] {
        assert!(rt; has_node(rt.alloc(), map.as_str(), node, x, y)?);
    }
    Ok(())
})
}

// What a meter shows that is not joined any more, and has a route to the coordinator beside it.
fn shows_a_route() -> Shown {
    let mut routes = ShownRoutes::new();
    routes.push(ShownRoute {
        dest: Short::default(),
        number: 1,
        cost: 3,
        next: Some(0),
    });
    Shown {
        halted: false,
        address: None,
        active: None,
        next_counter: 0,
        last_number: 0,
        key0: None,
        key1: None,
        routes,
        floors: [0; 16],
        peers: ShownPeers::new(),
    }
}

#[test]
fn map_of_two_nodes() {
    std::test::check(|rt: HostRuntime| -> Result<(), Fail> {
    let run_record = record_of(rt.alloc(), &[0], &[deliver(1, 1, 3)])?;
    let mut pasts = pasts_of(rt.alloc(), 2)?;
    pasts.look(1, 1, &shows_a_route())?;
    let wanted =
        "<svg width=\"250\" height=\"98\" role=\"img\"><title>Who hears whom, and each next hop to the coordinator (nodes: 2, links: 1)</title>\
        <path class=\"W w1 one\" d=\"M50 40L200 58\"><title>the coordinator is heard by meter 1: cost 3, frames: 1</title></path>\
        <defs><marker id=\"hop\" orient=\"auto\" refX=\"14\"><path class=\"Z\" d=\"M0 -3L6 0L0 3z\"/></marker></defs>\
        <path class=\"R\" d=\"M200 58L50 40\" marker-end=\"url(#hop)\">\
        <title>route of meter 1 to the coordinator, next hop the coordinator</title></path>\
        <text class=\"c H\" x=\"125\" y=\"49\" text-anchor=\"middle\">3</text>\
        <circle class=\"N out\" data-node=\"0\" cx=\"50\" cy=\"40\" r=\"15\"/>\
        <text data-node=\"0\" x=\"50\" y=\"44\" text-anchor=\"middle\">0</text>\
        <circle class=\"N out\" data-node=\"1\" cx=\"200\" cy=\"58\" r=\"15\"/>\
        <text data-node=\"1\" x=\"200\" y=\"62\" text-anchor=\"middle\">1</text></svg>";
    assert_eq!(rt; map_of(rt.alloc(), &pasts, &run_record)?.as_str(), wanted);
    Ok(())
})
}
