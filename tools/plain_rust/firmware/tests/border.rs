//! Each check at the border stops, with the name of the call and of the clause; and what a clause just allows does not stop. `tests.py` holds the names here
//! against the checks that the export writes.
use coordinator::Coordinator;
use firmware::Flash;
use meter_node::Meter;
use node_rules::{Came, LocalRefusal, PresetFault, RingRefusal};
use plc_base::{DatagramBuf, Eui, FrameBuf, Grant, Key, KeyIndex, LinkCost, MOST_FRAMES, Out, RandomOctets, Short};
use plc_station::{Buffers, Station};
use rattle_std::alloc::Global;
use std::panic::{AssertUnwindSafe, catch_unwind};

/// Makes a call, which has to stop at this clause.
fn stops<T>(clause: &str, call: impl FnOnce() -> T) {
    let Err(why) = catch_unwind(AssertUnwindSafe(call)) else {
        panic!("{clause}: the call went on");
    };
    assert_eq!(*why.downcast_ref::<&str>().unwrap(), format!("its contract does not allow this call: {clause}"));
}

fn key() -> Key {
    Key([7; 16])
}

fn coordinator() -> Coordinator<Flash> {
    Coordinator::open(Global, Flash::new(), Eui([1; 8]), &key()).map_err(|it| it.0).unwrap()
}

fn meter() -> Meter<Flash> {
    Meter::open(Global, Flash::new(), Eui([2; 8]), key()).map_err(|it| it.0).unwrap()
}

fn grant() -> Grant {
    coordinator().depot(Eui([2; 8]), &key()).unwrap()
}

fn joined() -> Meter<Flash> {
    let mut node = meter();
    node.provision(&grant()).unwrap();
    node
}

fn halted() -> Meter<Flash> {
    let mut node = joined();
    node.station().halt();
    node
}

/// A coordinator whose station gave its address away.
fn homeless() -> Coordinator<Flash> {
    let mut node = coordinator();
    node.station().leave().unwrap();
    node
}

fn address(number: u16) -> Short {
    Short::new(number).unwrap()
}

fn cost() -> LinkCost {
    LinkCost::new(1).unwrap()
}

fn out() -> Out {
    Out::new(Global).ok().unwrap()
}

fn full() -> Out {
    let mut out = out();
    for _ in 0..MOST_FRAMES {
        out.frames.push_blank();
    }
    out
}

/// The octets of the first frame that a call gives out.
fn frame_of(call: impl FnOnce(&mut Out)) -> Vec<u8> {
    let mut out = out();
    call(&mut out);
    out.frames.frames()[0].octets.octets().to_vec()
}

/// A sealed frame of the coordinator to all, with as much inside as fits.
fn from_the_coordinator() -> Vec<u8> {
    frame_of(|out| coordinator().station().send_local(3, None, &[1; 379], out).unwrap())
}

/// The same of a meter.
fn from_a_meter() -> Vec<u8> {
    frame_of(|out| joined().station().send_local(3, None, &[1; 379], out).unwrap())
}

/// A plain frame up to a meter, from one that asks to join by it.
fn up() -> Vec<u8> {
    let agent = joined().address().unwrap();
    frame_of(|out| Meter::open(Global, Flash::new(), Eui([3; 8]), key()).map_err(|it| it.0).unwrap().join(agent, 0, out).unwrap())
}

fn came() -> Came {
    Came { cost: cost(), note: 0, time: 0 }
}

/// A meter hears a frame that a joined one accepted.
fn meter_hears(mut node: Meter<Flash>, frame: &[u8]) {
    let (mut payload, mut datagram, mut out) = (FrameBuf::new(), DatagramBuf::new(), out());
    let mut other = joined();
    let got = other.station().accept(frame, &mut payload).unwrap();
    let _ = node.hear(got, cost(), 0, 0, &mut datagram, &mut out);
}

/// The same of its station alone.
fn station_hears(node: &mut Station<Flash>, frame: &[u8]) {
    let (mut payload, mut datagram, mut out) = (FrameBuf::new(), DatagramBuf::new(), out());
    let mut other = joined();
    let got = other.station().accept(frame, &mut payload).unwrap();
    let _ = node.hear(got, cost(), 0, 0, &mut datagram, &mut out);
}

/// A coordinator hears a frame that another one accepted.
fn coordinator_hears(mut node: Coordinator<Flash>) {
    let (mut payload, mut datagram, mut out) = (FrameBuf::new(), DatagramBuf::new(), out());
    let mut other = coordinator();
    let frame = from_a_meter();
    let got = other.station().accept(&frame, &mut payload).unwrap();
    let _ = node.hear(got, cost(), 0, 0, &mut datagram, &mut out);
}

#[test]
fn a_halted_node_stops_where_it_hears() {
    stops("plc_station: hear: ready", || station_hears(halted().station(), &from_the_coordinator()));
    stops("meter_node: hear: ready", || meter_hears(halted(), &from_the_coordinator()));
    stops("coordinator: hear: ready", || {
        let mut node = coordinator();
        node.station().halt();
        coordinator_hears(node);
    });
}

#[test]
fn a_halted_node_says_so() {
    let mut node = halted();
    assert_eq!(node.provision(&grant()), Err(RingRefusal::Halted));
    let station = node.station();
    assert_eq!(station.install(&grant()), Err(RingRefusal::Halted));
    assert_eq!(station.put_key(KeyIndex::first(), &key()), Err(RingRefusal::Halted));
    assert_eq!(station.activate(KeyIndex::first()), Err(RingRefusal::Halted));
    assert_eq!(station.leave(), Err(RingRefusal::Halted));
    assert_eq!(station.preset_counter(1), Err(PresetFault::Halted));
    assert_eq!(station.preset_number(1), Err(PresetFault::Halted));
    assert_eq!(station.preset_near(address(1), cost(), 0), Err(PresetFault::Halted));
    assert_eq!(station.send_local(3, None, &[1], &mut out()), Err(LocalRefusal::Halted));
}

#[test]
fn a_node_without_an_address_says_so() {
    let mut node = meter();
    assert_eq!(node.station().put_key(KeyIndex::first(), &key()), Err(RingRefusal::NotJoined));
    assert_eq!(node.station().send_local(3, None, &[1], &mut out()), Err(LocalRefusal::NotJoined));
    stops("meter_node: hear: came", || meter_hears(meter(), &up()));
}

#[test]
fn a_coordinator_that_has_not_address_0000_stops() {
    stops("coordinator: hear: ready", || coordinator_hears(homeless()));
    stops("coordinator: challenge: holds", || homeless().challenge(Eui([2; 8]), 0, &mut out()));
    stops("coordinator: tick: holds", || homeless().tick(0));
    stops("coordinator: receive: holds", || {
        let _ = homeless().receive(&from_a_meter(), came(), &mut Buffers::new(), &mut out());
    });
    stops("coordinator: allow: holds", || homeless().allow(Eui([2; 8]), &key()));
    stops("coordinator: depot: holds", || homeless().depot(Eui([2; 8]), &key()));
    stops("coordinator: rekey: holds", || homeless().rekey(KeyIndex::first(), &key()));
    stops("coordinator: activate_self: holds", || homeless().activate_self(KeyIndex::first()));
    stops("coordinator: kick: holds", || homeless().kick(Eui([2; 8]), &mut out()));
    stops("coordinator: give_random: holds", || homeless().give_random(RandomOctets([1; 16])));
    stops("coordinator: activate: holds", || homeless().activate(Eui([2; 8]), KeyIndex::first(), 0, &mut out()));
}

#[test]
fn a_grant_without_a_key_at_its_active_index_stops() {
    let none = Grant { keys: [None; 2], ..grant() };
    let other = Grant { active: KeyIndex::second(), ..grant() };
    stops("plc_station: install: grant", || meter().station().install(&none));
    for wrong in [none, other] {
        stops("meter_node: provision: grant", || meter().provision(&wrong));
    }
}

#[test]
fn a_size_or_a_number_out_of_bounds_stops() {
    stops("plc_station: send_command: some", || joined().station().send_command(address(0), &[], 0, &mut out()));
    stops("plc_station: send_command: fits", || joined().station().send_command(address(0), &[1; 375], 0, &mut out()));
    stops("plc_station: room: fits", || joined().station().room(address(0), 375));
    stops("plc_station: send_local: code", || joined().station().send_local(2, None, &[1], &mut out()));
    stops("plc_station: send_local: last_code", || joined().station().send_local(6, None, &[1], &mut out()));
    stops("plc_station: send_local: some", || joined().station().send_local(3, None, &[], &mut out()));
    stops("plc_station: send_local: fits", || joined().station().send_local(3, None, &[1; 380], &mut out()));
    stops("plc_station: send_local: room", || joined().station().send_local(3, None, &[1], &mut full()));
    stops("plc_station: preset_number: value", || joined().station().preset_number(0));
}

#[test]
fn what_a_clause_just_allows_does_not_stop() {
    station_hears(joined().station(), &from_the_coordinator());
    meter_hears(joined(), &from_the_coordinator());
    meter_hears(joined(), &up());
    coordinator_hears(coordinator());
    let mut node = joined();
    let station = node.station();
    let mut out = out();
    assert!(station.send_local(3, None, &[1], &mut out).is_ok());
    assert!(station.send_local(5, None, &[1; 379], &mut out).is_ok());
    station.preset_number(1).unwrap();
    for count in [1, 374] {
        let _ = station.room(address(0), count as u16);
        let _ = station.send_command(address(0), &vec![1; count], 0, &mut out);
    }
    for index in [KeyIndex::first(), KeyIndex::second()] {
        assert!(joined().station().put_key(index, &key()).is_ok());
        let _ = joined().station().activate(index);
        let _ = coordinator().rekey(index, &key());
        let _ = coordinator().activate_self(index);
        let _ = coordinator().activate(Eui([2; 8]), index, 0, &mut out);
    }
}
