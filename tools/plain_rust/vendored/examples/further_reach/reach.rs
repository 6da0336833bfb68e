//! Further reach at a node, over any keeper: acknowledged route replies, broadcasts, beacons and path requests. Copy this file into your firmware.
//!
//! [`Reach::receive`] takes the place of `receive` of a meter or a coordinator, [`Reach::tick`] and [`Reach::restart`] come after those of the node, and
//! [`Reach::scan`], [`Reach::choose`], [`Reach::broadcast`] and [`Reach::ask`] are calls beside its own. What goes out is in `out`, as of each call of a node.
//!
//! These are the rules of further reach in `docs/NODE-RULES.md`, by the parts that are proved. This file itself is tested: the reports of five examples are
//! those of the proved program, and those of scripts by chance, in which power fails too, are what `line_replay` says as plain Rust.
use kennelmorn_node::broadcast_log::{Broadcast, BroadcastBuf, BroadcastLog, LogFault, read_broadcast, write_broadcast};
use kennelmorn_node::coordinator::Coordinator;
use kennelmorn_node::loadng_messages::{Message, read_message};
use kennelmorn_node::mesh_header::{Unit, read_unit};
use kennelmorn_node::meter_node::Meter;
use kennelmorn_node::neighbour_checks::{Checks, read_ack, write_ack};
use kennelmorn_node::node_rules::{Came, CoordinatorHeard, Dropped, FrameRefusal, Heard, LocalRefusal, MeterHeard, Path, Reply};
use kennelmorn_node::pan_discovery::{Discovery, Scan, read_discovery, write_discovery};
use kennelmorn_node::path_requests::{PathMessage, PathRefusal, PathStep, Walk, read_path, take_path, write_path};
use kennelmorn_node::plc_base::{BadStore, DatagramBuf, FrameBuf, Keeper, LinkCost, Out, PAN, Short};
use kennelmorn_node::plc_station::{Accepted, Buffers, Station};
use kennelmorn_node::rattle_std::alloc::Global;
use kennelmorn_node::reach_rules::{
    AskRefusal, BroadcastRefusal, ChooseRefusal, CommandHeard, DiscoveryDropped, DiscoveryHeard, ReachDropped, ScanRefusal,
};
use kennelmorn_node::store_tables::OpenFault;

/// What a meter and a coordinator both have.
pub trait Node {
    /// Its store.
    type Keeper: Keeper;
    /// What it makes of a frame.
    type Heard<'a>;

    fn station(&mut self) -> &mut Station<Self::Keeper>;
    fn hear<'a>(&mut self, got: Accepted<'a>, came: Came, datagram: &'a mut DatagramBuf, out: &mut Out) -> Result<Self::Heard<'a>, Dropped>;
    /// What its station made of the frame, where nothing else was made of it.
    fn of_station<'h>(heard: &'h Self::Heard<'_>) -> Option<&'h Heard<'h>>;
}

impl<K: Keeper> Node for Meter<K> {
    type Keeper = K;
    type Heard<'a> = MeterHeard<'a>;

    fn station(&mut self) -> &mut Station<K> {
        self.station()
    }

    fn hear<'a>(&mut self, got: Accepted<'a>, came: Came, datagram: &'a mut DatagramBuf, out: &mut Out) -> Result<MeterHeard<'a>, Dropped> {
        self.hear(got, came.cost, came.note, came.time, datagram, out)
    }

    fn of_station<'h>(heard: &'h MeterHeard<'_>) -> Option<&'h Heard<'h>> {
        if let MeterHeard::Station(heard) = heard { Some(heard) } else { None }
    }
}

impl<K: Keeper> Node for Coordinator<K> {
    type Keeper = K;
    type Heard<'a> = CoordinatorHeard<'a>;

    fn station(&mut self) -> &mut Station<K> {
        self.station()
    }

    fn hear<'a>(&mut self, got: Accepted<'a>, came: Came, datagram: &'a mut DatagramBuf, out: &mut Out) -> Result<CoordinatorHeard<'a>, Dropped> {
        self.hear(got, came.cost, came.note, came.time, datagram, out)
    }

    fn of_station<'h>(heard: &'h CoordinatorHeard<'_>) -> Option<&'h Heard<'h>> {
        if let CoordinatorHeard::Station(heard) = heard { Some(heard) } else { None }
    }
}

/// What came of a frame.
#[derive(Debug)]
#[expect(clippy::large_enum_variant, reason = "it is matched at once, and kept nowhere")]
pub enum Reached<H> {
    /// What the node made of it, as without further reach.
    Node(H),
    /// A command of further reach was carried out.
    Command(CommandHeard),
    /// A frame of discovery was.
    Discovery(DiscoveryHeard),
}

/// Why nothing came of a frame. After Store the node is halted until its restart.
#[derive(Clone, Copy, Debug, PartialEq, Eq)]
pub enum Unreached {
    /// The frame is not accepted.
    Refused(FrameRefusal),
    /// What it carries is dropped.
    Dropped(ReachDropped),
    /// It is a frame of discovery, and dropped.
    Discovery(DiscoveryDropped),
}

impl From<ReachDropped> for Unreached {
    fn from(reason: ReachDropped) -> Unreached {
        Unreached::Dropped(reason)
    }
}

/// A command that came to this node or to all.
struct Command<'a> {
    from: Short,
    to_all: bool,
    code: u8,
    body: &'a [u8],
}

/// What is due for a frame where neighbours are checked.
#[derive(Default)]
struct Due {
    is_route_message: bool,
    acknowledgement: Option<Reply>,
}

const BAD_UNIT: ReachDropped = ReachDropped::Known(Dropped::BadUnit);
const STORE: ReachDropped = ReachDropped::Known(Dropped::Store);

/// What a node holds for further reach beside its memory.
pub struct Reach {
    /// None where neighbours are not checked.
    checks: Option<Checks>,
    log: BroadcastLog,
    scan: Scan,
    body: FrameBuf,
}

impl Reach {
    /// Opens it over the node's store, in which it has slots of its own. All nodes of a line check their neighbours, or none.
    pub fn open<K: Keeper>(keeper: &K, checks: bool) -> Result<Reach, OpenFault> {
        let log = BroadcastLog::open(Global, keeper)?;
        Ok(Reach { checks: checks.then(Checks::new), log, scan: Scan::new(), body: FrameBuf::new() })
    }

    /// After a restart of the node, which was over its store opened again: only what is stored is left.
    pub fn restart<K: Keeper>(&mut self, keeper: &K) -> Result<(), BadStore> {
        self.checks = self.checks.is_some().then(Checks::new);
        self.scan.clear();
        self.log.reload(keeper)
    }

    /// After a tick of the node, once a second: lists the neighbours that have not acknowledged, and lets go those that were listed long ago.
    pub fn tick(&mut self, now: u64) {
        if let Some(checks) = &mut self.checks {
            checks.tick(now);
        }
    }

    // # Frames that come

    /// Takes octets that came as a frame, in place of the node's own `receive`.
    pub fn receive<'a, N: Node>(
        &mut self, node: &mut N, octets: &[u8], came: Came, buffers: &'a mut Buffers, out: &mut Out,
    ) -> Result<Reached<N::Heard<'a>>, Unreached> {
        out.clear();
        if octets.first().is_some_and(|it| matches!(it % 8, 0 | 3)) {
            return self.discovery(node.station(), octets, came.cost, out).map(Reached::Discovery).map_err(Unreached::Discovery);
        }
        let got = node.station().accept(octets, &mut buffers.payload).map_err(Unreached::Refused)?;
        let due = self.due(&got)?;
        let heard = node.hear(got, came, &mut buffers.datagram, out);
        let local = heard.as_ref().ok().and_then(N::of_station);
        if let Some(&Heard::Local { from, to_all, code, ref body }) = local {
            let command = Command { from, to_all, code, body: body.octets() };
            return Ok(Reached::Command(self.command(node.station(), &command, out)?));
        }
        let is_taken = matches!(local, Some(Heard::Learned | Heard::Relayed));
        self.check(node.station(), due, is_taken, came.time, out)?;
        heard.map(Reached::Node).map_err(|it| ReachDropped::Known(it).into())
    }

    /// What is due for a frame that was accepted. The request of a listed neighbour is not heard.
    fn due(&self, got: &Accepted<'_>) -> Result<Due, ReachDropped> {
        let (Some(checks), Path::Sealed { from, to_all, .. }) = (&self.checks, got.path()) else {
            return Ok(Due::default());
        };
        let Ok(Unit::Local { code: 1, body }) = read_unit(got.payload()) else {
            return Ok(Due::default());
        };
        match read_message(body.octets()) {
            Ok(Message::Rreq { .. }) if to_all && checks.listed(from) => Err(ReachDropped::Blacklisted),
            Ok(Message::Rrep { number, origin, .. }) if !to_all => {
                Ok(Due { is_route_message: true, acknowledgement: Some(Reply { to: from, number, origin }) })
            }
            message => Ok(Due { is_route_message: message.is_ok(), acknowledgement: None }),
        }
    }

    /// Acknowledges a reply that was taken, and begins a check of the neighbour to which a reply went.
    fn check<K: Keeper>(&mut self, station: &mut Station<K>, due: Due, is_taken: bool, now: u64, out: &mut Out) -> Result<(), ReachDropped> {
        let Some(checks) = &mut self.checks else {
            return Ok(());
        };
        let replied = station.last_reply();
        if let Some(reply) = due.acknowledgement.filter(|_| is_taken) {
            self.body.clear();
            write_ack(reply.number, reply.origin, &mut self.body);
            // Where no counter is left, none goes out.
            if let Err(LocalRefusal::Halted | LocalRefusal::Store) = station.send_local(3, Some(reply.to), self.body.octets(), out) {
                out.clear();
                return Err(STORE);
            }
        }
        if let Some((to, number, origin)) = replied.filter(|_| due.is_route_message) {
            checks.reply_sent(to, number, origin, now);
        }
        Ok(())
    }

    fn command<K: Keeper>(&mut self, station: &mut Station<K>, command: &Command<'_>, out: &mut Out) -> Result<CommandHeard, ReachDropped> {
        let Some(own) = station.ring().joined() else {
            return Err(BAD_UNIT);
        };
        match command.code {
            3 => self.acknowledgement(command),
            4 => self.hear_broadcast(own, station, command, out),
            _ => self.path(own, station, command, out),
        }
    }

    fn acknowledgement(&mut self, command: &Command<'_>) -> Result<CommandHeard, ReachDropped> {
        let (number, origin) = read_ack(command.body).filter(|_| !command.to_all).ok_or(BAD_UNIT)?;
        let checks = self.checks.as_mut().ok_or(ReachDropped::NotAwaited)?;
        checks.acked(command.from, number, origin).map_err(|_| ReachDropped::NotAwaited)?;
        Ok(CommandHeard::Acked)
    }

    /// Sends a command to a neighbour, or to all, with the body that was written.
    fn send<K: Keeper>(&mut self, station: &mut Station<K>, code: u8, to: Option<Short>, out: &mut Out) -> Result<(), LocalRefusal> {
        let sent = station.send_local(code, to, self.body.octets(), out);
        if station.halted() {
            out.clear();
        }
        sent
    }

    /// Sends what a command that was heard leads to.
    fn send_on<K: Keeper>(&mut self, station: &mut Station<K>, code: u8, to: Option<Short>, out: &mut Out) -> Result<(), ReachDropped> {
        self.send(station, code, to, out).map_err(|it| match it {
            LocalRefusal::CounterSpent => ReachDropped::Known(Dropped::CounterSpent),
            LocalRefusal::Halted | LocalRefusal::NotJoined | LocalRefusal::Store => STORE,
        })
    }

    // # Broadcasts

    /// Sends a datagram of 1 to 360 octets to all.
    pub fn broadcast<K: Keeper>(&mut self, station: &mut Station<K>, datagram: &[u8], out: &mut Out) -> Result<(), BroadcastRefusal> {
        out.clear();
        if station.halted() {
            return Err(BroadcastRefusal::Halted);
        }
        let origin = station.ring().joined().ok_or(BroadcastRefusal::NotJoined)?;
        let octets = BroadcastBuf::try_from_octets(datagram).filter(|it| !it.is_empty()).ok_or(BroadcastRefusal::BadSize)?;
        if self.log.number_left() == 0 {
            return Err(BroadcastRefusal::NumberSpent);
        }
        if station.counters_left() == 0 {
            return Err(BroadcastRefusal::CounterSpent);
        }
        let Ok(number) = self.log.next(station.keeper_mut()) else {
            station.halt();
            return Err(BroadcastRefusal::Store);
        };
        self.body.clear();
        write_broadcast(&Broadcast { hops: 14, origin, number, octets }, &mut self.body);
        self.send(station, 4, None, out).map_err(|it| match it {
            LocalRefusal::CounterSpent => BroadcastRefusal::CounterSpent,
            LocalRefusal::Halted | LocalRefusal::NotJoined | LocalRefusal::Store => BroadcastRefusal::Store,
        })
    }

    fn hear_broadcast<K: Keeper>(
        &mut self, own: Short, station: &mut Station<K>, command: &Command<'_>, out: &mut Out,
    ) -> Result<CommandHeard, ReachDropped> {
        let heard = read_broadcast(command.body).filter(|_| command.to_all).ok_or(BAD_UNIT)?;
        if heard.origin == own {
            return Err(ReachDropped::Old);
        }
        self.log.room(heard.origin, heard.number).map_err(|it| if it == LogFault::OriginsFull { ReachDropped::OriginsFull } else { ReachDropped::Old })?;
        if heard.hops >= 2 && station.counters_left() == 0 {
            return Err(ReachDropped::Known(Dropped::CounterSpent));
        }
        // It is marked before it goes on and before it is handed up.
        if self.log.admit(station.keeper_mut(), heard.origin, heard.number).is_err() {
            station.halt();
            return Err(STORE);
        }
        if heard.hops >= 2 {
            self.body.clear();
            write_broadcast(&Broadcast { hops: heard.hops - 1, octets: heard.octets.copied(), ..heard }, &mut self.body);
            self.send_on(station, 4, None, out)?;
        }
        Ok(CommandHeard::Broadcast { origin: heard.origin, number: heard.number, octets: heard.octets })
    }

    // # Which way a node is reached

    /// Asks which way a datagram to a node goes. The answer comes as `CommandHeard::Path`, or never: have a timer.
    pub fn ask<K: Keeper>(&mut self, station: &mut Station<K>, target: Short, out: &mut Out) -> Result<(), AskRefusal> {
        out.clear();
        if station.halted() {
            return Err(AskRefusal::Halted);
        }
        let own = station.ring().joined().ok_or(AskRefusal::NotJoined)?;
        if target == own {
            return Err(AskRefusal::ToSelf);
        }
        let (hop, _) = station.valid(target).ok_or(AskRefusal::NoRoute)?;
        self.body.clear();
        write_path(&PathMessage::Ask { target, walk: Walk::new().with(own) }, &mut self.body);
        self.send(station, 5, Some(hop), out).map_err(|it| match it {
            LocalRefusal::CounterSpent => AskRefusal::CounterSpent,
            LocalRefusal::Halted | LocalRefusal::NotJoined | LocalRefusal::Store => AskRefusal::Store,
        })
    }

    fn path<K: Keeper>(&mut self, own: Short, station: &mut Station<K>, command: &Command<'_>, out: &mut Out) -> Result<CommandHeard, ReachDropped> {
        let message = read_path(command.body).filter(|_| !command.to_all).ok_or(BAD_UNIT)?;
        let next = if let PathMessage::Ask { target, .. } = &message { station.valid(*target).map(|it| it.0) } else { None };
        let step = take_path(own, command.from, next, &message).map_err(|it| match it {
            PathRefusal::BadUnit => BAD_UNIT,
            PathRefusal::NoRoute => ReachDropped::Known(Dropped::NoRoute),
            PathRefusal::Revisited => ReachDropped::Revisited,
            PathRefusal::PathLong => ReachDropped::PathLong,
        })?;
        let (to, message, heard) = match step {
            PathStep::Forward { to, message } => (to, message, CommandHeard::Relayed),
            PathStep::Answer { to, message } => (to, message, CommandHeard::Answered),
            PathStep::Done { walk } => return Ok(CommandHeard::Path { walk }),
        };
        self.body.clear();
        write_path(&message, &mut self.body);
        self.send_on(station, 5, Some(to), out)?;
        Ok(heard)
    }

    // # Agents

    /// Begins to look for agents, at a meter that has not joined: sends a request, and forgets what was heard before.
    pub fn scan<K: Keeper>(&mut self, station: &mut Station<K>, out: &mut Out) -> Result<(), ScanRefusal> {
        out.clear();
        if station.halted() {
            return Err(ScanRefusal::Halted);
        }
        if station.ring().joined().is_some() {
            return Err(ScanRefusal::AlreadyJoined);
        }
        self.scan.begin();
        give(&Discovery::Request { seq: 0 }, out);
        Ok(())
    }

    /// The k-th agent that was heard since, the cheapest first, and what the way to the coordinator costs by it: call `join` of the meter with it. Give
    /// beacons a second or two first; where a joining does not come to its end in 120 seconds, take the next one.
    pub fn choose<K: Keeper>(&self, station: &mut Station<K>, k: u8) -> Result<(Short, u32), ChooseRefusal> {
        if station.halted() {
            return Err(ChooseRefusal::Halted);
        }
        if station.ring().joined().is_some() {
            return Err(ChooseRefusal::AlreadyJoined);
        }
        self.scan.kth(k).ok_or(ChooseRefusal::NoBeacon)
    }

    fn discovery<K: Keeper>(
        &mut self, station: &mut Station<K>, octets: &[u8], link: LinkCost, out: &mut Out,
    ) -> Result<DiscoveryHeard, DiscoveryDropped> {
        if station.halted() {
            return Err(DiscoveryDropped::Halted);
        }
        let own = station.ring().joined();
        match read_discovery(octets).ok_or(DiscoveryDropped::Malformed)? {
            Discovery::Request { .. } => {
                let from = own.ok_or(DiscoveryDropped::NotForMe)?;
                let cost = cost_home(station, from).ok_or(DiscoveryDropped::NoRoute)?;
                give(&Discovery::Beacon { seq: 0, pan: PAN, from, cost }, out);
                Ok(DiscoveryHeard::Beacon)
            }
            Discovery::Beacon { pan, from, .. } if pan != PAN || own == Some(from) => Err(DiscoveryDropped::NotForMe),
            Discovery::Beacon { from, cost, .. } => {
                if own.is_some() || self.scan.take(from, cost, link).is_err() {
                    return Err(DiscoveryDropped::NotScanning);
                }
                Ok(DiscoveryHeard::Beaconed)
            }
        }
    }
}

/// What the way to the coordinator costs from a node, which may be the coordinator itself.
fn cost_home<K: Keeper>(station: &Station<K>, own: Short) -> Option<u16> {
    if own.number() == 0 {
        return Some(0);
    }
    station.valid(Short::new(0)?).map(|it| it.1)
}

/// A frame of discovery goes out, and nothing beside it.
fn give(frame: &Discovery, out: &mut Out) {
    out.clear();
    if let Some(place) = out.frames.push_blank() {
        write_discovery(frame, &mut place.octets);
    }
}
