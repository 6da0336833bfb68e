//! A line of devices with further reach, played by a script of `line_replay`: each node is a meter or a coordinator with a [`Reach`] beside it, and the script
//! says what comes to it.
//!
//!     cargo run --features coordinator,further-reach --example further_reach < ../test/the_cheapest_agent.script
//!
//! It prints the report of `line_replay`, but for what `show` says, for `forged` and for the last line.
mod reach;

use kennelmorn_node::coordinator::Coordinator;
use kennelmorn_node::meter_node::Meter;
use kennelmorn_node::node_rules::{Came, CoordinatorHeard, Heard, MeterHeard};
use kennelmorn_node::plc_base::{Eui, Failed, Keeper, Key, KeyIndex, LinkCost, Out, RandomOctets, Record, Short};
use kennelmorn_node::plc_station::{Buffers, Station};
use kennelmorn_node::rattle_std::alloc::Global;
use kennelmorn_node::reach_rules::CommandHeard;
use reach::{Reach, Reached};
use std::collections::BTreeMap;
use std::fmt::{Debug, Write};
use std::io::{BufRead, stdin};

/// A store in memory whose power fails at a write where the script says so.
#[derive(Default)]
struct Store {
    records: BTreeMap<u32, Record>,
    /// How many writes come until power fails, the failing one among them, and whether that leaves the new record.
    cut: Option<(u32, bool)>,
}

impl Keeper for Store {
    fn get(&self, slot: u32) -> Option<Record> {
        self.records.get(&slot).map(Record::copied)
    }

    fn put(&mut self, slot: u32, octets: &Record) -> Result<(), Failed> {
        let fails = self.cut.is_some_and(|it| it.0 <= 1);
        if !fails || self.cut.is_some_and(|it| it.1) {
            self.records.insert(slot, octets.copied());
        }
        self.cut = if fails { None } else { self.cut.map(|it| (it.0 - 1, it.1)) };
        if fails { Err(Failed) } else { Ok(()) }
    }
}

enum Kind {
    Coordinator(Coordinator<Store>),
    Meter(Meter<Store>),
}

/// A node with all that it is lent.
struct Device {
    kind: Kind,
    eui: Eui,
    key: Key,
    reach: Option<Reach>,
    out: Out,
    buffers: Buffers,
}

impl Device {
    fn coordinator(&mut self) -> &mut Coordinator<Store> {
        match &mut self.kind {
            Kind::Coordinator(it) => it,
            Kind::Meter(_) => panic!("node 0 is the coordinator"),
        }
    }

    fn meter(&mut self) -> &mut Meter<Store> {
        match &mut self.kind {
            Kind::Meter(it) => it,
            Kind::Coordinator(_) => panic!("a meter is meant"),
        }
    }

    /// The parts of it: a call of one may be lent another.
    fn parts(&mut self) -> (&mut Station<Store>, &mut Reach, &mut Out) {
        let station = match &mut self.kind {
            Kind::Coordinator(it) => it.station(),
            Kind::Meter(it) => it.station(),
        };
        (station, self.reach.as_mut().expect("the line has begun"), &mut self.out)
    }

    fn address(&mut self) -> Option<Short> {
        match &self.kind {
            Kind::Coordinator(it) => it.address(),
            Kind::Meter(it) => it.address(),
        }
    }

    fn tick(&mut self, now: u64) {
        match &mut self.kind {
            Kind::Coordinator(it) => it.tick(now),
            Kind::Meter(it) => it.tick(now),
        }
        self.parts().1.tick(now);
    }

    fn restart(&mut self) {
        let is_read = match &mut self.kind {
            Kind::Coordinator(it) => it.restart(),
            Kind::Meter(it) => it.restart(),
        };
        let (station, reach, _) = self.parts();
        is_read.and_then(|()| reach.restart(station.keeper_mut())).expect("a store that a node wrote");
    }
}

/// What a line of the script led to: its word, and the lines of the report after it.
type Told = Result<(String, String), String>;

/// The word of an answer or a refusal: the innermost name.
fn word(it: impl Debug) -> String {
    let mut text = format!("{it:?}");
    for outer in ["Refused(", "Dropped(", "Discovery(", "Known("] {
        text = text.strip_prefix(outer).unwrap_or(&text).to_owned();
    }
    text.chars().take_while(char::is_ascii_alphanumeric).collect()
}

fn done<T, E: Debug>(answer: Result<T, E>, said: &str) -> Told {
    answer.map(|_| (said.to_owned(), String::new())).map_err(word)
}

fn hex(octets: &[u8]) -> String {
    octets.iter().fold(String::new(), |text, it| text + &format!("{it:02x}"))
}

fn octets(text: &str) -> Vec<u8> {
    (0..text.len() / 2).map(|at| u8::from_str_radix(&text[2 * at..2 * at + 2], 16).expect("hexadecimal digits")).collect()
}

fn array<const N: usize>(text: &str) -> [u8; N] {
    octets(text).try_into().expect("so many octets")
}

fn number(text: &str) -> usize {
    text.parse().expect("a number")
}

fn cost(text: &str) -> LinkCost {
    LinkCost::new(number(text) as u8).expect("a cost")
}

fn index(text: &str) -> KeyIndex {
    KeyIndex::new(number(text) as u8).expect("an index")
}

#[derive(Default)]
struct Line {
    nodes: Vec<Device>,
    /// Each flight with the note of its frame.
    flights: Vec<(Vec<u8>, u32)>,
    sends: u32,
    now: u64,
    checks: bool,
    has_begun: bool,
}

impl Line {
    fn add(&mut self, kind: Kind, eui: Eui, key: Key) -> Told {
        let out = Out::new(Global).expect("memory");
        self.nodes.push(Device { kind, eui, key, reach: None, out, buffers: Buffers::new() });
        Ok(("Made".to_owned(), String::new()))
    }

    /// Opens what each node holds for further reach, before the first line that is no setup.
    fn begin(&mut self, line: &str) {
        if self.has_begun || ["coordinator", "meter", "depot", "near", "counter", "number", "checks"].contains(&line) {
            return;
        }
        self.has_begun = true;
        for node in &mut self.nodes {
            let station = match &mut node.kind {
                Kind::Coordinator(it) => it.station(),
                Kind::Meter(it) => it.station(),
            };
            node.reach = Some(Reach::open(station.keeper_mut(), self.checks).expect("a new store"));
        }
    }

    /// The lines of the frames that a node sends.
    fn flies(&mut self, node: usize) -> String {
        let mut lines = String::new();
        for frame in self.nodes[node].out.frames.frames() {
            self.flights.push((frame.octets.octets().to_vec(), frame.note));
            writeln!(lines, "fly {} {node} {}", self.flights.len(), hex(frame.octets.octets())).expect("memory");
        }
        self.nodes[node].out.clear();
        lines
    }

    fn hear(&mut self, node: usize, frame: &[u8], link: LinkCost, note: u32) -> Told {
        let came = Came { cost: link, note, time: self.now };
        let device = &mut self.nodes[node];
        let reach = device.reach.as_mut().expect("the line has begun");
        let (mut took, mut done) = (false, None);
        // What both kinds have in common.
        let (said, lines) = match &mut device.kind {
            Kind::Meter(meter) => match reach.receive(meter, frame, came, &mut device.buffers, &mut device.out).map_err(word)? {
                Reached::Node(MeterHeard::Station(heard)) => heard_by(node, &heard),
                Reached::Node(heard) => {
                    took = matches!(heard, MeterHeard::Took(_));
                    (word(heard), String::new())
                }
                Reached::Command(heard) => commanded(node, &heard),
                Reached::Discovery(heard) => (word(heard), String::new()),
            },
            Kind::Coordinator(coordinator) => match reach.receive(coordinator, frame, came, &mut device.buffers, &mut device.out).map_err(word)? {
                Reached::Node(CoordinatorHeard::Station(heard)) => heard_by(node, &heard),
                Reached::Node(heard) => {
                    done = if let CoordinatorHeard::Done { eui, .. } = heard { Some(eui) } else { None };
                    (word(heard), String::new())
                }
                Reached::Command(heard) => commanded(node, &heard),
                Reached::Discovery(heard) => (word(heard), String::new()),
            },
        };
        let took = if took { format!("took {node}\n") } else { String::new() };
        let done = done.and_then(|eui| self.nodes.iter().position(|it| it.eui == eui)).map_or(String::new(), |it| format!("done {it}\n"));
        Ok((said, lines + &took + &done + &self.flies(node)))
    }

    /// Carries out a line.
    fn line(&mut self, words: &[&str]) -> Told {
        self.begin(words[0]);
        match *words {
            ["coordinator", eui, key] => {
                let (eui, key) = (Eui(array(eui)), Key(array(key)));
                let node = Coordinator::open(Global, Store::default(), eui, &key).map_err(|it| word(it.0))?;
                self.add(Kind::Coordinator(node), eui, key)
            }
            ["meter", eui, key] => {
                let (eui, key) = (Eui(array(eui)), Key(array(key)));
                let node = Meter::open(Global, Store::default(), eui, key).map_err(|it| word(it.0))?;
                self.add(Kind::Meter(node), eui, key)
            }
            ["checks"] => {
                self.checks = true;
                Ok(("Set".to_owned(), String::new()))
            }
            ["tick", seconds] => {
                self.now += number(seconds) as u64;
                let now = self.now;
                self.nodes.iter_mut().for_each(|it| it.tick(now));
                Ok(("Ticked".to_owned(), String::new()))
            }
            ["lose", _] => Ok(("Lost".to_owned(), String::new())),
            ["show", _] => Ok(("Shown".to_owned(), String::new())),
            ["near", one, other, link] => {
                for (node, other) in [(number(one), number(other)), (number(other), number(one))] {
                    let other = self.nodes[other].address().ok_or("NoAddress")?;
                    self.station(node).preset_near(other, cost(link), 0).map_err(word)?;
                }
                Ok(("Set".to_owned(), String::new()))
            }
            ["deliver", flight, node, link] => {
                let (frame, note) = self.flights[number(flight) - 1].clone();
                self.hear(number(node), &frame, cost(link), note)
            }
            ["inject", node, link, frame] => self.hear(number(node), &octets(frame), cost(link), 0),
            [call, node, ..] => {
                let (said, lines) = self.call(words)?;
                let is_of_operator = ["depot", "allow", "rekey", "activate", "challenge", "kick"].contains(&call);
                let node = if is_of_operator { 0 } else { number(node) };
                Ok((said, lines + &self.flies(node)))
            }
            _ => panic!("another line"),
        }
    }

    fn station(&mut self, node: usize) -> &mut Station<Store> {
        match &mut self.nodes[node].kind {
            Kind::Coordinator(it) => it.station(),
            Kind::Meter(it) => it.station(),
        }
    }

    /// Carries out a line that is a call of one node, or of the coordinator.
    fn call(&mut self, words: &[&str]) -> Told {
        let now = self.now;
        let node = number(words[1]);
        let (eui, key) = self.nodes.get(node).map_or((Eui([0; 8]), Key([0; 16])), |it| (it.eui, it.key));
        let addressed = words.get(2).and_then(|it| it.parse::<usize>().ok()).and_then(|it| self.nodes.get_mut(it)).and_then(Device::address);
        match *words {
            ["depot", _] => {
                let grant = self.nodes[0].coordinator().depot(eui, &key).map_err(word)?;
                done(self.nodes[node].meter().provision(&grant), "Joined")
            }
            ["allow", _] => {
                let address = self.nodes[0].coordinator().allow(eui, &key).map_err(word)?;
                Ok(("Allowed".to_owned(), format!("grant {node} {:04x}\n", address.number())))
            }
            ["rekey", at, key] => done(self.nodes[0].coordinator().rekey(index(at), &Key(array(key))), "Drawn"),
            ["activate", "0", at] => done(self.nodes[0].coordinator().activate_self(index(at)), "Activated"),
            ["challenge", _] | ["activate", ..] | ["kick", _] => {
                let Device { kind: Kind::Coordinator(coordinator), out, .. } = &mut self.nodes[0] else { panic!("node 0 is the coordinator") };
                match *words {
                    ["challenge", _] => done(coordinator.challenge(eui, now, out), "Challenged"),
                    ["activate", _, at] => done(coordinator.activate(eui, index(at), now, out), "Ordered"),
                    _ => done(coordinator.kick(eui, out), "Kicked"),
                }
            }
            ["counter", _, value] => done(self.station(node).preset_counter(number(value) as u32), "Set"),
            ["number", _, value] => done(self.station(node).preset_number(number(value) as u16), "Set"),
            ["cut", _, at, which] => {
                self.station(node).keeper_mut().cut = Some((number(at) as u32, which == "new"));
                Ok(("Set".to_owned(), String::new()))
            }
            ["restart", _] => {
                self.nodes[node].restart();
                Ok(("Restarted".to_owned(), String::new()))
            }
            ["break", ..] => done(self.station(node).broke(addressed.ok_or("NoAddress")?), "Broken"),
            ["rand", _, value] => {
                let value = RandomOctets(array(value));
                match &mut self.nodes[node].kind {
                    Kind::Coordinator(it) => done(it.give_random(value), "Given"),
                    Kind::Meter(it) => done(it.give_random(value), "Given"),
                }
            }
            ["leave", _] => done(self.nodes[node].meter().leave(), "Left"),
            ["join", ..] => self.join(node, addressed.ok_or("NoAddress")?),
            ["send", _, _, datagram] => {
                let (to, note) = (addressed.ok_or("NoAddress")?, self.sends + 1);
                let (station, _, out) = self.nodes[node].parts();
                let sent = station.send(to, &octets(datagram), note, now, out).map_err(word)?;
                self.sends = note;
                Ok((word(sent), String::new()))
            }
            ["bcast", _, datagram] => {
                let (station, reach, out) = self.nodes[node].parts();
                done(reach.broadcast(station, &octets(datagram), out), "Sent")
            }
            ["path", ..] => {
                let target = addressed.ok_or("NoAddress")?;
                let (station, reach, out) = self.nodes[node].parts();
                done(reach.ask(station, target, out), "Traced")
            }
            ["scan", _] => {
                let (station, reach, out) = self.nodes[node].parts();
                done(reach.scan(station, out), "Scanning")
            }
            ["choose", _, k] => {
                let (station, reach, _) = self.nodes[node].parts();
                let (agent, total) = reach.choose(station, number(k) as u8).map_err(word)?;
                let (said, _) = self.join(node, agent)?;
                Ok((said, format!("agent {node} {:04x} {total}\n", agent.number())))
            }
            _ => panic!("another line"),
        }
    }

    fn join(&mut self, node: usize, agent: Short) -> Told {
        let Device { kind: Kind::Meter(meter), out, .. } = &mut self.nodes[node] else { panic!("a meter is meant") };
        done(meter.join(agent, self.now, out), "Asked")
    }
}

/// What the station of a node made of a frame.
fn heard_by(node: usize, heard: &Heard<'_>) -> (String, String) {
    let lines = if let Heard::Up { note, octets, .. } = heard { format!("up {node} {note} {}\n", hex(octets.octets())) } else { String::new() };
    (word(heard), lines)
}

fn commanded(node: usize, heard: &CommandHeard) -> (String, String) {
    match heard {
        CommandHeard::Broadcast { origin, number, octets } => {
            ("Bup".to_owned(), format!("bup {node} {:04x} {number} {}\n", origin.number(), hex(octets.octets())))
        }
        CommandHeard::Path { walk } => {
            let walk: String = walk.addresses().iter().map(|it| format!(" {:04x}", it.number())).collect();
            ("Path".to_owned(), format!("path {node}{walk}\n"))
        }
        CommandHeard::Acked | CommandHeard::Relayed | CommandHeard::Answered => (word(heard), String::new()),
    }
}

fn main() {
    let (mut line, mut event) = (Line::default(), 0);
    for text in stdin().lock().lines().map(|it| it.expect("a script")).filter(|it| !it.is_empty() && !it.starts_with('#')) {
        event += 1;
        let words: Vec<&str> = text.split(' ').collect();
        match line.line(&words) {
            Ok((said, lines)) => print!("{event} ok {said}\n{lines}"),
            Err(said) => println!("{event} no {said}"),
        }
    }
}
