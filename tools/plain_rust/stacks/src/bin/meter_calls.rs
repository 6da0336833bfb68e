//! The calls of a meter.
#![cfg_attr(target_os = "none", no_std, no_main)]

#[cfg(not(target_os = "none"))]
fn main() {}

#[cfg(target_os = "none")]
#[path = "../../../firmware/src/bare.rs"]
mod bare;

#[cfg(target_os = "none")]
mod calls {
    use core::hint::black_box;
    use core::mem::MaybeUninit;
    use meter_node::Meter;
    use node_rules::Came;
    use plc_base::{FrameBuf, Grant, Out};
    use plc_station::Buffers;
    use rattle_std::alloc::Global;
    use stacks::{Event, Flash, Lent, done, flash, next_event};

    #[global_allocator]
    static HEAP: crate::bare::Heap<3712> = crate::bare::Heap::new();

    type Node = Meter<Flash>;

    static mut METER: MaybeUninit<Node> = MaybeUninit::uninit();
    static mut LENT: MaybeUninit<Lent> = MaybeUninit::uninit();

    #[inline(never)]
    fn new() -> bool {
        let Ok(out) = Out::new(Global) else { return false };
        unsafe { (&mut *(&raw mut LENT)).write(Lent { out, buffers: Buffers::new() }) };
        true
    }

    #[inline(never)]
    fn open(event: &Event) -> bool {
        let Some(flash) = flash() else { return false };
        let opened = Meter::open(Global, flash, event.eui, event.key);
        let Ok(node) = &opened else { return false };
        // A move out of the answer would make a second copy of the node on the stack.
        unsafe { (&mut *(&raw mut METER)).as_mut_ptr().copy_from_nonoverlapping(node, 1) };
        core::mem::forget(opened);
        true
    }

    fn accept(node: &mut Node, _: &mut Lent, event: &Event) -> bool {
        let mut payload = FrameBuf::new();
        done(node.station().accept(event.octets(), &mut payload))
    }

    fn hear(node: &mut Node, lent: &mut Lent, event: &Event) -> bool {
        let mut payload = FrameBuf::new();
        let Ok(got) = node.station().accept(event.octets(), &mut payload) else { return false };
        done(node.hear(got, event.cost, 0, event.now, &mut lent.buffers.datagram, &mut lent.out))
    }

    fn receive(node: &mut Node, lent: &mut Lent, event: &Event) -> bool {
        let came = Came { cost: event.cost, note: 0, time: event.now };
        done(node.receive(event.octets(), came, &mut lent.buffers, &mut lent.out))
    }

    fn send(node: &mut Node, lent: &mut Lent, event: &Event) -> bool {
        done(node.station().send(event.short, event.octets(), 0, event.now, &mut lent.out))
    }

    fn send_command(node: &mut Node, lent: &mut Lent, event: &Event) -> bool {
        done(node.station().send_command(event.short, event.octets(), event.now, &mut lent.out))
    }

    fn send_local(node: &mut Node, lent: &mut Lent, event: &Event) -> bool {
        done(node.station().send_local(event.code, Some(event.short), event.octets(), &mut lent.out))
    }

    fn join(node: &mut Node, lent: &mut Lent, event: &Event) -> bool {
        done(node.join(event.short, event.now, &mut lent.out))
    }

    fn give_random(node: &mut Node, _: &mut Lent, event: &Event) -> bool {
        done(node.give_random(event.random))
    }

    fn provision(node: &mut Node, _: &mut Lent, event: &Event) -> bool {
        let grant = Grant { address: event.short, active: event.index, keys: [Some(event.key), None] };
        done(node.provision(&grant))
    }

    fn leave(node: &mut Node, _: &mut Lent, _: &Event) -> bool {
        done(node.leave())
    }

    fn tick(node: &mut Node, _: &mut Lent, event: &Event) -> bool {
        node.tick(event.now);
        true
    }

    fn broke(node: &mut Node, _: &mut Lent, event: &Event) -> bool {
        done(node.station().broke(event.short))
    }

    fn next_end(node: &mut Node, _: &mut Lent, _: &Event) -> bool {
        black_box(node.next_end()).is_some()
    }

    fn restart(node: &mut Node, _: &mut Lent, _: &Event) -> bool {
        done(node.restart())
    }

    type Call = fn(&mut Node, &mut Lent, &Event) -> bool;
    static CALLS: [Call; 14] =
        [accept, hear, receive, send, send_command, send_local, join, give_random, provision, leave, tick, next_end, broke, restart];

    #[unsafe(no_mangle)]
    extern "C" fn program() {
        let ready = new() && open(next_event());
        black_box(ready);
        let (node, lent) = unsafe { ((&mut *(&raw mut METER)).assume_init_mut(), (&mut *(&raw mut LENT)).assume_init_mut()) };
        loop {
            let event = next_event();
            black_box(CALLS[event.call % CALLS.len()](node, lent, event));
        }
    }
}
