//! The calls of a coordinator.
#![cfg_attr(target_os = "none", no_std, no_main)]

#[cfg(not(target_os = "none"))]
fn main() {}

#[cfg(target_os = "none")]
#[path = "../../../firmware/src/bare.rs"]
mod bare;

#[cfg(target_os = "none")]
mod calls {
    use coordinator::Coordinator;
    use core::hint::black_box;
    use core::mem::MaybeUninit;
    use node_rules::Came;
    use plc_base::{FrameBuf, Out};
    use plc_station::Buffers;
    use rattle_std::alloc::Global;
    use stacks::{Event, Flash, Lent, done, flash, next_event};

    #[global_allocator]
    static HEAP: crate::bare::Heap<11360> = crate::bare::Heap::new();

    type Node = Coordinator<Flash>;

    static mut NODE: MaybeUninit<Node> = MaybeUninit::uninit();
    static mut LENT: MaybeUninit<Lent> = MaybeUninit::uninit();

    #[inline(never)]
    fn open(event: &Event) -> bool {
        let Some(flash) = flash() else { return false };
        let opened = Coordinator::open(Global, flash, event.eui, &event.key);
        let Ok(node) = &opened else { return false };
        // A move out of the answer would make a second copy of the node on the stack.
        unsafe { (&mut *(&raw mut NODE)).as_mut_ptr().copy_from_nonoverlapping(node, 1) };
        core::mem::forget(opened);
        true
    }

    fn accept(node: &mut Node, _: &mut Lent, event: &Event) -> bool {
        let mut payload = FrameBuf::new();
        done(node.station().accept(event.octets(), &mut payload))
    }

    fn hear(node: &mut Node, lent: &mut Lent, event: &Event) -> bool {
        let mut payload = FrameBuf::new();
        let Ok(got) = node.station().accept(event.octets(), &mut payload) else { return false };
        done(node.hear(got, event.cost, 0, event.now, &mut lent.buffers.datagram, &mut lent.out))
    }

    fn receive(node: &mut Node, lent: &mut Lent, event: &Event) -> bool {
        let came = Came { cost: event.cost, note: 0, time: event.now };
        done(node.receive(event.octets(), came, &mut lent.buffers, &mut lent.out))
    }

    fn send(node: &mut Node, lent: &mut Lent, event: &Event) -> bool {
        done(node.station().send(event.short, event.octets(), 0, event.now, &mut lent.out))
    }

    fn send_command(node: &mut Node, lent: &mut Lent, event: &Event) -> bool {
        done(node.station().send_command(event.short, event.octets(), event.now, &mut lent.out))
    }

    fn send_local(node: &mut Node, lent: &mut Lent, event: &Event) -> bool {
        done(node.station().send_local(event.code, Some(event.short), event.octets(), &mut lent.out))
    }

    fn broke(node: &mut Node, _: &mut Lent, event: &Event) -> bool {
        done(node.station().broke(event.short))
    }

    fn challenge(node: &mut Node, lent: &mut Lent, event: &Event) -> bool {
        done(node.challenge(event.eui, event.now, &mut lent.out))
    }

    fn activate(node: &mut Node, lent: &mut Lent, event: &Event) -> bool {
        done(node.activate(event.eui, event.index, event.now, &mut lent.out))
    }

    fn kick(node: &mut Node, lent: &mut Lent, event: &Event) -> bool {
        done(node.kick(event.eui, &mut lent.out))
    }

    fn allow(node: &mut Node, _: &mut Lent, event: &Event) -> bool {
        done(node.allow(event.eui, &event.key))
    }

    fn depot(node: &mut Node, _: &mut Lent, event: &Event) -> bool {
        done(node.depot(event.eui, &event.key))
    }

    fn rekey(node: &mut Node, _: &mut Lent, event: &Event) -> bool {
        done(node.rekey(event.index, &event.key))
    }

    fn activate_self(node: &mut Node, _: &mut Lent, event: &Event) -> bool {
        done(node.activate_self(event.index))
    }

    fn give_random(node: &mut Node, _: &mut Lent, event: &Event) -> bool {
        done(node.give_random(event.random))
    }

    fn tick(node: &mut Node, _: &mut Lent, event: &Event) -> bool {
        node.tick(event.now);
        true
    }

    fn next_end(node: &mut Node, _: &mut Lent, _: &Event) -> bool {
        black_box(node.next_end()).is_some()
    }

    fn restart(node: &mut Node, _: &mut Lent, _: &Event) -> bool {
        done(node.restart())
    }

    type Call = fn(&mut Node, &mut Lent, &Event) -> bool;
    static CALLS: [Call; 18] = [
        accept, hear, receive, send, send_command, send_local, broke, challenge, activate, kick, allow, depot, rekey, activate_self, give_random, tick,
        next_end, restart,
    ];

    #[unsafe(no_mangle)]
    extern "C" fn program() {
        let Ok(out) = Out::new(Global) else { return };
        unsafe { (&mut *(&raw mut LENT)).write(Lent { out, buffers: Buffers::new() }) };
        black_box(open(next_event()));
        let (node, lent) = unsafe { ((&mut *(&raw mut NODE)).assume_init_mut(), (&mut *(&raw mut LENT)).assume_init_mut()) };
        loop {
            let event = next_event();
            black_box(CALLS[event.call % CALLS.len()](node, lent, event));
        }
    }
}
