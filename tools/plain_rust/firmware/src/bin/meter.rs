//! The main loop of a meter on a board: the functions of `board` are yours. On a host it does nothing.
#![cfg_attr(target_os = "none", no_std, no_main)]

#[cfg(not(target_os = "none"))]
fn main() {}

#[cfg(target_os = "none")]
#[path = "../bare.rs"]
mod bare;

#[cfg(target_os = "none")]
mod on_a_board {
    use crate::bare::Heap;
    use core::mem::MaybeUninit;
    use firmware::{Driver, Flash, Modem, Trouble};
    use plc_base::{Eui, Key, LinkCost, RandomOctets, Short};

    /// What a meter takes at its opening, and no more: a pool of 160 blocks and its table, 64 ranks with their routes, 64 marks, the places of its pieces, the
    /// buffer of a body that leaves; and the 24 frames of its `Out`.
    #[global_allocator]
    static HEAP: Heap<3712> = Heap::new();

    /// What happened.
    #[repr(C)]
    struct Event {
        kind: u32,
        /// The node that is meant, or the cost of the link that a frame came by.
        number: u16,
        count: u16,
        now: u64,
        octets: [u8; 1280],
    }

    unsafe extern "C" {
        fn board_identity(eui: *mut [u8; 8], psk: *mut [u8; 16]);
        /// Waits for a frame, a request of the application, or the end of a second.
        fn board_wait(event: *mut Event);
        fn board_transmit(octets: *const u8, count: usize);
        fn board_take(from: u16, octets: *const u8, count: usize);
        fn board_answer(trouble: i32);
    }

    struct Board;

    impl Modem for Board {
        fn transmit(&mut self, frame: &[u8]) {
            unsafe { board_transmit(frame.as_ptr(), frame.len()) }
        }

        fn take(&mut self, from: Short, datagram: &[u8]) {
            unsafe { board_take(from.number(), datagram.as_ptr(), datagram.len()) }
        }
    }

    #[inline(never)]
    fn handle(driver: &mut Driver, event: &Event) -> Result<(), Trouble> {
        let octets = event.octets.get(..usize::from(event.count)).ok_or(Trouble::Refused)?;
        match event.kind {
            0 => driver.tick(event.now),
            1 => driver.hear(&mut Board, octets, LinkCost::new(event.number as u8).ok_or(Trouble::Refused)?, event.now)?,
            2 => driver.send(&mut Board, Short::new(event.number).ok_or(Trouble::Refused)?, octets, event.now)?,
            3 => driver.give_random(RandomOctets(octets.try_into().map_err(|_| Trouble::Refused)?))?,
            4 => driver.join(&mut Board, Short::new(event.number).ok_or(Trouble::Refused)?, event.now)?,
            _ => reopen(driver)?,
        }
        Ok(())
    }

    /// Goes on after a write that failed. It is no part of `handle`, so that the flash is not on the stack of the other calls.
    #[inline(never)]
    fn reopen(driver: &mut Driver) -> Result<(), Trouble> {
        // The stand-in has forgotten all by then, as after a loss of power; yours finds its records.
        driver.reopen(Flash::new())
    }

    static mut DRIVER: MaybeUninit<Driver> = MaybeUninit::uninit();
    static mut EVENT: MaybeUninit<Event> = MaybeUninit::zeroed();

    /// Opens the meter where it stays. It is no part of `program`, so that its stack is free again when it returns.
    #[inline(never)]
    fn open() -> &'static mut Driver {
        let (mut eui, mut psk) = ([0; 8], [0; 16]);
        unsafe { board_identity(&mut eui, &mut psk) }
        // This is the only borrow of it, since `program` runs once.
        let place = unsafe { &mut *(&raw mut DRIVER) };
        let Ok(driver) = Driver::open_at(place, Flash::new(), Eui(eui), Key(psk)) else {
            core::panic!("the meter does not open");
        };
        driver
    }

    #[unsafe(no_mangle)]
    extern "C" fn program() {
        let driver = open();
        // This is the only borrow of it.
        let event = unsafe { (&mut *(&raw mut EVENT)).assume_init_mut() };
        loop {
            unsafe { board_wait(event) }
            let answer = handle(driver, event).map_or_else(|it| 1 + it as i32, |()| 0);
            unsafe { board_answer(answer) }
        }
    }
}
