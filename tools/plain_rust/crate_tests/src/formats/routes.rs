use std::dialect::*;

use loadng_messages::MessageFaultKind::{Address, Kind, Long, Short as Ended, Zero};
use loadng_messages::{MessageFault, read_message};
use std::test::Fail;

#[test]
fn the_first_fault_and_its_place() {
    std::test::check(|rt: HostRuntime| -> Result<(), Fail> {
    for (text, kind, place) in [
        ("", Ended, 0),
        ("01", Ended, 1),
        ("0100", Ended, 2),
        ("010001", Ended, 3),
        ("0200010005000100", Ended, 8),
        ("03000100", Ended, 4),
        ("00", Kind, 0),
        ("04000100020003", Kind, 0),
        ("ff", Kind, 0),
        ("010000", Zero, 1),
        ("020000000500010002", Zero, 1),
        ("0100010005fffe0002", Address, 5),
        ("0200010005ffff", Address, 5),
        ("01000100050001ffff", Address, 7),
        ("03fffe0001", Address, 1),
        ("030001fffe", Address, 3),
        ("01000100050001000200", Long, 9),
        ("0200010005000100020000", Long, 9),
        ("030001000200", Long, 5),
        ("030001000200ffff", Long, 5),
    ] {
        let octets = hex::decode(rt.alloc(), text)?;
        assert_eq!(rt;
            read_message(octets.as_slice()),
            Err(MessageFault { kind, place }),
            "{text}"
        );
    }
    Ok(())
})
}
