use std::dialect::*;

use joining_messages::JoinFaultKind::{Body, Code, Short as Ended};
use joining_messages::{JoinFault, read_join};
use std::test::Fail;

#[test]
fn the_first_fault_and_its_place() {
    std::test::check(|rt: HostRuntime| -> Result<(), Fail> {
    for (text, kind, place) in [
        ("", Ended, 0),
        ("01", Ended, 1),
        ("0601020304050607", Ended, 8),
        ("00", Code, 0),
        ("07010203040506070800", Code, 0),
        ("ff0102", Code, 0),
        ("020102030405060708", Body, 9),
        ("020102030405060708030200", Body, 9),
        ("02010203040506070803020005", Body, 9),
        ("02010203040506070804020004", Body, 9),
        ("0201020304050607080302000400", Body, 9),
        ("030102030405060708", Body, 9),
        ("04010203040506070800", Body, 9),
        ("05010203040506070800", Body, 9),
        ("060102030405060708", Body, 9),
        ("06010203040506070802", Body, 9),
        ("0601020304050607080100", Body, 9),
    ] {
        let octets = hex::decode(rt.alloc(), text)?;
        assert_eq!(rt;
            read_join(octets.as_slice()).err(),
            Some(JoinFault { kind, place }),
            "{text}"
        );
    }
    Ok(())
})
}
