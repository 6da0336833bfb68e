use std::dialect::*;

use line_script::{EventKind, LINE_OCTETS};
use script_faults::{Cause, Fault, WordKind, fault_of, nearest_kind};
use std::test::Fail;

fn fault(cause: Cause, start: usize, end: usize) -> Option<Fault> {
    Some(Fault { cause, start, end })
}

fn found(line: &str) -> Option<Fault> {
    let mut buffers = [0u8; LINE_OCTETS];
    if line.len() > 4096 {
        return None;
    }
    fault_of(line.as_bytes(), buffers.as_mut_slice())
}

#[test]
fn lines_have_their_faults() {
    std::test::check(|rt: HostRuntime| {
    let wrong = |kind| Cause::Wrong { kind };
    assert_eq!(rt;
        found("tick 1000000"),
        fault(wrong(WordKind::Seconds), 5, 12)
    );
    assert_eq!(rt; found("cut 1 1 nwe"), fault(wrong(WordKind::Record), 8, 11));
    assert_eq!(rt;
        found("rand 1 0001020304050607"),
        fault(wrong(WordKind::Random), 7, 23)
    );
    assert_eq!(rt; found("sendto 1 0 aa"), fault(Cause::Unknown, 0, 6));
    assert_eq!(rt;
        found("deliver -1 0 1"),
        fault(wrong(WordKind::Flight), 8, 10)
    );
})
}

#[test]
fn words_are_missing_or_too_many() {
    std::test::check(|rt: HostRuntime| {
    let missing = Cause::Missing {
        kind: WordKind::Cost,
    };
    assert_eq!(rt; found("deliver 1 0"), fault(missing, 11, 12));
    assert_eq!(rt; found("send 1 0 aa "), fault(Cause::Surplus, 11, 12));
    assert_eq!(rt;
        found("send 1 0 aa # a reading"),
        fault(Cause::Surplus, 11, 23)
    );
    assert_eq!(rt; found("checks"), None);
    assert_eq!(rt; found("# tick 0"), None);
})
}

#[test]
fn a_word_is_meant() {
    std::test::check(|rt: HostRuntime| -> Result<(), Fail> {
    assert_eq!(rt; nearest_kind(rt.alloc(), "sned")?, Some(EventKind::Send));
    assert_eq!(rt; nearest_kind(rt.alloc(), "sendto")?, Some(EventKind::Send));
    assert_eq!(rt; nearest_kind(rt.alloc(), "reading")?, None);
    Ok(())
})
}
