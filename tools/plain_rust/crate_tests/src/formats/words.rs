use std::dialect::*;

use frame_facts::{PayloadKind, kind_word, payload_kind};
use plc_base::LONGEST_FRAME;
use std::test::Fail;

// Payloads of `docs/FORMATS.md`, each with the word for its kind.
const PAYLOADS: [(&str, &str); 8] = [
    ("be000100024148656c6c6f", "data"),
    ("be00010002e17400092e02020202", "piece"),
    ("4001010002000500010004", "RREQ"),
    ("40010300040001", "RERR"),
    ("4002010102030405060708", "JOIN"),
    ("4002060102030405060708", "?"),
    ("4003010005000a", "ack"),
    ("ff", "?"),
];

#[test]
fn has_a_word() {
    std::test::check(|rt: HostRuntime| -> Result<(), Fail> {
    for (text, word) in PAYLOADS {
        let payload = hex::decode(rt.alloc(), text)?;
        assert!(rt; payload.len() <= LONGEST_FRAME);
        assert_eq!(rt; kind_word(payload_kind(payload.as_slice())), word);
    }
    assert_eq!(rt; payload_kind(&[]), PayloadKind::Unknown);
    Ok(())
})
}
