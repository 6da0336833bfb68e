//! Descriptions with options.

use std::dialect::*;

use line_plan::{are_options, read_plan};
use plc_base::MemSource;
use std::alloc::{AllocError, Global};
use std::test::Fail;

fn words(alloc: Global, words: &[&str]) -> Result<Vec<String>, AllocError> {
    let mut list = Vec::new(alloc);
    for word in words {
        list.push(String::from_str(alloc, word)?)?;
    }
    Ok(list)
}

#[test]
fn has_the_values_of_options() {
    std::test::check(|rt: HostRuntime| -> Result<(), Fail> {
    let alloc = rt.alloc();
    let mut octets = Vec::new(alloc);
    octets.extend_from_slice(b"[place]\nmeters = 60\n")?;
    let mut source = MemSource::new(octets, 7, Vec::new(alloc));
    let options = words(alloc, &["--set", "place.meters=5", "--seed", "9"])?;
    assert!(rt; are_options(options.as_slice()));
    let Ok(described) = read_plan(alloc, &mut source, options.as_slice()) else {
        assert!(rt; false);
        return Ok(());
    };
    assert_eq!(rt; described.plan.place.meters(), 5);
    assert_eq!(rt; described.plan.seed, 9);
    assert!(rt; described.place.is_none());
    Ok(())
})
}
