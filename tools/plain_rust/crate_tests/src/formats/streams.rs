//! The adapters over std, at a reader and a writer that fail in mid-stream; and memory, which fails where it was set to, and nowhere
//! else.

use std::dialect::*;

use plc_base::{Failed, MemSink, MemSource, Sink, Source, StdSink, StdSource, write_all};
use std::alloc::{AllocError, Global};
use std::io::{self, Read, Write};
use std::test::Fail;

// A reader that gives three octets, fails, gives one more and ends.
struct Stumbling {
    calls: u32,
}

impl Read for Stumbling {
    fn read(&mut self, buf: &mut [u8]) -> io::Result<usize> {
        self.calls = self.calls.saturating_add(1);
        match self.calls {
            1 => {
                let count = buf.len().min(3);
                buf[..count].copy_from_slice(&[1, 2, 3][..count]);
                Ok(count)
            }
            2 => Err(io::Error::from(io::ErrorKind::Other)),
            3 => {
                let count = buf.len().min(1);
                buf[..count].copy_from_slice(&[4][..count]);
                Ok(count)
            }
            _ => Ok(0),
        }
    }
}

// A writer that takes two octets a call, fails at the second call, and takes nothing at the fourth.
struct Faltering {
    calls: u32,
}

impl Write for Faltering {
    fn write(&mut self, buf: &[u8]) -> io::Result<usize> {
        self.calls = self.calls.saturating_add(1);
        match self.calls {
            2 => Err(io::Error::from(io::ErrorKind::Other)),
            4 => Ok(0),
            _ => Ok(buf.len().min(2)),
        }
    }

    fn flush(&mut self) -> io::Result<()> {
        Ok(())
    }
}

#[test]
fn a_reader_that_stumbles() {
    std::test::check(|rt: HostRuntime| -> Result<(), Fail> {
    let mut source = StdSource::new(Stumbling { calls: 0 });
    let mut buf = [0; 8];
    assert_eq!(rt; source.read(&mut buf), Ok(3));
    assert_eq!(rt; buf, [1, 2, 3, 0, 0, 0, 0, 0]);
    assert_eq!(rt; source.read(&mut buf), Err(Failed));
    assert_eq!(rt; source.read(&mut buf), Ok(1));
    assert_eq!(rt; buf[0], 4);
    assert_eq!(rt; source.read(&mut buf), Ok(0));
    Ok(())
})
}

#[test]
fn a_writer_that_falters() {
    std::test::check(|rt: HostRuntime| -> Result<(), Fail> {
    let mut sink = StdSink::new(Faltering { calls: 0 });
    let piece = [1, 2, 3];
    assert_eq!(rt; sink.write(&piece), Ok(2));
    assert_eq!(rt; sink.write(&piece), Err(Failed));
    assert_eq!(rt; sink.write(&piece[..1]), Ok(1));
    assert_eq!(rt; sink.write(&piece), Err(Failed));
    Ok(())
})
}

// That no read fails where none is listed is proved here, for each two reads.
fn are_read(octets: Vec<u8>, step: usize, fails: Vec<u32>, buf: &mut [u8]) -> bool
    // requires step { 0 < step }
    // requires room { 0 < length buf.old }
    // requires none { fails.items ≡ [] }
    // ensures { result ≡ true }
{
    let mut source = MemSource::new(octets, step, fails);
    source.read(buf).is_ok() && source.read(buf).is_ok()
}

// That no write fails where none is listed and there is room is proved here, for each two pieces.
fn are_written(
    alloc: Global,
    room: usize,
    fails: Vec<u32>,
    first: &[u8],
    second: &[u8],
) -> Result<bool, AllocError>
    // requires some { (0 < length first.now) × (0 < length second.now) }
    // requires room { length first.now + length second.now ≤ room }
    // requires none { fails.items ≡ [] }
    // ensures { IfOk result (λ both. both ≡ true) }
{
    let mut sink = MemSink::new(alloc, room, fails)?;
    Ok(sink.write(first).is_ok() && sink.write(second).is_ok())
}

#[test]
fn memory_that_never_fails() {
    std::test::check(|rt: HostRuntime| -> Result<(), Fail> {
    let alloc = rt.alloc();
    let octets = [1, 2, 3].to_vec_in(alloc)?;
    assert!(rt; are_read(octets, 2, Vec::new(alloc), &mut [0; 4]));
    assert!(rt; are_written(alloc, 3, Vec::new(alloc), &[1], &[2, 3])?);
    Ok(())
})
}

#[test]
fn a_source_in_memory_fails_at_its_second_read() {
    std::test::check(|rt: HostRuntime| -> Result<(), Fail> {
    let alloc = rt.alloc();
    let mut source = MemSource::new([1, 2, 3].to_vec_in(alloc)?, 2, [2].to_vec_in(alloc)?);
    let mut buf = [0; 4];
    assert_eq!(rt; source.read(&mut buf), Ok(2));
    assert_eq!(rt; buf, [1, 2, 0, 0]);
    assert_eq!(rt; source.read(&mut buf), Err(Failed));
    assert_eq!(rt; source.read(&mut buf), Ok(1));
    assert_eq!(rt; buf[0], 3);
    assert_eq!(rt; source.read(&mut buf), Ok(0));
    Ok(())
})
}

#[test]
fn a_sink_in_memory_fails_at_its_second_write_and_past_its_room() {
    std::test::check(|rt: HostRuntime| -> Result<(), Fail> {
    let alloc = rt.alloc();
    let mut sink = MemSink::new(alloc, 5, [2].to_vec_in(alloc)?)?;
    assert_eq!(rt; sink.write(&[1, 2]), Ok(2));
    assert_eq!(rt; sink.write(&[3]), Err(Failed));
    assert_eq!(rt; sink.write(&[3, 4, 5, 6]), Err(Failed));
    assert_eq!(rt; write_all(&mut sink, &[3, 4, 5]), Ok(()));
    assert_eq!(rt; sink.written(), [1, 2, 3, 4, 5].as_slice());
    Ok(())
})
}
