//! A piece that is longer than a frame may carry.

use std::dialect::*;

use block_pool::Pool;
use fragment_buffers::{BufferFull, Reassembly, Taken};
use mesh_header::Piece;
use plc_base::{DatagramBuf, Short};
use std::alloc::Global;
use std::test::Fail;

/// A node's reassemblies, and the pool that their octets stand in.
struct Node {
    held: Reassembly,
    pool: Pool,
    out: DatagramBuf,
}

impl Node {
    fn new(alloc: Global) -> Result<Node, Fail> {
        Ok(Node {
            held: Reassembly::empty(alloc)?,
            pool: Pool::new(alloc, 80)?,
            out: DatagramBuf::new(),
        })
    }

    // A piece of a datagram of this size and tag, whose octets are all the note.
    fn take(
        &mut self,
        size: u16,
        tag: u16,
        offset: u8,
        count: usize,
        note: u8,
    ) -> Result<Taken, BufferFull> {
        let octets = [note; 400];
        match Piece::new(size, tag, offset, &octets[..count.min(400)]) {
            Some(piece) => self.take_piece(&piece, u32::from(note), 100),
            None => Err(BufferFull),
        }
    }

    fn take_piece(&mut self, piece: &Piece<'_>, note: u32, now: u64) -> Result<Taken, BufferFull> {
        let origin = Short::default();
        self.held
            .take(&mut self.pool, origin, piece, note, now, &mut self.out)
    }
}

const HELD: Result<Taken, BufferFull> = Ok(Taken::Held);

// The second piece overlaps the first, so only it is kept; the third fills what is missing.
#[test]
fn a_long_piece_overlaps() {
    std::test::check(|rt: HostRuntime| -> Result<(), Fail> {
    let mut node = Node::new(rt.alloc())?;
    assert_eq!(rt; node.take(736, 5, 0, 368, 1), HELD);
    assert_eq!(rt; node.take(736, 5, 45, 376, 2), HELD);
    assert_eq!(rt; node.take(736, 5, 0, 360, 3), Ok(Taken::Whole { note: 2 }));
    assert_eq!(rt; node.out.len(), 736);
    assert_eq!(rt; node.out.octets().get(359), Some(&3));
    assert_eq!(rt; node.out.octets().get(360), Some(&2));
    Ok(())
})
}
