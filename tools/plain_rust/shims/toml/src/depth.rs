//! How deep a text goes. `toml` 0.5 follows each level by a call of its own, without a limit, so a text could take all of the stack; Rattle's crate has one.

/// Arrays and inline tables stand in one another at most so deep, and a key has at most so many parts.
const MOST: usize = 80;

/// The keys on the way to a value have at most so many parts in all. Rattle's crate takes 80 of 80 parts, which is more than the stack holds here.
const MOST_IN_ALL: usize = 200;

/// The place at which octets go deeper than that: of the bracket that opens an array or an inline table, or of the key.
pub(crate) fn too_deep(octets: &[u8]) -> Option<usize> {
    let (mut at, mut levels, mut parts, mut key) = (0, 0_usize, 1, None);
    // The parts of the key of each value that is open, and those in all.
    let (mut open, mut in_all, mut named) = ([0; MOST], 0, 0);
    while at < octets.len() {
        let octet = octets[at];
        if octet == b'=' {
            named = parts;
        }
        if matches!(octet, b'[' | b']' | b'{' | b'}' | b'=' | b',' | b'\n') {
            (parts, key) = (1, None);
        } else if !matches!(octet, b' ' | b'\t' | b'\r') {
            key = key.or(Some(at));
        }
        match octet {
            b'[' | b'{' if levels == MOST => return Some(at),
            b'[' | b'{' => {
                open[levels] = named;
                (in_all, named, levels) = (in_all + named, 0, levels + 1);
            }
            b']' | b'}' if levels > 0 => {
                levels -= 1;
                in_all -= open[levels];
            }
            b'.' if parts == MOST || in_all + parts >= MOST_IN_ALL => return key,
            b'.' => parts += 1,
            _ => {}
        }
        at = match octet {
            b'#' => end_of_comment(octets, at),
            b'"' | b'\'' => end_of_text(octets, at),
            _ => at + 1,
        };
    }
    None
}

/// The place of the line feed after a comment, or the end.
fn end_of_comment(octets: &[u8], at: usize) -> usize {
    octets[at..].iter().position(|it| *it == b'\n').map_or(octets.len(), |length| at + length)
}

/// The place after a text in quotes that begins here. One that has no end ends with its line, or with the octets where it may have lines.
fn end_of_text(octets: &[u8], at: usize) -> usize {
    let quote = octets[at];
    let marks: &[u8] = &[quote; 3];
    let (mark, mut next) = if octets[at..].starts_with(marks) { (marks, at + 3) } else { (&marks[..1], at + 1) };
    while next < octets.len() {
        if octets[next..].starts_with(mark) {
            return next + mark.len();
        }
        if octets[next] == b'\n' && mark.len() == 1 {
            return next;
        }
        next += if octets[next] == b'\\' && quote == b'"' { 2 } else { 1 };
    }
    octets.len()
}
