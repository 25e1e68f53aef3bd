//! How much memory a workspace is given.

/// How much memory a workspace needs (Record 2).
///
/// ```
/// let room = huskcanyon::Workspace::needs(huskcanyon::WORKED_SHEET)?;
/// assert_eq!((room.doubles, room.numbers), (14, 128));
/// # Ok::<(), huskcanyon::Refusal>(())
/// ```
#[derive(Clone, Copy, Debug, PartialEq, Eq)]
#[non_exhaustive]
pub struct Room {
    /// Doubles.
    pub doubles: usize,
    /// The u32 numbers of the heading.
    pub numbers: usize,
}

impl Room {
    pub(crate) const NONE: Room = Room { doubles: 0, numbers: 0 };
}

/// The heading without the rows of a sparse pair.
const HEADING: u64 = 128;
/// A pair of more cells is stored sparse, or refused.
const MOST_DENSE_CELLS: u64 = 100_000;
/// A block of more rows is a diagonal, or refused.
const MOST_PACKED_ROWS: u64 = 316;
/// The length of a `yy` line, the shortest line with a word.
const SHORTEST_LINE: u64 = 20;

/// A longer sheet is refused.
const LONGEST_SHEET: usize = 16_777_216;

/// A guess from the `size` and `block` lines: by Record 2's formula at least what the sheet needs, if load accepts it. It decides nothing: where it is too
/// small load answers 12, and where the lines are not in form, which load will say, it is no room at all. Nor can a `size` line ask for more than its sheet
/// is worth: an accepted sheet has a line for each of F numbers, so with fewer bytes than these take there is no room either, and the most that is ever
/// guessed is some 65 MB (28 dense pairs).
pub(crate) fn guess(sheet: &[u8]) -> Room {
    from_counts(sheet).unwrap_or(Room::NONE)
}

fn from_counts(sheet: &[u8]) -> Option<Room> {
    if sheet.len() > LONGEST_SHEET {
        return None;
    }
    let mut lines = sheet.split(|&byte| byte == b'\n');
    let [_, p, q, k, _] = numbers(lines.next()?, "size")?;
    if !(1..=32).contains(&p) || !(1..=8).contains(&k) {
        return None;
    }
    let mut levels = Vec::new();
    for _ in 0..k {
        let [m, _] = numbers(lines.next()?, "block")?;
        if !(1..=65_535).contains(&m) {
            return None;
        }
        levels.push(m);
    }
    if q != levels.iter().sum::<u64>() {
        return None;
    }
    let fixed = q * (p + 1) + (p + 1) * (p + 2) / 2;
    if fixed * SHORTEST_LINE > sheet.len() as u64 {
        return None;
    }
    levels.sort_unstable_by(|a, b| b.cmp(a));
    let packed = |m: u64| if m <= MOST_PACKED_ROWS { m * (m + 1) / 2 } else { m };
    let diagonals = levels[0] + levels[1..].iter().map(|&m| packed(m)).sum::<u64>();
    let (mut cross, mut rows) = (0, 0);
    for (j, m) in levels.iter().enumerate() {
        for larger in &levels[..j] {
            if m * larger <= MOST_DENSE_CELLS {
                cross += m * larger;
            } else {
                cross += larger;
                rows += larger;
            }
        }
    }
    let doubles = q + k + diagonals + 2 * cross + 2 * fixed + 1;
    Some(Room { doubles: usize::try_from(doubles).ok()?, numbers: usize::try_from(HEADING + rows).ok()? })
}

/// The N numbers of a line with this tag.
fn numbers<const N: usize>(line: &[u8], tag: &str) -> Option<[u64; N]> {
    let mut fields = std::str::from_utf8(line).ok()?.split('\t');
    if fields.next() != Some(tag) {
        return None;
    }
    let all = fields.map(|field| field.parse().ok()).collect::<Option<Vec<u64>>>()?;
    all.try_into().ok()
}

#[cfg(test)]
mod tests {
    use super::{guess, Room};
    use crate::WORKED_SHEET;

    #[test]
    fn the_worked_sheet_is_guessed_exactly() {
        // q + k + D + 2X + 2F + 1 with q = k = D = 1, X = 0, F = 5.
        assert_eq!(guess(WORKED_SHEET), Room { doubles: 14, numbers: 128 });
    }

    #[test]
    fn lines_out_of_form_get_no_room() {
        for sheet in ["", "size", "size\t3\t1\t1\t1\n", "size\t3\t1\t1\t1\t1\nblock\t1\n", "size\t3\t1\t1\t1\t1", "sizes\t3\t1\t1\t1\t1\nblock\t1\t1\n"] {
            assert_eq!(guess(sheet.as_bytes()), Room::NONE, "{sheet:?}");
        }
        assert_eq!(guess(b"\xff\tsize\n"), Room::NONE);
    }

    #[test]
    fn a_size_line_alone_gets_no_room() {
        assert_eq!(guess(b"size\t1000\t32\t524280\t8\t1\n"), Room::NONE);
        assert_eq!(guess(b"size\t1000\t18446744073709551615\t18446744073709551615\t1\t1\nblock\t18446744073709551615\t1\n"), Room::NONE);
        let mut eight = b"size\t1000\t32\t524280\t8\t1\n".to_vec();
        for _ in 0..8 {
            eight.extend(b"block\t65535\t1\n");
        }
        assert_eq!(guess(&eight), Room::NONE);
    }
}
