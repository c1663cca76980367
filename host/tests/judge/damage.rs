//! Damages to forms: every field that docs/TABLES.md names, counts, flags, order, reserved bytes, lengths, and any byte.
//! A damage may leave a form whole; the judge says.
use super::Kind;
use super::make::Random;

/// A place in a form and its bytes.
type Field = (usize, usize);

/// A list in a form: where its count is, where its places start, the bytes and the numbers of a place.
struct Places {
    count: usize,
    first: usize,
    stride: usize,
    numbers: &'static [Field],
}

/// The windows of a set that starts at a place.
fn windows(at: usize) -> Places {
    Places { count: at, first: at + 1, stride: 12, numbers: &[(0, 4), (4, 8)] }
}

/// The frames of a segment, from their count.
fn frames(at: usize) -> Places {
    Places { count: at, first: at + 1, stride: 12, numbers: &[(0, 8), (8, 4)] }
}

/// A form: its flags, counts and reserved bytes; its numbers; its lists.
struct Form(&'static [usize], &'static [Field], Vec<Places>);

/// The form of a value or record by its size.
fn form(size: usize) -> Form {
    match size {
        385 => Form(&[0], &[(1, 4)], vec![windows(0)]),
        594 => Form(&[16, 401], &[(0, 16)], vec![windows(16), frames(401)]),
        417 => Form(&[32], &[(16, 8), (24, 8)], vec![windows(32)]),
        262 => Form(&[0, 5], &[(1, 4)], vec![Places { count: 5, first: 6, stride: 32, numbers: &[(16, 8), (24, 8)] }]),
        117 => Form(&[0, 17, 50, 59, 68], &[(51, 8), (60, 8), (69, 8), (77, 8), (85, 32)], vec![]),
        50 => Form(&[0, 1, 32, 33], &[(1, 32), (34, 16)], vec![]),
        722 => Form(
            &[0, 29, 62, 657],
            &[(17, 8), (25, 4), (30, 32)],
            vec![windows(79), frames(464), Places { count: 657, first: 658, stride: 8, numbers: &[(0, 8)] }],
        ),
        25 => Form(&[0], &[(17, 8)], vec![]),
        29 => Form(&[0], &[(17, 4), (21, 8)], vec![]),
        21 => Form(&[0], &[(17, 4)], vec![]),
        other => unreachable!("no form of {other} bytes"),
    }
}

/// What a byte becomes: another flag or count, its neighbour, an end, or any.
fn bend(byte: u8, r: &mut Random) -> u8 {
    match r.below(6) {
        0 => 0,
        1 => 1,
        2 => 255,
        3 => byte.wrapping_add(1),
        4 => byte.wrapping_sub(1),
        _ => byte ^ 1 << r.below(8),
    }
}

/// What a number becomes: an end, one more or less, or at the edge of the windows there are.
fn bend_number(b: &mut [u8], r: &mut Random) {
    let last = b.len() - 1;
    match r.below(6) {
        0 => b.fill(0),
        1 => b.fill(255),
        2 => b[last] = b[last].wrapping_add(1),
        3 => b[last] = b[last].wrapping_sub(1),
        4 if b.len() == 4 => b.copy_from_slice(&(67_108_862 + r.below(3) as u32).to_be_bytes()),
        _ => b[r.below(last + 1)] ^= 1 << r.below(8),
    }
}

/// Bends a number of a counted place, of the one behind them, or makes it that of the place before.
fn bend_place(b: &mut [u8], list: &Places, r: &mut Random) {
    let held = usize::from(b[list.count]);
    let place = if r.below(3) == 0 { held } else { r.below(held.max(1)) };
    let (offset, size) = list.numbers[r.below(list.numbers.len())];
    let at = list.first + place * list.stride + offset;
    if at + size > b.len() {
        return;
    }
    if place > 0 && r.below(4) == 0 {
        b.copy_within(at - list.stride..at - list.stride + size, at);
    } else {
        bend_number(&mut b[at..at + size], r);
    }
}

/// Damages a value or a record of its size.
pub fn value(b: &mut Vec<u8>, r: &mut Random) {
    let Form(bytes, numbers, lists) = form(b.len());
    match r.below(6) {
        0 => {
            let at = bytes[r.below(bytes.len())];
            b[at] = bend(b[at], r);
        }
        1 => {
            let (at, size) = numbers[r.below(numbers.len())];
            bend_number(&mut b[at..at + size], r);
        }
        2 | 3 if !lists.is_empty() => bend_place(b, &lists[r.below(lists.len())], r),
        4 => length(b, r),
        _ => {
            let at = r.below(b.len());
            b[at] = bend(b[at], r);
        }
    }
}

/// Cuts bytes off, or puts one on.
fn length(b: &mut Vec<u8>, r: &mut Random) {
    match r.below(3) {
        0 => b.truncate(r.below(b.len() + 1)),
        1 => {
            b.pop();
        }
        _ => b.push(0),
    }
}

/// Damages a table: its count, its order, a record, its length.
pub fn table(kind: &Kind, b: &mut Vec<u8>, r: &mut Random) {
    let count = (usize::from(b[0]) * 256 + usize::from(b[1])).min((b.len() - 2) / kind.record);
    let place = |i: usize| 2 + i * kind.record;
    match r.below(6) {
        0 => {
            let at = r.below(2);
            b[at] = bend(b[at], r);
        }
        1 => length(b, r),
        2 if count > 1 => {
            let i = r.below(count - 1);
            let (front, back) = b.split_at_mut(place(i + 1));
            front[place(i)..].swap_with_slice(&mut back[..kind.record]);
        }
        3 if count > 1 => {
            let i = r.below(count - 1);
            let same = if r.below(2) == 0 { kind.key } else { kind.record };
            b.copy_within(place(i)..place(i) + same, place(i + 1));
        }
        _ if count > 0 => {
            let i = r.below(count);
            let mut record = b[place(i)..place(i + 1)].to_vec();
            value(&mut record, r);
            record.resize(kind.record, 0);
            b[place(i)..place(i + 1)].copy_from_slice(&record);
        }
        _ => b[1] = bend(b[1], r),
    }
}
