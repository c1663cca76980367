//! Draws that meet what tables hold, for the numbers that come only where one record speaks of another: a pending commit that is stored, an index entry
//! that a snapshot reaches, the LSN after the latest of a remote log.
use crate::judge::TABLES;
use crate::judge::make::Random;
use crate::rows::{Args, COMMITS, INDEX, Six, VOLUMES};
use sigatuda::plain;

/// The records that a table in form holds; none of a table that is not lent.
fn held(kind: usize, table: &[u8]) -> usize {
    table.get(..2).map_or(0, |n| usize::from(n[0]) * 256 + usize::from(n[1])).min(table.len() / TABLES[kind].record)
}

/// One of a table's records.
fn any<'a>(kind: usize, table: &'a [u8], r: &mut Random) -> Option<&'a [u8]> {
    let (size, held) = (TABLES[kind].record, held(kind, table));
    (held > 0).then(|| &table[2 + size * r.below(held)..][..size])
}

/// The LSN that a key ends in.
fn lsn(key: &[u8]) -> u64 {
    !u64::from_be_bytes(key[key.len() - 8..].try_into().unwrap())
}

/// Turns volumes to the commits: one in four has nothing pending, and one in two a commit pending that is stored, under its hash or another.
pub fn turn_volumes(six: &mut Six, r: &mut Random) {
    let held = held(VOLUMES, &six[VOLUMES]);
    let [volumes, _, commits, ..] = six;
    for volume in volumes.get_mut(2..).unwrap_or_default().chunks_exact_mut(117).take(held) {
        let mut put = |at: usize, bytes: &[u8]| volume[at..at + bytes.len()].copy_from_slice(bytes);
        match (r.below(4), any(COMMITS, commits, r)) {
            (0, _) => put(68, &[0; 49]),
            (1 | 2, Some(commit)) => {
                put(34, &commit[1..17]);
                put(68, &[1]);
                put(69, &r.lsn().to_be_bytes());
                put(77, &lsn(&commit[..25]).to_be_bytes());
                put(85, if r.below(2) == 0 { &commit[30..62] } else { &[7; 32] });
            }
            _ => {}
        }
    }
}

/// Turns arguments, each every other time: to a commit's place, to an index entry and a snapshot that reaches it, to identifiers that nothing has, and to the
/// volume's latest snapshot and the LSN after its remote log's latest.
pub fn turn_arguments(args: &mut Args, six: &Six, r: &mut Random) {
    if let (0, Some(commit)) = (r.below(2), any(COMMITS, &six[COMMITS], r)) {
        args.log.copy_from_slice(&commit[1..17]);
        args.lsn = lsn(&commit[..25]);
    }
    if let (0, Some(entry)) = (r.below(2), any(INDEX, &six[INDEX], r)) {
        args.page = u32::from_be_bytes(entry[17..21].try_into().unwrap());
        let range = [&entry[1..17], &1u64.to_be_bytes(), &lsn(entry).to_be_bytes()].concat();
        args.snapshot = [&[0, 0, 0, 0, 1, 1], &range[..], &[0; 224]].concat();
    }
    if r.below(2) == 0 {
        args.sid[0] = 1;
        args.spares.iter_mut().zip(1..).for_each(|(spare, n)| spare[0] = n);
    }
    let mut volumes = six[VOLUMES].get(2..).unwrap_or_default().chunks_exact(117).take(held(VOLUMES, &six[VOLUMES]));
    if let (0, Some(volume)) = (r.below(2), volumes.find(|v| v[1..17] == args.vid)) {
        let (mut latest, mut snapshot) = (0, vec![0; 262]);
        plain::latest_lsn(&six[COMMITS], volume[34..50].try_into().unwrap(), &mut latest);
        plain::snapshot(&six[VOLUMES], &six[COMMITS], &args.vid, &mut snapshot);
        (args.end, args.snapshot) = (latest.wrapping_add(1), snapshot);
    }
}
