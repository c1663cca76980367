//! Random call lists on small domains: few volumes, logs, segments and pages, numbers at their ends. A damaged list has lines with a byte gone, more or other, words twice or in
//! another order, too many bytes, and no newline at its end.
use harness::random::Random;

fn pages(r: &mut Random, edges: bool) -> String {
    let mut parts = vec![];
    let mut at = 1 + r.below(4);
    for _ in 0..r.below(4) {
        let end = at + r.pick(&[0, 0, 1, 3, if edges { 130 } else { 2 }]);
        parts.push(if end == at { at.to_string() } else { format!("{at}-{end}") });
        at = end + 1 + r.below(if edges { 300 } else { 4 });
    }
    if edges && r.one_in(5) {
        parts.push(r.pick(&["4294967295", "4294967231-4294967295", "100000-4294967295"]).into());
    }
    if parts.is_empty() { "-".into() } else { parts.join(",") }
}

fn line(r: &mut Random, edges: bool) -> String {
    let vid = r.pick(&["01", "01", "02", "02", "03", "04", "05", "ff"]);
    let log = |r: &mut Random| r.pick(&["0a", "0a", "0b", "0b", "0c", "0d"]);
    let slot = r.below(4);
    let count = if edges && r.one_in(4) { r.pick(&[0, 4294967295, 64]) } else { r.below(8) };
    let lsn = if edges && r.one_in(4) { r.pick(&[0, u64::MAX, u64::MAX - 1]) } else { 1 + r.below(5) };
    let page = if edges && r.one_in(3) { r.pick(&[0, 64, 4294967295]) } else { 1 + r.below(9) };
    let sid = 0x40 + r.below(64);
    match r.below(16) {
        0 | 1 => format!("op=open vid={vid} local={} remote={}", log(r), log(r)),
        2..=5 => format!("op=snap vid={vid} slot={slot}"),
        6..=9 => format!("op=save vid={vid} slot={slot} count={count} sid={sid:02x} pages={}", pages(r, edges)),
        10 | 11 => format!("op=find slot={slot} page={page}"),
        12 | 13 => format!("op=fetch log={} lsn={lsn} count={count} sid={sid:02x} pages={}", log(r), pages(r, edges)),
        _ => format!("op=pull vid={vid}"),
    }
}

fn damaged(r: &mut Random, line: String) -> Vec<u8> {
    let mut bytes = line.into_bytes();
    let at = r.below(bytes.len() as u64) as usize;
    match r.below(9) {
        0 => drop(bytes.remove(at)),
        1 => bytes.insert(at, r.pick(b" =-,0A9\r\t")),
        2 => bytes[at] = r.pick(b" =-,0A9zf\xff\0"),
        3 => bytes.truncate(at),
        4 => bytes.extend(b" slot=1"),
        5 => bytes.extend(std::iter::repeat_n(b'0', r.pick(&[1, 30, 256, 300, 5000]))),
        6 => bytes = bytes.split(|&b| b == b' ').rev().collect::<Vec<_>>().join(&b' '),
        7 => bytes.make_ascii_uppercase(),
        _ => {
            let whole = bytes.len();
            bytes.extend(std::iter::repeat_n(b' ', (r.pick(&[255, 256, 257]) as usize).saturating_sub(whole)))
        }
    }
    bytes
}

/// A list of so many lines.
pub fn list(r: &mut Random, lines: u64, bad: bool) -> Vec<u8> {
    let edges = r.one_in(3);
    let mut list = vec![];
    for _ in 0..lines {
        let line = line(r, edges);
        list.extend(if bad && r.one_in(5) { damaged(r, line) } else { line.into_bytes() });
        list.push(b'\n');
    }
    if bad && r.one_in(2) {
        list.pop();
    }
    list
}
