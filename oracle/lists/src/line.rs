//! A call list line by document 01's words, read apart from ours: split at spaces, keys in order, whole values.

/// The pages from the first to the last, both ends included.
pub type Range = (u32, u32);

pub enum Call {
    Open { vid: u8, local: u8, remote: u8 },
    Snap { vid: u8, slot: usize },
    Save { vid: u8, slot: usize, count: u32, sid: u8, pages: Vec<Range> },
    Find { slot: usize, page: u32 },
    Fetch { log: u8, lsn: u64, count: u32, sid: u8, pages: Vec<Range> },
    Pull { vid: u8 },
}

fn identifier(text: &str) -> Option<u8> {
    let form = text.len() == 2 && text.bytes().all(|b| b.is_ascii_digit() || (b'a'..=b'f').contains(&b));
    form.then(|| u8::from_str_radix(text, 16).expect("two hex digits"))
}

fn decimal(text: &str, limit: u64) -> Option<u64> {
    let form = !text.is_empty() && text.bytes().all(|b| b.is_ascii_digit()) && (text == "0" || !text.starts_with('0'));
    let number: u128 = if form && text.len() <= 20 { text.parse().ok()? } else { return None };
    u64::try_from(number).ok().filter(|&n| n <= limit)
}

fn page(text: &str) -> Option<u32> {
    decimal(text, u32::MAX.into()).map(|n| n as u32)
}

fn pages(text: &str) -> Option<Vec<Range>> {
    if text == "-" {
        return Some(vec![]);
    }
    let mut ranges: Vec<Range> = vec![];
    for part in text.split(',') {
        let (first, last) = part.split_once('-').unwrap_or((part, part));
        let (first, last) = (page(first)?, page(last)?);
        if first <= ranges.last().map_or(0, |r| r.1) || last < first {
            return None;
        }
        ranges.push((first, last));
    }
    Some(ranges)
}

/// How many windows of 64 pages hold pages of these ranges.
pub fn windows(ranges: &[Range]) -> u64 {
    let (mut count, mut next) = (0, 0);
    for &(first, last) in ranges {
        let (first, last) = (u64::from(first / 64).max(next), u64::from(last / 64));
        count += (last + 1).saturating_sub(first);
        next = last + 1;
    }
    count
}

/// The call of a line, or nothing for a line that is not in the form.
pub fn parse(line: &[u8]) -> Option<Call> {
    let text = std::str::from_utf8(line).ok().filter(|t| t.len() <= 256)?;
    let words: Vec<&str> = text.split(' ').collect();
    let keys: &[&str] = match words[0] {
        "op=open" => &["vid=", "local=", "remote="],
        "op=snap" => &["vid=", "slot="],
        "op=save" => &["vid=", "slot=", "count=", "sid=", "pages="],
        "op=find" => &["slot=", "page="],
        "op=fetch" => &["log=", "lsn=", "count=", "sid=", "pages="],
        "op=pull" => &["vid="],
        _ => return None,
    };
    if words.len() != keys.len() + 1 {
        return None;
    }
    let values = keys.iter().zip(&words[1..]).map(|(key, word)| word.strip_prefix(key)).collect::<Option<Vec<_>>>()?;
    let slot = |text| decimal(text, 3).map(|n| n as usize);
    Some(match words[0] {
        "op=open" => Call::Open { vid: identifier(values[0])?, local: identifier(values[1])?, remote: identifier(values[2])? },
        "op=snap" => Call::Snap { vid: identifier(values[0])?, slot: slot(values[1])? },
        "op=save" => Call::Save {
            vid: identifier(values[0])?,
            slot: slot(values[1])?,
            count: page(values[2])?,
            sid: identifier(values[3])?,
            pages: pages(values[4])?,
        },
        "op=find" => Call::Find { slot: slot(values[0])?, page: page(values[1])? },
        "op=fetch" => Call::Fetch {
            log: identifier(values[0])?,
            lsn: decimal(values[1], u64::MAX)?,
            count: page(values[2])?,
            sid: identifier(values[3])?,
            pages: pages(values[4])?,
        },
        _ => Call::Pull { vid: identifier(values[0])? },
    })
}
