//! Long random histories on small domains: the same call on the archive and on the original, and after each call the answer, all that was lent and
//! all six tables compared. A history starts from empty tables or from records that no call would leave (index entries without commit, sync points
//! ahead of their log), with room to spare or hardly any.
use crate::asked;
use crate::calls::{self, Answer, Args, BEFORE, ITEMS_BEFORE, Op};
use crate::draw::{Draw, Rich};
use crate::earned;
use crate::tables::Both;
use crate::tally::Tally;
use graft::local::fjall_storage::FjallStorage;
use sigatuda::Reply;

/// The calls of a history.
const LENGTH: u64 = 80;

/// `n` calls.
pub fn compare(n: u64, seed: u64, rich: Rich, tally: &mut Tally) {
    let mut draw = Draw::new(seed, rich);
    for _ in 0..n.div_ceil(LENGTH) {
        let original = FjallStorage::open_temporary().expect("storage in memory");
        draw.start(&original);
        let mut both = Both::of(original, draw.room());
        let mut alike = true;
        for _ in 0..LENGTH {
            let (op, args) = draw.call(&both);
            alike &= compare_call(op, &args, &mut both, tally);
            if !alike {
                break; // what follows would differ for the same reason
            }
        }
    }
}

/// A refusal of some number: nothing found, nothing written.
fn refused(code: u32, a: &Args) -> Answer {
    Answer { reply: Reply { code, found: 0 }, out: vec![BEFORE; a.room], items: ITEMS_BEFORE }
}

/// Makes a call on both sides and counts it; whether they are alike.
fn compare_call(op: Op, a: &Args, both: &mut Both, tally: &mut Tally) -> bool {
    let before = both.ours.clone();
    let got = calls::run(op, a, &mut both.ours);
    let number = earned::by_arguments(op, a);
    let asked = number == 0;
    let by_identifier = if asked { earned::by_identifiers(op, a, &before, &both.original) } else { None };
    let want = match by_identifier {
        _ if !asked => refused(number, a),
        Some(number) => refused(number, a),
        None if !op.lists() && got.reply.code == 19 && earned::lacks_room(op, a, &before) => refused(19, a),
        None => asked::ask(op, a, &both.original),
    };
    let table = both.difference(&before);
    let difference = if got != want {
        Some(format!("original {:?}, here {:?}", want, got))
    } else {
        table.map(|table| format!("{table} differ after {:?}", got.reply))
    };
    let words = difference.map(|words| format!("{words}; {a:?}"));
    let alike = words.is_none();
    tally.count(op.name(), want.reply.code, words);
    alike
}
