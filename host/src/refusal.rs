//! What a refused call answers.
use crate::raw::Reply;

macro_rules! refusals {
    ($($number:literal $name:ident $words:literal;)*) => {
        /// A refusal: document 01's number with its words. A refused call changed no lent byte, but for recover's 8, which dropped the pending commit.
        #[derive(Clone, Copy, Debug, PartialEq, Eq, PartialOrd, Ord, Hash)]
        #[repr(u8)]
        pub enum Refusal {
            $(#[doc = $words] $name = $number,)*
        }

        impl Refusal {
            /// All refusals, in the order of their numbers.
            pub const ALL: &'static [Refusal] = &[$(Refusal::$name),*];

            /// Document 01's words.
            pub const fn words(self) -> &'static str {
                match self { $(Refusal::$name => $words,)* }
            }
        }
    };
}

refusals! {
    1 Zero "LSN 0, page 0 outside a set or frame, or tag name length outside 1 to 32";
    2 Reversed "range start above its end";
    3 Form "set, frames, checkpoint list or path over its limit or not in the stated form";
    4 NoVolume "no volume of that identifier";
    5 InUse "identifier in use";
    6 OtherRemote "other remote";
    7 NotLatest "snapshot not latest";
    8 Diverged "diverged";
    9 Pending "pending commit present";
    10 NonePending "none pending";
    11 NotAboveWatermark "pending local LSN not above the watermark";
    12 NotNext "remote's latest is not the LSN before the pending one";
    13 ZeroHash "pending hash ZERO";
    14 NotThePending "commit's LSN or hash is not the pending one's";
    15 OtherHash "stored commit there has another or no hash";
    16 BaseWithoutHead "base without head";
    17 RemoteOlder "remote older than the sync point";
    18 NoLsnLeft "no LSN left";
    19 NoRoom "records held plus the call's new keys exceed capacity, or a lent result list is too short";
    20 TableForm "a table's count, key order or the form of a field breaks document 01";
    21 NoCommit "index entry without commit";
    22 TooWide "built range or joined set needs over 32 windows";
    23 PastSegment "frame reaches past the lent segment";
    24 Line "call list line malformed";
}

impl Refusal {
    /// The refusal of a number, 1 to 24.
    pub fn from_number(number: u32) -> Option<Refusal> {
        Self::ALL.iter().copied().find(|r| r.number() == number)
    }

    /// Document 01's number.
    pub const fn number(self) -> u32 {
        self as u32
    }
}

impl core::fmt::Display for Refusal {
    fn fmt(&self, f: &mut core::fmt::Formatter<'_>) -> core::fmt::Result {
        write!(f, "{}: {}", self.number(), self.words())
    }
}

impl core::error::Error for Refusal {}

impl Reply {
    /// Whether something was found, or the refusal.
    pub fn answer(self) -> Result<bool, Refusal> {
        if self.code == 0 {
            return Ok(self.found != 0);
        }
        Err(Refusal::from_number(self.code).expect("the archive answers numbers of document 01"))
    }

    /// Whether something was found, of a call whose arguments are in form by their types.
    pub(crate) fn unrefused(self) -> bool {
        self.answer().expect("arguments in form earn no refusal here")
    }
}
