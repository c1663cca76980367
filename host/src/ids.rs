//! Identifiers and hashes.

macro_rules! bytes_type {
    ($(#[$doc:meta])* $name:ident, $size:literal) => {
        $(#[$doc])*
        #[derive(Clone, Copy, Default, PartialEq, Eq, PartialOrd, Ord, Hash)]
        pub struct $name(pub [u8; $size]);

        impl core::fmt::Debug for $name {
            fn fmt(&self, f: &mut core::fmt::Formatter<'_>) -> core::fmt::Result {
                write!(f, concat!(stringify!($name), "("))?;
                self.0.iter().try_for_each(|b| write!(f, "{b:02x}"))?;
                write!(f, ")")
            }
        }
    };
}

bytes_type!(
    /// The identifier of a volume, compared byte by byte.
    VolumeId,
    16
);
bytes_type!(
    /// The identifier of a log, compared byte by byte.
    LogId,
    16
);
bytes_type!(
    /// The identifier of a segment, compared byte by byte.
    SegmentId,
    16
);
bytes_type!(
    /// The hash of a commit: 32 bytes, any of them.
    CommitHash,
    32
);

impl CommitHash {
    /// All zeros.
    pub const ZERO: CommitHash = CommitHash([0; 32]);
}
