//! Stand-in for the crate's error types, as far as the storage names them: numbers 4, 7, 8 and 6 of document 01.
use crate::core::{LogId, VolumeId};

#[derive(Debug, thiserror::Error)]
pub enum LogicalErr {
    #[error("volume not found: {0}")]
    VolumeNotFound(VolumeId),
    #[error("concurrent write to volume: {0}")]
    VolumeConcurrentWrite(VolumeId),
    #[error("volume diverged: {0}")]
    VolumeDiverged(VolumeId),
    #[error("volume {vid}: expected remote {expected}, actual {actual}")]
    VolumeRemoteMismatch { vid: VolumeId, expected: LogId, actual: LogId },
}
