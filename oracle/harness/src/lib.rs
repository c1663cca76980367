//! Calls in the byte forms of docs/TABLES.md, made here and answered by the original.
pub mod forms;
pub mod generate;
#[path = "../../../host/tests/sample/ops.rs"]
pub mod ops;
pub mod original;
pub mod random;
