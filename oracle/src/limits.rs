//! The limits of tables and settings, each here alone.

/// Rows of a thread at most.
pub const MAX_ROWS: usize = 64;
/// Branch limit B at most.
pub const MAX_BRANCHES: u64 = 4_096;
/// Operation limit L at most.
pub const MAX_OPERATIONS: u64 = 4_096;
/// Execution budget N at most.
pub const MAX_EXECUTIONS: u64 = 65_535;
