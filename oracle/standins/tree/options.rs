//! Stand-in for the compiler's options: when diagnostics abort. Not reached.

#[derive(Debug, Clone, Copy, PartialEq, Eq)]
pub enum PanicThreshold {
    AllErrors,
    CriticalErrors,
    None,
}
