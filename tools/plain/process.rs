//! The process and its exit status.

/// The process that runs.
pub struct Process;

/// The number that the system gave it.
pub fn id(_: &Process) -> u32 {
    std::process::id()
}

/// An exit status.
#[derive(Clone, Copy)]
pub struct ExitCode(pub u8);

impl From<u8> for ExitCode {
    fn from(status: u8) -> ExitCode {
        ExitCode(status)
    }
}
