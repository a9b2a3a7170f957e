//! The clock.
use super::runtime::HostRuntime;
use std::io;
pub use std::time::Duration;

#[derive(Clone, Copy)]
pub struct Instant(std::time::Instant);

impl Instant {
    pub fn now(_: &HostRuntime) -> io::Result<Instant> {
        Ok(Instant(std::time::Instant::now()))
    }

    pub fn elapsed(&self, _: &HostRuntime) -> io::Result<Duration> {
        Ok(self.0.elapsed())
    }
}
