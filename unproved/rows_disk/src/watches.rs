//! What watches over a client.

use oram_nbd::ClientWatch;

/// A client that stays for some looks, and has left then.
#[derive(Drop)]
pub struct Stays {
    pub looks: u64,
}

impl Stays {
    /// Returns a client that stays for as long as it is served.
    pub fn on() -> Stays {
        Stays { looks: u64::MAX }
    }
}

impl ClientWatch for Stays {
    fn agreed(&mut self) {}

    fn goes_on(&mut self) -> bool {
        let is_there = self.looks > 0;
        self.looks = self.looks.saturating_sub(1);
        is_there
    }
}
