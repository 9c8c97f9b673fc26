//! Rows of a core over a host in memory.
//!
//! `core new SEALER` formats the device again, with the sealer `plain` or `chacha KEY`. What was seen of the core
//! before it is kept, for `core alike`.

mod changed;
mod hostile;
mod interference;
mod machine;
mod seen;

use crate::cores::machine::Machine;
use crate::cores::seen::{Seen, show_alike};
use oram_bucket::{ChaChaSeal, PlainSeal, Sealer};
use oram_geometry::Device;
use rows::{Page, RowFault, RowWords};
use std::alloc::Global;

/// The core of the rows, with one sealer or the other, and what was seen of the core before it.
#[derive(Drop)]
pub struct Cores {
    plain: Option<Machine<PlainSeal>>,
    chacha: Option<Machine<ChaChaSeal>>,
    former: Option<Seen>,
}

/// Returns what was seen of a core.
fn seen_of<S: Sealer>(machine: Option<Machine<S>>) -> Option<Seen> {
    Some(machine?.into_seen())
}

impl Cores {
    pub fn new() -> Cores {
        Cores {
            plain: None,
            chacha: None,
            former: None,
        }
    }

    /// Formats the device again. Writes how many messages that took.
    fn begin(
        &mut self,
        alloc: Global,
        device: &Device,
        words: &mut RowWords,
        page: &mut Page,
    ) -> Result<(), RowFault> {
        let chacha = seen_of(self.chacha.take());
        self.former = seen_of(self.plain.take()).or(chacha);
        let messages = match words.text() {
            "plain" => {
                let machine = Machine::new(alloc, device, PlainSeal)?;
                let messages = machine.messages();
                self.plain = Some(machine);
                messages
            }
            "chacha" => {
                let key = words.array(alloc);
                let machine = Machine::new(alloc, device, ChaChaSeal { key })?;
                let messages = machine.messages();
                self.chacha = Some(machine);
                messages
            }
            _ => return Err(RowFault::NoRow),
        };
        page.number(messages);
        page.word("messages");
        Ok(())
    }

    /// `core alike`: writes whether the host sees the same of this core as of the former one.
    fn alike(&self, page: &mut Page) -> Result<(), RowFault> {
        let seen = match (&self.plain, &self.chacha) {
            (Some(machine), _) => machine.seen(),
            (None, Some(machine)) => machine.seen(),
            (None, None) => return Err(RowFault::NoRow),
        };
        match &self.former {
            Some(former) => {
                show_alike(seen, former, page);
                Ok(())
            }
            None => Err(RowFault::NoRow),
        }
    }

    /// Makes a call.
    pub fn answer(
        &mut self,
        alloc: Global,
        device: &Device,
        words: &mut RowWords,
        page: &mut Page,
    ) -> Result<(), RowFault> {
        let call = words.text();
        match call {
            "new" => return self.begin(alloc, device, words, page),
            "alike" => return self.alike(page),
            _ => {}
        }
        if let Some(machine) = &mut self.plain {
            return machine.call(alloc, call, words, page);
        }
        match &mut self.chacha {
            Some(machine) => machine.call(alloc, call, words, page),
            None => Err(RowFault::NoRow),
        }
    }
}
