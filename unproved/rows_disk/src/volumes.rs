//! Volumes in memory, whose keeper or link may fail.

use crate::arrivals::Unseen;
use crate::endings::{with_memory, write_ended};
use crate::watches::Stays;
use oram_bucket::PlainSeal;
use oram_core::Core;
use oram_geometry::Device;
use oram_host::Server;
use oram_nbd::transmit;
use oram_rounds::{KeepError, Keeper, KeptParts, OneByOne, RoundLink, record_len};
use oram_session::{ChaChaTape, Direct, FaultLink};
use oram_volume::Volume;
use rows::{Pace, Page, RowFault, RowWords, Source, Target, joined};
use std::alloc::Global;

/// A keeper in memory that keeps `room` more files, and fails after these.
#[derive(Drop)]
struct MemoryKeeper {
    alloc: Global,
    newest: Vec<u8>,
    /// The table that was kept last.
    table: Vec<u32>,
    room: u64,
    lacks_memory: bool,
}

impl MemoryKeeper {
    fn new(alloc: Global, room: u64) -> MemoryKeeper {
        MemoryKeeper {
            alloc,
            newest: Vec::new(alloc),
            table: Vec::new(alloc),
            room,
            lacks_memory: false,
        }
    }

    /// Fails if memory ran out, since the row has no answer then.
    fn check_memory(&self) -> Result<(), RowFault> {
        if self.lacks_memory {
            return Err(RowFault::OutOfMemory);
        }
        Ok(())
    }
}

impl Keeper for MemoryKeeper {
    ghost use Rattle.std.specs.Prelude.{◌≡◌, []};

    ghost reads_back = { λ k bytes. bytes ≡ k.newest.items };

    ghost kept_table = { λ k. k.table.items };

    ghost kept_records = { λ k. [] };

    fn keep(&mut self, text: &KeptParts<'_>) -> Result<(), KeepError> {
        if self.room == 0 {
            return Err(KeepError);
        }
        let Ok(newest) = joined(self.alloc, text.before, text.table, text.after) else {
            self.lacks_memory = true;
            return Err(KeepError);
        };
        let Ok(table) = text.table.to_vec(self.alloc) else {
            self.lacks_memory = true;
            return Err(KeepError);
        };
        self.newest = newest;
        self.table = table;
        self.room -= 1;
        Ok(())
    }
}

/// A link to a server in memory that fails in some calls.
type FaultyBatches = OneByOne<FaultLink<Direct>>;

/// Makes a link for the device of a core, at which no STOREs wait.
fn over(
    alloc: Global,
    core: &Core<PlainSeal>,
    link: FaultLink<Direct>,
) -> RoundLink<FaultyBatches> {
    RoundLink::new(
        alloc,
        OneByOne { link },
        core.device().copy(),
        record_len(core),
    )
}

/// The volume of the next rows.
#[derive(Drop)]
pub struct Volumes {
    volume: Option<Volume<PlainSeal, FaultyBatches, MemoryKeeper, ChaChaTape>>,
}

/// Formats a new device with this many blocks of 16 bytes, and returns its core. The host takes the records.
fn formatted(alloc: Global, blocks: u64, server: &mut Server) -> Result<Core<PlainSeal>, RowFault> {
    let Ok(device) = Device::new(blocks, 16, 4, 4, 1_000) else {
        return Err(RowFault::NoRow);
    };
    match Core::format(alloc, device, PlainSeal, server) {
        Ok(core) => Ok(core),
        Err(_) => Err(RowFault::OutOfMemory),
    }
}

impl Volumes {
    pub fn new() -> Volumes {
        Volumes { volume: None }
    }

    /// `volume new ROOM AT TIMES`: makes a new volume of 64 blocks of 16 bytes in three trees. Its keeper keeps `ROOM` states,
    /// and its link fails `TIMES` times from call `AT` on. `volume wide ROOM AT TIMES`: the same with 256 blocks in four trees.
    fn begin(
        &mut self,
        alloc: Global,
        blocks: u64,
        trees: u8,
        words: &mut RowWords,
    ) -> Result<(), RowFault> {
        let room = words.number();
        let at = words.number();
        let times = words.number();
        let mut server = Server::new(alloc);
        let core = formatted(alloc, blocks, &mut server)?;
        let link = FaultLink::new(Direct::new(alloc, server), at, times, false);
        let link = over(alloc, &core, link);
        self.volume = Some(Volume {
            core,
            link,
            keeper: MemoryKeeper::new(alloc, room),
            tape: ChaChaTape {
                key: [0; 32],
                trees,
            },
        });
        Ok(())
    }

    /// `volume keeps ROOM`: from now on the keeper keeps `ROOM` states.
    fn give_room(&mut self, words: &mut RowWords) -> Result<(), RowFault> {
        let Some(volume) = &mut self.volume else {
            return Err(RowFault::NoRow);
        };
        volume.keeper.room = words.number();
        Ok(())
    }

    /// `volume bare`: from now on the host is another one, which has nothing of the device.
    fn mislead(&mut self, alloc: Global) -> Result<(), RowFault> {
        let Some(volume) = &mut self.volume else {
            return Err(RowFault::NoRow);
        };
        let other = Direct::new(alloc, Server::new(alloc));
        let link = FaultLink::new(other, u64::MAX, 0, false);
        volume.link = over(alloc, &volume.core, link);
        Ok(())
    }

    /// `volume asks SAID`: a client sends the requests `SAID`. Writes how its connection ends, and what it receives. `volume
    /// leaves LOOKS SAID`: the same with a client that has left after so many looks between rounds; then it writes how many
    /// rounds were kept, too.
    fn asks(
        &mut self,
        alloc: Global,
        looks: u64,
        words: &mut RowWords,
        page: &mut Page,
    ) -> Result<(), RowFault> {
        let said = words.bytes(alloc);
        let Some(volume) = &mut self.volume else {
            return Err(RowFault::NoRow);
        };
        let mut source = Unseen {
            reader: Source::new(&said, Pace::smooth(false)),
        };
        let mut target = Target::new(alloc, 256, Pace::smooth(true))?;
        let mut watch = Stays { looks };
        let ended = transmit(alloc, &mut source, &mut target, volume, &mut watch);
        volume.keeper.check_memory()?;
        write_ended(page, with_memory(ended, target.bytes())?)?;
        page.bytes(target.bytes());
        Ok(())
    }

    fn leaves(
        &mut self,
        alloc: Global,
        words: &mut RowWords,
        page: &mut Page,
    ) -> Result<(), RowFault> {
        let looks = words.number();
        let before = self.room();
        self.asks(alloc, looks, words, page)?;
        page.number(before.saturating_sub(self.room()));
        Ok(())
    }

    /// Returns how many states the keeper still keeps.
    fn room(&self) -> u64 {
        match &self.volume {
            Some(volume) => volume.keeper.room,
            None => 0,
        }
    }

    /// Answers a row about volumes.
    pub fn answer(
        &mut self,
        alloc: Global,
        name: &str,
        words: &mut RowWords,
        page: &mut Page,
    ) -> Result<(), RowFault> {
        match name {
            "new" => self.begin(alloc, 64, 3, words)?,
            "wide" => self.begin(alloc, 256, 4, words)?,
            "keeps" => self.give_room(words)?,
            "bare" => self.mislead(alloc)?,
            "asks" => return self.asks(alloc, u64::MAX, words, page),
            "leaves" => return self.leaves(alloc, words, page),
            _ => return Err(RowFault::NoRow),
        }
        page.word("done");
        Ok(())
    }
}
