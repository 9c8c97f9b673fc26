//! A keeper that keeps files in memory, and fails where a row wants it.
ghost use Rattle.std.specs.Prelude.{◌≡◌, OnErr, OnOk};

use oram_rounds::{KeepError, Keeper, KeptParts};
use rows::{RowFault, RowWords, joined};
use std::alloc::Global;

/// When a keeper fails.
#[derive(Clone, Copy)]
pub(crate) struct Room {
    /// How many files it keeps before it fails.
    pub(crate) files: u64,
    /// Whether it also keeps the file at which it fails first.
    pub(crate) late: bool,
}

impl Room {
    /// Room for all files.
    pub(crate) const AMPLE: Room = Room {
        files: u64::MAX,
        late: false,
    };

    /// Reads the next words: `keeps_all`, `keeps COUNT` files, or `keeps_late COUNT`, which also keeps the file after
    /// these although it reports that it failed.
    pub(crate) fn read(words: &mut RowWords) -> Result<Room, RowFault> {
        match words.text() {
            "keeps_all" => Ok(Room::AMPLE),
            "keeps" => Ok(Room {
                files: words.number(),
                late: false,
            }),
            "keeps_late" => Ok(Room {
                files: words.number(),
                late: true,
            }),
            _ => Err(RowFault::NoRow),
        }
    }
}

/// A keeper in memory.
#[derive(Drop)]
pub(crate) struct MemoryKeeper {
    alloc: Global,
    /// The newest file.
    pub(crate) newest: Vec<u8>,
    /// The table that was kept last.
    table: Vec<u32>,
    room: Room,
    /// How many files were to be kept since the room was set.
    calls: u64,
    /// How many of them it reported as kept.
    pub(crate) kept: u64,
    lacks_memory: bool,
}

impl MemoryKeeper {
    /// Makes a keeper that has this file already.
    pub(crate) fn with(alloc: Global, newest: Vec<u8>, room: Room) -> MemoryKeeper {
        MemoryKeeper {
            alloc,
            newest,
            table: Vec::new(alloc),
            room,
            calls: 0,
            kept: 0,
            lacks_memory: false,
        }
    }

    /// Sets when it fails from now on; files count from 0 again.
    pub(crate) fn set(&mut self, room: Room) {
        self.room = room;
        self.calls = 0;
        self.kept = 0;
    }

    /// Fails if memory ran out, since the row has no answer then.
    pub(crate) fn check_memory(&self) -> Result<(), RowFault> {
        if self.lacks_memory {
            return Err(RowFault::OutOfMemory);
        }
        Ok(())
    }

    /// Returns how many files took the place of the one before, even where that was not reported.
    pub(crate) fn taken(&self) -> u64 {
        let late = self.room.late && self.calls > self.room.files;
        self.kept.saturating_add(u64::from(late))
    }

    fn put(&mut self, text: &KeptParts<'_>) -> Result<(), KeepError> {
        let table = text.table.to_vec(self.alloc);
        match (
            joined(self.alloc, text.before, text.table, text.after),
            table,
        ) {
            (Ok(newest), Ok(table)) => {
                self.newest = newest;
                self.table = table;
                Ok(())
            }
            _ => {
                self.lacks_memory = true;
                Err(KeepError)
            }
        }
    }
}

impl Keeper for MemoryKeeper {
    ghost use Rattle.std.specs.Prelude.{◌≡◌, []};

    ghost reads_back = { λ k bytes. bytes ≡ k.newest.items };

    ghost kept_table = { λ k. k.table.items };

    ghost kept_records = { λ k. [] };

    fn keep(&mut self, text: &KeptParts<'_>) -> Result<(), KeepError> {
        let call = self.calls;
        self.calls = self.calls.saturating_add(1);
        if call < self.room.files {
            self.put(text)?;
            self.kept = self.kept.saturating_add(1);
            return Ok(());
        }
        if self.room.late && call == self.room.files {
            self.put(text)?;
        }
        Err(KeepError)
    }
}
