//! How many blocks the stash has after each access, by the slots of a bucket and the leaf load.

use oram_bucket::PlainSeal;
use oram_bytes::{Bytes, Words};
use oram_core::{Command, Core, Event};
use oram_geometry::Device;
use oram_host::Server;
use rand_chacha::ChaCha20Rng;
use rand_core::{Rng, SeedableRng};
use std::alloc::{AllocError, Global};
use std::{fmt, io};

/// The depth of each tree. The blocks are as many as its leaves have room for, so no tree is fuller.
const DEPTH: u32 = 10;

const BLOCK_BYTES: usize = 16;

/// The bytes that an address and a leaf take in front of a block.
const SLOT_HEAD: usize = 8;

/// The bytes of the two digests behind the slots of a record.
const DIGESTS: usize = 64;

const LOADS: [u64; 4] = [1, 4, 5, 6];

const SLOTS: [u64; 3] = [3, 4, 5];

const FETCH: u8 = 1;

/// The messages of an access to one tree, a FETCH and a STORE, and one more, which isn't sent.
const MOST_MESSAGES: u32 = 3;

/// In which order the blocks are accessed.
#[derive(Clone, Copy)]
enum Order {
    Random,
    Sequential,
}

impl fmt::Display for Order {
    fn fmt<W: fmt::Write>(&self, f: &mut fmt::Formatter<W>) -> fmt::Result {
        f.write_str(match self {
            Order::Random => "random",
            Order::Sequential => "in order",
        })
    }
}

/// What was seen of the stash.
#[derive(Drop)]
struct Tally {
    /// After how many accesses the stash had this number of blocks, by that number.
    counts: Vec<u64>,
    /// The most blocks that the client's memory had at once: those of the stash and those of a path.
    most_held: usize,
}

impl Tally {
    fn new(alloc: Global) -> Tally {
        Tally {
            counts: Vec::new(alloc),
            most_held: 0,
        }
    }

    /// Counts a stash of `len` blocks after an access.
    fn count(&mut self, len: usize) -> Result<(), AllocError> {
        for _ in self.counts.len()..len.saturating_add(1) {
            self.counts.push(0)?;
        }
        if let Some(count) = self.counts.get_mut(len) {
            *count = count.saturating_add(1);
        }
        Ok(())
    }

    /// Returns after how many accesses the stash was counted.
    fn accesses(&self) -> u64 {
        let mut accesses = 0u64;
        for count in &self.counts {
            accesses = accesses.saturating_add(*count);
        }
        accesses
    }

    /// Returns the mean number of blocks, in hundredths.
    fn mean(&self) -> u64 {
        let mut blocks = 0u64;
        for (len, count) in self.counts.iter().enumerate() {
            blocks = blocks.saturating_add(count.saturating_mul(len as u64));
        }
        blocks.saturating_mul(100) / self.accesses().max(1)
    }

    /// Returns the least number of blocks that the stash didn't exceed after 99.9 % of the accesses.
    fn usual(&self) -> usize {
        let enough = self.accesses().saturating_mul(999);
        let mut seen = 0u64;
        for (len, count) in self.counts.iter().enumerate() {
            seen = seen.saturating_add(*count);
            if seen.saturating_mul(1_000) >= enough {
                return len;
            }
        }
        0
    }

    fn greatest(&self) -> usize {
        self.counts.len().saturating_sub(1)
    }
}

/// A device over a server in memory.
#[derive(Drop)]
struct Bench {
    core: Core<PlainSeal>,
    server: Server,
    random: ChaCha20Rng,
    tally: Tally,
}

/// Returns the number of blocks in the answer to a FETCH, whose records begin with slots that aren't sealed.
fn blocks_in(answer: &[u8], slots: usize) -> usize {
    let slot_len = SLOT_HEAD + BLOCK_BYTES;
    let bucket_len = slots.saturating_mul(slot_len).max(1);
    let mut blocks = 0usize;
    for record in answer
        .get(1..)
        .unwrap_or_default()
        .chunks(bucket_len.saturating_add(DIGESTS).max(1))
    {
        let bucket = record.get(..bucket_len).unwrap_or_default();
        for slot in bucket.chunks(slot_len) {
            let address = slot.get(..4).unwrap_or_default();
            if address.iter().any(|byte| *byte != 0) {
                blocks = blocks.saturating_add(1);
            }
        }
    }
    blocks
}

/// Returns the number of blocks in the stashes of all trees.
fn stashed(core: &Core<PlainSeal>) -> usize {
    let mut blocks = 0usize;
    for tree in 0..core.device().trees() {
        blocks = blocks.saturating_add(core.stash_len(tree));
    }
    blocks
}

impl Bench {
    /// Returns a read of a block, with random words.
    fn read_of(&mut self, alloc: Global, address: u32) -> Result<Event, AllocError> {
        let mut words = Vec::new(alloc);
        for _ in 0..2 {
            words.push(self.random.next_u64())?;
        }
        Ok(Event::Submit {
            session: 0,
            command: Command::Read(address),
            words: Words::from_vec(words),
        })
    }

    /// Makes an event, and returns the message that the core sends, if any.
    fn step(&mut self, alloc: Global, event: &Event) -> Result<Option<Bytes>, AllocError> {
        Ok(self.core.step(alloc, event)?.sends.pop())
    }

    /// Returns the server's answer to a message, and notes how many blocks the client then has.
    fn answer(&mut self, alloc: Global, message: &[u8]) -> Result<Event, AllocError> {
        let answer = self.server.answer(alloc, message)?;
        if message.first() == Some(&FETCH) {
            let held = stashed(&self.core).saturating_add(blocks_in(
                &answer,
                self.core.device().slots(),
            ));
            self.tally.most_held = self.tally.most_held.max(held);
        }
        Ok(Event::Answer(Bytes::from_vec(answer)))
    }

    /// Reads a block.
    fn access(&mut self, alloc: Global, address: u32) -> Result<(), AllocError> {
        let read = self.read_of(alloc, address)?;
        let mut outstanding = self.step(alloc, &read)?;
        for _ in 0..MOST_MESSAGES {
            let Some(message) = outstanding else {
                return Ok(());
            };
            let answer = self.answer(alloc, message.as_slice())?;
            outstanding = self.step(alloc, &answer)?;
        }
        Ok(())
    }

    /// Accesses each block once, so that all are in the tree or the stash, and then makes the accesses that are counted.
    fn run(
        &mut self,
        alloc: Global,
        order: Order,
        blocks: u32,
        accesses: u64,
    ) -> Result<(), AllocError> {
        for address in 0..blocks {
            self.access(alloc, address)?;
        }
        self.tally = Tally::new(alloc);
        let mut next = 0u32;
        for _ in 0..accesses {
            let address = match order {
                Order::Random => self.random.next_u32() % blocks.max(1),
                Order::Sequential => next,
            };
            self.access(alloc, address)?;
            let len = stashed(&self.core);
            self.tally.count(len)?;
            next = next.saturating_add(1) % blocks.max(1);
        }
        Ok(())
    }
}

/// Prints what the accesses left in the stash of one device.
fn report(rt: &HostRuntime, slots: u64, load: u64, order: Order, tally: &Tally) -> io::Result<()> {
    let mean = tally.mean();
    println!(rt;
        "| {slots} | {load} | {order} | {}.{:02} | {} | {} | {} |",
        mean / 100,
        mean % 100,
        tally.usual(),
        tally.greatest(),
        tally.most_held
    )
}

/// Makes accesses to a device with these slots and this leaf load, and prints what they left in its stash.
fn measure(rt: &HostRuntime, slots: u64, load: u64, order: Order, accesses: u64) -> io::Result<()> {
    let alloc = rt.alloc();
    let blocks = load << DEPTH;
    let Ok(device) = Device::packed(blocks, BLOCK_BYTES as u64, slots, blocks, 1 << 40, load) else {
        // Buckets with so few slots have no room for this leaf load.
        return Ok(());
    };
    let mut server = Server::new(alloc);
    let Ok(core) = Core::format(alloc, device, PlainSeal, &mut server) else {
        return Err(AllocError.into());
    };
    let mut bench = Bench {
        core,
        server,
        random: ChaCha20Rng::from_seed([slots as u8; 32]),
        tally: Tally::new(alloc),
    };
    bench.run(alloc, order, blocks as u32, accesses)?;
    report(rt, slots, load, order, &bench.tally)
}

/// Measures the stash of each device, after so many accesses in random order and in the order of the addresses.
pub(crate) fn run(rt: &HostRuntime, accesses: &str) -> io::Result<()> {
    let Ok(accesses) = accesses.parse::<u64>() else {
        return println!(rt; "{accesses} is no number of accesses");
    };
    println!(rt; "| Slots | Blocks to a leaf | Order | Mean | 99.9 % | Greatest | In memory |")?;
    println!(rt; "|---|---|---|---|---|---|---|")?;
    for slots in SLOTS {
        for load in LOADS {
            measure(rt, slots, load, Order::Random, accesses)?;
            measure(rt, slots, load, Order::Sequential, accesses)?;
        }
    }
    Ok(())
}
