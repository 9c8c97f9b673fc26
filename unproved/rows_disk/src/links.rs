//! A link that tries until its host answers.

use crate::{batches, slow_line, stamped_links};
use oram_client::{Dial, HostWatch, Limits, Progress, ReconnectLink, Sending, Trouble};
use oram_host::HostRefusal;
use oram_pipeline::PipelinedLink;
use oram_rounds::{BatchLink, OneByOne};
use oram_session::{Link, LinkFault};
use oram_wire::REFUSED;
use rows::{Page, RowFault, RowWords};
use std::alloc::{AllocError, Global};
use std::cell::Cell;

/// The milliseconds after which a slow try fails.
const SLOW: u64 = 350;

/// The milliseconds for which nobody uses the link at an `idle`.
const IDLE: u64 = 1_000_000;

/// What happens to a link: a letter for each try to open a connection and for each call over one, in order. It also
/// counts what happened.
#[derive(Drop)]
struct Play<'a> {
    letters: &'a [u8],
    place: Cell<usize>,
    /// Whether the clock can be read.
    has_clock: bool,
    /// What the clock reads, in milliseconds.
    time: Cell<u64>,
    paused: Cell<u64>,
    tries: Cell<u64>,
    calls: Cell<u64>,
    lost: Cell<u64>,
    full: Cell<u64>,
    back: Cell<u64>,
    /// How many letters said that memory runs out.
    short: Cell<u64>,
}

/// Adds to a count, up to the greatest number.
fn add(count: &Cell<u64>, more: u64) {
    let before = count.get();
    count.set(before.saturating_add(more));
}

impl<'a> Play<'a> {
    fn new(letters: &'a [u8], has_clock: bool) -> Play<'a> {
        Play {
            letters,
            place: Cell::new(0),
            has_clock,
            time: Cell::new(0),
            paused: Cell::new(0),
            tries: Cell::new(0),
            calls: Cell::new(0),
            lost: Cell::new(0),
            full: Cell::new(0),
            back: Cell::new(0),
            short: Cell::new(0),
        }
    }

    /// Returns the next letter. After the last one, everything fails.
    fn next(&self) -> u8 {
        let place = self.place.get();
        self.place.set(place.saturating_add(1));
        let letter = self.letters.get(place).copied().unwrap_or(b'f');
        if letter == b'm' {
            add(&self.short, 1);
        }
        letter
    }
}

/// A connection whose calls go by the letters. For `a` the host refuses an empty message, for `e` it gives the message back,
/// and for `r` it has no room. For `s` it is silent for as long as it may be, for `m` memory runs out, for `w` the call fails
/// after some time, and for any other letter at once.
#[derive(Drop)]
struct Way<'a> {
    play: &'a Play<'a>,
    limits: Limits,
    faults: u64,
}

impl<'a> Way<'a> {
    fn outcome(&self, alloc: Global, body: &[u8]) -> Result<Vec<u8>, LinkFault> {
        match self.play.next() {
            b'e' => Ok(body.to_vec(alloc)?),
            b'a' => Ok([REFUSED, HostRefusal::BadOp.code()].to_vec(alloc)?),
            b'r' => Ok([REFUSED, HostRefusal::OutOfMemory.code()].to_vec(alloc)?),
            b's' => {
                add(&self.play.time, self.limits.silence);
                Err(LinkFault::Io)
            }
            b'm' => Err(LinkFault::OutOfMemory),
            b'w' => {
                add(&self.play.time, SLOW);
                Err(LinkFault::Io)
            }
            _ => Err(LinkFault::Io),
        }
    }
}

impl<'a> Link for Way<'a> {
    ghost use Rattle.std.specs.Prelude.{◌≡◌};
    ghost use Rattle.oram_session.specs.Outcome.{faults_after};

    ghost calls = { λ l _ outcome m. m.faults ≡ faults_after l.faults outcome };

    ghost fault_count = { λ l. l.faults };

    fn call(&mut self, alloc: Global, body: &[u8]) -> Result<Vec<u8>, LinkFault> {
        add(&self.play.calls, 1);
        let outcome = self.outcome(alloc, body);
        if outcome.is_err() {
            self.faults = self.faults.saturating_add(1);
        }
        outcome
    }

    fn faults(&self) -> u64 {
        self.faults
    }

    ghost counts = { λ l m body outcome h. h };
}

/// Opens connections by the letters, and sends messages ahead by them. For `p` it sends them, for `u` they have to go otherwise, for `m`
/// memory runs out, and for any other letter sending fails. For `g` it begins a batch, for `m` memory runs out there, and for any other letter
/// it fails. For `o` it opens one. For `d` the host keeps another disk, for `n` it keeps none, and for
/// `r` it has no room. For `s` the host gives no answer within the limit, for `m` memory runs out, for `w` the try fails after
/// some time, and for any other letter at once.
#[derive(Drop)]
struct Script<'a>(&'a Play<'a>);

impl<'a> Dial for Script<'a> {
    ghost use Rattle.std.specs.Prelude.{⊤};

    type Line = OneByOne<Way<'a>>;

    ghost opens = { λ _ _ _ _. ⊤ };

    ghost fails = { λ _ _ _ _. ⊤ };

    ghost pauses = { λ _ _ _. ⊤ };

    ghost reads = { λ _ _ _. ⊤ };

    ghost carries = { λ d l bodies came exchanges e m. Plainly (λ k bs o es n. IsBatch bs o es) d l bodies came exchanges e m };

    ghost asks = { λ _ _ _ _. ⊤ };

    ghost streams = { λ _ _ _ _ _ _ _. ⊤ };

    ghost notes = { λ _. [] };

    ghost learns = { λ d _ e. e ≡ d };

    ghost are_batches = { plainly_are_batches };

    ghost counts_answers = { counts_answers };

    ghost ends_carried = { ends_carried };

    fn dial(&mut self, _alloc: Global, limits: Limits) -> Result<OneByOne<Way<'a>>, Trouble> {
        add(&self.0.tries, 1);
        match self.0.next() {
            b'o' => Ok(OneByOne {
                link: Way {
                    play: self.0,
                    limits,
                    faults: 0,
                },
            }),
            b'd' => Err(Trouble::AnotherDisk),
            b'n' => Err(Trouble::NoDisk),
            b'r' => Err(Trouble::NoRoom),
            b'm' => Err(Trouble::OutOfReach(LinkFault::OutOfMemory)),
            b's' => {
                add(&self.0.time, limits.opening);
                Err(Trouble::OutOfReach(LinkFault::Io))
            }
            b'w' => {
                add(&self.0.time, SLOW);
                Err(Trouble::OutOfReach(LinkFault::Io))
            }
            _ => Err(Trouble::OutOfReach(LinkFault::Io)),
        }
    }

    fn carry(
        &mut self,
        alloc: Global,
        line: &mut OneByOne<Way<'a>>,
        first: &[Vec<u8>],
        last: &[Vec<u8>],
    ) -> Result<Vec<Vec<u8>>, Trouble> {
        match line.call_all(alloc, first, last) {
            Ok(answers) => Ok(answers),
            Err(fault) => Err(Trouble::OutOfReach(fault)),
        }
    }

    fn ask(
        &self,
        _alloc: Global,
        line: OneByOne<Way<'a>>,
        _bodies: &[Vec<u8>],
    ) -> Sending<OneByOne<Way<'a>>> {
        match self.0.next() {
            b'p' => Sending::Sent(line),
            b'u' => Sending::Unsent(line),
            b'm' => Sending::Failed(Trouble::OutOfReach(LinkFault::OutOfMemory)),
            _ => Sending::Failed(Trouble::OutOfReach(LinkFault::Io)),
        }
    }

    fn hear(
        &self,
        alloc: Global,
        line: &mut OneByOne<Way<'a>>,
        bodies: &[Vec<u8>],
    ) -> Result<Vec<Vec<u8>>, Trouble> {
        match line.call_all(alloc, &[], bodies) {
            Ok(answers) => Ok(answers),
            Err(fault) => Err(Trouble::OutOfReach(fault)),
        }
    }

    fn begin(
        &mut self,
        _alloc: Global,
        _line: &mut OneByOne<Way<'a>>,
        first: &[Vec<u8>],
        last: &[Vec<u8>],
    ) -> Result<Progress, Trouble> {
        match self.0.next() {
            b'g' => Ok(Progress {
                left: first.len().saturating_add(last.len()),
                no_room: false,
                begun: None,
                done: None,
            }),
            b'm' => Err(Trouble::OutOfReach(LinkFault::OutOfMemory)),
            _ => Err(Trouble::OutOfReach(LinkFault::Io)),
        }
    }

    fn next_answer(
        &mut self,
        alloc: Global,
        line: &mut OneByOne<Way<'a>>,
        progress: &mut Progress,
        body: &[u8],
    ) -> Result<Vec<u8>, Trouble> {
        progress.left = progress.left.saturating_sub(1);
        match line.next_answer(alloc, body) {
            Ok(answer) => Ok(answer),
            Err(fault) => Err(Trouble::OutOfReach(fault)),
        }
    }

    fn note(&self, alloc: Global) -> Result<Vec<u8>, AllocError> {
        Ok(Vec::new(alloc))
    }

    fn learn_kept(&mut self, _check: u64) {}

    fn pause(&mut self, milliseconds: u64) {
        add(&self.0.time, milliseconds);
        add(&self.0.paused, milliseconds);
    }

    fn now(&mut self) -> Option<u64> {
        self.0.has_clock.then_some(self.0.time.get())
    }
}

/// Counts how many times the host was lost, had no room, and was back.
#[derive(Drop)]
struct News<'a>(&'a Play<'a>);

impl<'a> HostWatch for News<'a> {
    fn lost(&mut self) {
        add(&self.0.lost, 1);
    }

    fn full(&mut self) {
        add(&self.0.full, 1);
    }

    fn back(&mut self) {
        add(&self.0.back, 1);
    }
}

/// Returns `count` messages of one byte each, their numbers from `from` on.
fn numbered(alloc: Global, from: u8, count: u64) -> Result<Vec<Vec<u8>>, RowFault> {
    let mut messages = Vec::new(alloc);
    let mut number = from;
    for _ in 0..count {
        if messages.push([number].to_vec(alloc)?).is_err() {
            return Err(RowFault::OutOfMemory);
        }
        number = number.wrapping_add(1);
    }
    Ok(messages)
}

/// Writes the answers to a batch, or why they are missing.
pub fn write_answers(
    outcome: Result<Vec<Vec<u8>>, LinkFault>,
    page: &mut Page,
) -> Result<(), RowFault> {
    match outcome {
        Ok(answers) => {
            for answer in &answers {
                page.bytes(answer);
            }
        }
        Err(LinkFault::OutOfMemory) => return Err(RowFault::OutOfMemory),
        Err(fault) => page.show(&fault),
    }
    Ok(())
}

/// Writes the answers to a batch over a link, or why they are missing. If memory ran out because of a letter, that is an
/// answer too.
fn write_batch(
    play: &Play<'_>,
    outcome: Result<Vec<Vec<u8>>, LinkFault>,
    page: &mut Page,
) -> Result<(), RowFault> {
    match outcome {
        Err(LinkFault::OutOfMemory) if play.short.get() > 0 => {
            page.show(&LinkFault::OutOfMemory);
            Ok(())
        }
        outcome => write_answers(outcome, page),
    }
}

/// Writes the answer to one message of a batch, or why it is missing.
pub fn write_answer(
    alloc: Global,
    outcome: Result<Vec<u8>, LinkFault>,
    page: &mut Page,
) -> Result<(), RowFault> {
    let answers = match outcome {
        Ok(answer) => Ok(vec![in alloc; answer]?),
        Err(fault) => Err(fault),
    };
    write_answers(answers, page)
}

/// Does with the link what a word says: it makes a `call` with an empty message, sends a `batch FIRST LAST` of two lists
/// with FIRST and LAST messages that are their own numbers, tries to `reach` the host, or stays `idle` for a thousand seconds. Or it does an
/// `ask COUNT`: it sends so many messages ahead; and then `answers COUNT` receives their answers. Or it does a `begin FIRST LAST`: it begins such a
/// batch, if it can; and then `next MESSAGE` gives the answer to one of its messages.
fn ask<'a>(
    alloc: Global,
    link: &mut ReconnectLink<Script<'a>, News<'a>>,
    play: &Play<'a>,
    words: &mut RowWords,
    page: &mut Page,
) -> Result<(), RowFault> {
    match words.text() {
        "call" => write_batch(play, link.call_all(alloc, &[], &[Vec::new(alloc)]), page)?,
        "batch" => {
            let first = numbered(alloc, 0x10, words.number())?;
            let last = numbered(alloc, 0x20, words.number())?;
            write_batch(play, link.call_all(alloc, &first, &last), page)?;
        }
        "ask" => link.ask(alloc, &numbered(alloc, 0x30, words.number())?),
        "answers" => {
            let asked = numbered(alloc, 0x30, words.number())?;
            write_batch(play, link.answers(alloc, &asked), page)?;
        }
        "begin" => {
            let first = numbered(alloc, 0x10, words.number())?;
            let last = numbered(alloc, 0x20, words.number())?;
            page.word(if link.begin(alloc, &first, &last) {
                "begun"
            } else {
                "not"
            });
        }
        "next" => match link.next_answer(alloc, &words.bytes(alloc)) {
            Ok(answer) => page.bytes(&answer),
            Err(LinkFault::OutOfMemory) if play.short.get() == 0 => {
                return Err(RowFault::OutOfMemory);
            }
            Err(fault) => page.show(&fault),
        },
        "reach" => match link.reach(alloc) {
            Ok(()) => page.word("reached"),
            Err(trouble) if trouble.lacks_memory() && play.short.get() == 0 => {
                return Err(RowFault::OutOfMemory);
            }
            Err(trouble) => page.show(&trouble),
        },
        "idle" => add(&play.time, IDLE),
        _ => return Err(RowFault::NoRow),
    }
    Ok(())
}

/// Writes a count with its name.
fn write_count(page: &mut Page, name: &str, count: &Cell<u64>) {
    page.word(name);
    page.number(count.get());
}

/// Writes what the link answers to the words, and then why it gave up.
fn perform(
    alloc: Global,
    play: &Play,
    seconds: u64,
    words: &mut RowWords,
    page: &mut Page,
) -> Result<(), RowFault> {
    let mut link = ReconnectLink::new(alloc, Script(play), News(play), seconds);
    for _ in 0..u64::MAX {
        if words.is_empty() {
            break;
        }
        ask(alloc, &mut link, play, words, page)?;
    }
    match link.trouble() {
        Some(trouble) => page.show(&trouble),
        None => page.word("usable"),
    }
    Ok(())
}

/// `link plays SECONDS CLOCK LETTERS WORDS`: a link with a reconnect timeout of `SECONDS` does what the words say, with a
/// clock that `ticks` or `fails`; the letters decide about its tries and about each message. Writes the answers to the
/// words, and why the link gave up, or that it is still `usable`; how many connections it tried to open and how many
/// messages went over them; how many milliseconds it paused and how many passed; and how many times the host was lost, had
/// no room, and was back.
fn plays(alloc: Global, words: &mut RowWords, page: &mut Page) -> Result<(), RowFault> {
    let seconds = words.number();
    let has_clock = match words.text() {
        "ticks" => true,
        "fails" => false,
        _ => return Err(RowFault::NoRow),
    };
    let play = Play::new(words.text().as_bytes(), has_clock);
    perform(alloc, &play, seconds, words, page)?;
    write_count(page, "tries", &play.tries);
    write_count(page, "calls", &play.calls);
    write_count(page, "paused", &play.paused);
    write_count(page, "passed", &play.time);
    write_count(page, "lost", &play.lost);
    write_count(page, "full", &play.full);
    write_count(page, "back", &play.back);
    Ok(())
}

/// Answers a row about links.
pub fn answer(
    alloc: Global,
    name: &str,
    words: &mut RowWords,
    page: &mut Page,
) -> Result<(), RowFault> {
    match name {
        "plays" => plays(alloc, words, page),
        "talks" => batches::talks(alloc, words, page),
        "asks" => batches::asks(alloc, words, page),
        "begins" => batches::begins(alloc, words, page),
        "slowly" => slow_line::slowly(alloc, words, page),
        "stamped" => stamped_links::stamped(alloc, words, page),
        "refused" => batches::refused(alloc, words, page),
        "long" => batches::long(alloc, words, page),
        _ => Err(RowFault::NoRow),
    }
}
