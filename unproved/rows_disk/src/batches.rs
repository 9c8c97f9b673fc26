//! Batches over connections to a host in memory.

use crate::far_end::{Answers, FarEnd, HostBehaviour, Messages};
use crate::links::{write_answer, write_answers};
use oram_client::{
    AnswerLengths, Dial, HostWatch, Limits, Progress, ReconnectLink, Sending, StreamBatches,
    Trouble,
};
use oram_geometry::Device;
use oram_pipeline::PipelinedLink;
use oram_rounds::BatchLink;
use oram_session::LinkFault;
use rows::{Page, RowFault, RowWords};
use std::alloc::{AllocError, Global};
use std::cell::RefCell;

/// Returns how long the answers of the host of a disk of one block are. A path has one record of 88 bytes.
pub fn lengths() -> Option<AnswerLengths> {
    let device = Device::new(1, 16, 1, 1, 1).ok()?;
    Some(AnswerLengths::new(device, 0))
}

/// Opens connections to one host. A digit for each says how many answers the host gives over it, in order.
#[derive(Drop)]
struct Connections<'a> {
    far: &'a RefCell<FarEnd>,
    digits: &'a [u8],
    opened: usize,
}

impl<'a> Dial for Connections<'a> {
    ghost use Rattle.std.specs.Prelude.{⊤};

    type Line = StreamBatches<Answers<'a>, Messages<'a>>;

    ghost opens = { λ _ _ _ _. ⊤ };

    ghost fails = { λ _ _ _ _. ⊤ };

    ghost pauses = { λ _ _ _. ⊤ };

    ghost reads = { λ _ _ _. ⊤ };

    ghost carries = { λ d l bodies came exchanges e m. Plainly (λ k bs o es n. IsBatch bs o es) d l bodies came exchanges e m };

    ghost asks = { λ _ _ _ _. ⊤ };

    ghost streams = { λ _ _ _ _ _ _ _. ⊤ };

    ghost notes = { λ _. [] };

    ghost learns = { λ d _ e. e ≡ d };

    ghost are_batches = { plainly_are_batches };

    ghost counts_answers = { counts_answers };

    ghost ends_carried = { ends_carried };

    fn dial(
        &mut self,
        alloc: Global,
        _limits: Limits,
    ) -> Result<StreamBatches<Answers<'a>, Messages<'a>>, Trouble> {
        let Some(digit) = self.digits.get(self.opened) else {
            return Err(Trouble::OutOfReach(LinkFault::Io));
        };
        self.opened = self.opened.saturating_add(1);
        let Ok(mut far) = self.far.try_borrow_mut() else {
            return Err(Trouble::OutOfReach(LinkFault::Io));
        };
        far.reopen(u64::from(digit.saturating_sub(b'0')));
        let Some(lengths) = lengths() else {
            return Err(Trouble::OutOfReach(LinkFault::Io));
        };
        Ok(StreamBatches::new(alloc, Answers(self.far), Messages(self.far), lengths))
    }

    fn carry(
        &mut self,
        alloc: Global,
        line: &mut StreamBatches<Answers<'a>, Messages<'a>>,
        first: &[Vec<u8>],
        last: &[Vec<u8>],
    ) -> Result<Vec<Vec<u8>>, Trouble> {
        match line.call_all(alloc, first, last) {
            Ok(answers) => Ok(answers),
            Err(fault) => Err(Trouble::OutOfReach(fault)),
        }
    }

    fn ask(
        &self,
        alloc: Global,
        mut line: StreamBatches<Answers<'a>, Messages<'a>>,
        bodies: &[Vec<u8>],
    ) -> Sending<StreamBatches<Answers<'a>, Messages<'a>>> {
        match line.ask(alloc, bodies) {
            Ok(()) => Sending::Sent(line),
            Err(fault) => Sending::Failed(Trouble::OutOfReach(fault)),
        }
    }

    fn hear(
        &self,
        alloc: Global,
        line: &mut StreamBatches<Answers<'a>, Messages<'a>>,
        bodies: &[Vec<u8>],
    ) -> Result<Vec<Vec<u8>>, Trouble> {
        match line.hear(alloc, bodies) {
            Ok(answers) => Ok(answers),
            Err(fault) => Err(Trouble::OutOfReach(fault)),
        }
    }

    fn begin(
        &mut self,
        alloc: Global,
        line: &mut StreamBatches<Answers<'a>, Messages<'a>>,
        first: &[Vec<u8>],
        last: &[Vec<u8>],
    ) -> Result<Progress, Trouble> {
        match line.begin_between(alloc, &[], first, &[], last) {
            Ok(()) => Ok(Progress {
                left: first.len().saturating_add(last.len()),
                no_room: false,
                begun: None,
                done: None,
            }),
            Err(fault) => Err(Trouble::OutOfReach(fault)),
        }
    }

    fn next_answer(
        &mut self,
        alloc: Global,
        line: &mut StreamBatches<Answers<'a>, Messages<'a>>,
        progress: &mut Progress,
        body: &[u8],
    ) -> Result<Vec<u8>, Trouble> {
        progress.left = progress.left.saturating_sub(1);
        match line.next_answer(alloc, body) {
            Ok(answer) => Ok(answer),
            Err(fault) => Err(Trouble::OutOfReach(fault)),
        }
    }

    fn note(&self, alloc: Global) -> Result<Vec<u8>, AllocError> {
        Ok(Vec::new(alloc))
    }

    fn learn_kept(&mut self, _check: u64) {}

    fn pause(&mut self, _milliseconds: u64) {}

    fn now(&mut self) -> Option<u64> {
        None
    }
}

/// Notes no trouble.
#[derive(Drop)]
pub struct NoWatch;

impl HostWatch for NoWatch {
    fn lost(&mut self) {}

    fn full(&mut self) {}

    fn back(&mut self) {}
}

/// Sends all messages as one batch, and writes the answers.
fn send(
    alloc: Global,
    far: &RefCell<FarEnd>,
    digits: &[u8],
    first: &[Vec<u8>],
    last: &[Vec<u8>],
    page: &mut Page,
) -> Result<(), RowFault> {
    let dialer = Connections {
        far,
        digits,
        opened: 0,
    };
    let mut link = ReconnectLink::new(alloc, dialer, NoWatch, 1);
    let outcome = link.call_all(alloc, first, last);
    if far.try_borrow().is_ok_and(|far| far.lacks_memory()) {
        return Err(RowFault::OutOfMemory);
    }
    write_answers(outcome, page)
}

/// Sends a first message as a batch, and all others ahead of their answers. Writes the answers, and how many messages the host has answered.
fn send_ahead(
    alloc: Global,
    far: &RefCell<FarEnd>,
    digits: &[u8],
    words: &mut RowWords,
    page: &mut Page,
) -> Result<(), RowFault> {
    let mut messages = words.bodies(alloc);
    if messages.is_empty() {
        return Err(RowFault::NoRow);
    }
    let first = messages.remove(0);
    let dialer = Connections {
        far,
        digits,
        opened: 0,
    };
    let mut link = ReconnectLink::new(alloc, dialer, NoWatch, 1);
    let outcome = link.call_all(alloc, &[], &[first]);
    write_answers(outcome, page)?;
    link.ask(alloc, &messages);
    let outcome = link.answers(alloc, &messages);
    if far.try_borrow().is_ok_and(|far| far.lacks_memory()) {
        return Err(RowFault::OutOfMemory);
    }
    write_answers(outcome, page)?;
    page.word("answered");
    let Ok(far) = far.try_borrow() else {
        return Err(RowFault::NoRow);
    };
    page.number(far.answered());
    Ok(())
}

/// `link asks DIGITS MESSAGES`: as `talks`, but the first message is a batch of its own, and the others are sent ahead of their answers.
pub fn asks(alloc: Global, words: &mut RowWords, page: &mut Page) -> Result<(), RowFault> {
    let digits = words.text().as_bytes();
    let far = RefCell::new(FarEnd::new(alloc, 0, HostBehaviour::Honest));
    send_ahead(alloc, &far, digits, words, page)
}

/// Begins a batch with these messages over an open connection that takes all of them, and writes their answers one by one. If the batch breaks
/// off, the messages that have no answer are sent again. Writes `again` before their answers.
pub fn take_one_by_one<D: Dial, W: HostWatch>(
    alloc: Global,
    link: &mut ReconnectLink<D, W>,
    mut messages: Vec<Vec<u8>>,
    page: &mut Page,
) -> Result<(), RowFault> {
    let Some(last) = messages.pop() else {
        return Err(RowFault::NoRow);
    };
    // Nothing else keeps the link from it.
    if !link.begin(alloc, &messages, &[last.to_vec(alloc)?]) {
        return Err(RowFault::OutOfMemory);
    }
    if messages.push(last).is_err() {
        return Err(RowFault::OutOfMemory);
    }
    let mut given: usize = 0;
    let mut goes_on = true;
    while goes_on && given < messages.len() {
        let outcome = link.next_answer(alloc, &messages[given]);
        goes_on = outcome.is_ok();
        if goes_on {
            given = given.saturating_add(1);
        }
        write_answer(alloc, outcome, page)?;
    }
    if given < messages.len() {
        page.word("again");
        write_answers(link.call_all(alloc, &[], &messages[given..]), page)?;
    }
    Ok(())
}

/// Sends a first message as a batch, and begins a batch with the others.
fn send_begun(
    alloc: Global,
    far: &RefCell<FarEnd>,
    digits: &[u8],
    words: &mut RowWords,
    page: &mut Page,
) -> Result<(), RowFault> {
    let mut messages = words.bodies(alloc);
    if messages.is_empty() {
        return Err(RowFault::NoRow);
    }
    let first = messages.remove(0);
    let dialer = Connections {
        far,
        digits,
        opened: 0,
    };
    let mut link = ReconnectLink::new(alloc, dialer, NoWatch, 1);
    let outcome = link.call_all(alloc, &[], &[first]);
    write_answers(outcome, page)?;
    let taken = take_one_by_one(alloc, &mut link, messages, page);
    let Ok(far) = far.try_borrow() else {
        return Err(RowFault::NoRow);
    };
    if far.lacks_memory() {
        return Err(RowFault::OutOfMemory);
    }
    taken?;
    page.word("answered");
    page.number(far.answered());
    Ok(())
}

/// `link begins DIGITS MESSAGES`: as `talks`, but the first message is a batch of its own, and the answers to the others are taken one by one. If that
/// batch breaks off, the rest of it is sent again.
pub fn begins(alloc: Global, words: &mut RowWords, page: &mut Page) -> Result<(), RowFault> {
    let digits = words.text().as_bytes();
    let far = RefCell::new(FarEnd::new(alloc, 0, HostBehaviour::Honest));
    send_begun(alloc, &far, digits, words, page)
}

/// Sends all messages but the last one in a list, and the last one in another. Writes the answers, and how many messages the
/// host has answered.
fn send_and_count(
    alloc: Global,
    far: &RefCell<FarEnd>,
    digits: &[u8],
    words: &mut RowWords,
    page: &mut Page,
) -> Result<(), RowFault> {
    let mut messages = words.bodies(alloc);
    let Some(last) = messages.pop() else {
        return Err(RowFault::NoRow);
    };
    send(alloc, far, digits, &messages, &[last], page)?;
    page.word("answered");
    let Ok(far) = far.try_borrow() else {
        return Err(RowFault::NoRow);
    };
    page.number(far.answered());
    Ok(())
}

/// `link talks DIGITS MESSAGES`: a link with a reconnect timeout of one second sends a batch to a host in memory. Its
/// connections end after as many answers as the digits say. Writes the answers, and how many messages the host has answered
/// in all tries.
pub fn talks(alloc: Global, words: &mut RowWords, page: &mut Page) -> Result<(), RowFault> {
    let digits = words.text().as_bytes();
    let far = RefCell::new(FarEnd::new(alloc, 0, HostBehaviour::Honest));
    send_and_count(alloc, &far, digits, words, page)
}

/// `link refused BEHIND CODE DIGITS MESSAGES`: the same with a host that refuses the message after the first `BEHIND` ones
/// with this code.
pub fn refused(alloc: Global, words: &mut RowWords, page: &mut Page) -> Result<(), RowFault> {
    let conduct = HostBehaviour::Refuses {
        behind: words.number(),
        code: words.byte(),
    };
    let digits = words.text().as_bytes();
    let far = RefCell::new(FarEnd::new(alloc, 0, conduct));
    send_and_count(alloc, &far, digits, words, page)
}

/// `link long LENGTH MESSAGE`: over a connection comes the length of an answer of LENGTH bytes, and then the connection ends. Writes why
/// the message has no answer.
pub fn long(alloc: Global, words: &mut RowWords, page: &mut Page) -> Result<(), RowFault> {
    let Some(lengths) = lengths() else {
        return Err(RowFault::NoRow);
    };
    let head = (words.number() as u32).to_be_bytes();
    let far = RefCell::new(FarEnd::new(alloc, 0, HostBehaviour::Honest));
    let mut line = StreamBatches::new(alloc, head.as_slice(), Messages(&far), lengths);
    let outcome = line.call_all(alloc, &[], &words.bodies(alloc));
    if far.try_borrow().is_ok_and(|far| far.lacks_memory()) {
        return Err(RowFault::OutOfMemory);
    }
    write_answers(outcome, page)
}
