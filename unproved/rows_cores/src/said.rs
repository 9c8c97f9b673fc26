//! Writes what a core says, in words.

use oram_semantics::{Note, Reaction, Reason, Refusal, Reply, ReplyBody};
use rows::{Page, RowFault, RowWords};

/// Returns the name of a refusal.
pub fn refusal_name(refusal: Refusal) -> &'static str {
    match refusal {
        Refusal::BadAddress => "address",
        Refusal::BadLength => "length",
        Refusal::BadWords => "words",
        Refusal::Busy => "busy",
        Refusal::Exhausted => "exhausted",
        Refusal::Failed => "failed",
    }
}

/// Writes a reason: `malformed`, `tampered TREE LEVEL` or `host CODE`.
pub fn show_reason(reason: Reason, page: &mut Page) {
    match reason {
        Reason::Malformed => page.word("malformed"),
        Reason::Tampered(tree, level) => {
            page.word("tampered");
            page.number(tree);
            page.number(level);
        }
        Reason::HostRefused(code) => {
            page.word("host");
            page.number(code);
        }
    }
}

/// Writes a note.
fn show_note(note: Note, page: &mut Page) {
    page.part();
    match note {
        Note::Accepted(ticket) => {
            page.word("accepted");
            page.number(ticket);
        }
        Note::Refused(refusal) => {
            page.word("refused");
            page.number(refusal.number());
            page.word(refusal_name(refusal));
        }
        Note::Taken => page.word("taken"),
        Note::Stalled => page.word("stalled"),
        Note::FailedNow(reason) => {
            page.word("failed");
            show_reason(reason, page);
        }
        Note::Resent => page.word("resent"),
        Note::Unexpected => page.word("unexpected"),
    }
}

/// Writes a reply: its session, its ticket and its body.
fn show_reply(reply: &Reply, page: &mut Page) {
    page.part();
    page.word("reply");
    page.number(reply.session);
    page.number(reply.ticket);
    match &reply.body {
        ReplyBody::Data(data) => {
            page.word("data");
            page.bytes(data.as_slice());
        }
        ReplyBody::Done => page.word("done"),
        ReplyBody::Failed => page.word("failed"),
    }
}

/// Writes a message to the host: its kind, its tree and its leaf.
pub fn show_message(message: &[u8], page: &mut Page) {
    page.part();
    let [op, tree, a, b, c, d, ..] = message else {
        page.word("short");
        return;
    };
    page.word(match op {
        1 => "fetch",
        2 => "store",
        _ => "other",
    });
    page.number(*tree);
    page.number(u32::from_be_bytes([*a, *b, *c, *d]));
}

/// Writes the replies and messages of a reaction.
fn show_rest(reaction: &Reaction, page: &mut Page) {
    for reply in &reaction.replies {
        show_reply(reply, page);
    }
    for message in &reaction.sends {
        show_message(message.as_slice(), page);
    }
}

/// Writes a reaction: its note, its replies and its messages.
pub fn show_reaction(reaction: &Reaction, page: &mut Page) {
    show_note(reaction.note, page);
    show_rest(reaction, page);
}

/// Writes a reaction to one of many answers. Its note is left out if the answer was taken.
pub fn show_answered(reaction: &Reaction, page: &mut Page) {
    if reaction.note != Note::Taken {
        show_note(reaction.note, page);
    }
    show_rest(reaction, page);
}

/// Reads a reason from words.
pub fn reason_of(words: &mut RowWords) -> Result<Reason, RowFault> {
    match words.text() {
        "malformed" => Ok(Reason::Malformed),
        "tampered" => Ok(Reason::Tampered(words.byte(), words.byte())),
        "host" => Ok(Reason::HostRefused(words.byte())),
        _ => Err(RowFault::NoRow),
    }
}
