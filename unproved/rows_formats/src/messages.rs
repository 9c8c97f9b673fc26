//! The messages that go to the bucket host, and its answers.

use oram_bytes::Bytes;
use oram_wire::{
    HostAnswer, HostRequest, HostView, ListSink, WireFault, fetch_header, store_header,
};
use rows::{Page, RowFault, RowWords, put_all, show_answer};
use std::alloc::Global;

/// Ends a row that reads a body and writes what was read. A fault is written instead, unless memory ran out.
pub fn end_reading(page: &mut Page, read: Result<(), WireFault>) -> Result<(), RowFault> {
    match read {
        Ok(()) => {}
        Err(WireFault::OutOfMemory) => return Err(RowFault::OutOfMemory),
        Err(fault) => page.show(&fault),
    }
    Ok(())
}

/// Reads a request from words, in the form in which `write_view` writes it.
fn request_in(alloc: Global, words: &mut RowWords) -> Result<HostRequest, RowFault> {
    match words.text() {
        "fetch" => Ok(HostRequest::Fetch {
            tree: words.byte(),
            leaf: words.short(),
        }),
        "store" => Ok(HostRequest::Store {
            tree: words.byte(),
            leaf: words.short(),
            records: Bytes::from_vec(words.bytes(alloc)),
        }),
        "put" => Ok(HostRequest::Put {
            tree: words.byte(),
            node: words.short(),
            bytes: Bytes::from_vec(words.bytes(alloc)),
        }),
        "shape" => Ok(HostRequest::Shape {
            tree: words.byte(),
            depth: words.byte(),
            record_len: words.short(),
        }),
        _ => Err(RowFault::NoRow),
    }
}

/// Returns the request with its bytes lent.
fn view_of(request: &HostRequest) -> HostView<'_> {
    match request {
        HostRequest::Fetch { tree, leaf } => HostView::Fetch {
            tree: *tree,
            leaf: *leaf,
        },
        HostRequest::Store {
            tree,
            leaf,
            records,
        } => HostView::Store {
            tree: *tree,
            leaf: *leaf,
            records: records.as_slice(),
        },
        HostRequest::Put { tree, node, bytes } => HostView::Put {
            tree: *tree,
            node: *node,
            bytes: bytes.as_slice(),
        },
        HostRequest::Shape {
            tree,
            depth,
            record_len,
        } => HostView::Shape {
            tree: *tree,
            depth: *depth,
            record_len: *record_len,
        },
    }
}

/// Writes a name, a tree and a number.
fn write_place(page: &mut Page, name: &str, tree: u8, number: u32) {
    page.word(name);
    page.number(tree);
    page.number(number);
}

/// Writes a request: its name, its numbers and its bytes.
fn write_view(page: &mut Page, view: HostView<'_>) {
    match view {
        HostView::Fetch { tree, leaf } => write_place(page, "fetch", tree, leaf),
        HostView::Store {
            tree,
            leaf,
            records,
        } => {
            write_place(page, "store", tree, leaf);
            page.bytes(records);
        }
        HostView::Put { tree, node, bytes } => {
            write_place(page, "put", tree, node);
            page.bytes(bytes);
        }
        HostView::Shape {
            tree,
            depth,
            record_len,
        } => {
            write_place(page, "shape", tree, depth.into());
            page.number(record_len);
        }
    }
}

/// `host write REQUEST`: writes the body of a request.
fn write(alloc: Global, words: &mut RowWords, page: &mut Page) -> Result<(), RowFault> {
    let request = request_in(alloc, words)?;
    page.bytes(&request.encode(alloc)?);
    Ok(())
}

/// `host read BODY`, `host view BODY` and `host answered BODY`: reads a body as a request, as a view of one, which has the
/// body's own bytes, or as an answer, and writes it.
fn read(alloc: Global, name: &str, body: &[u8], page: &mut Page) -> Result<(), WireFault> {
    match name {
        "read" => write_view(page, view_of(&HostRequest::decode(alloc, body)?)),
        "view" => write_view(page, HostView::read(body)?),
        _ => show_answer(&HostAnswer::decode(alloc, body)?, page),
    }
    Ok(())
}

/// `host heads TREE LEAF`: writes the body of a fetch of this path, and the beginning of a store to it.
fn heads(words: &mut RowWords, page: &mut Page) -> Result<(), RowFault> {
    let tree = words.byte();
    let leaf = words.short();
    page.bytes(&fetch_header(tree, leaf));
    page.bytes(&store_header(tree, leaf));
    Ok(())
}

/// `host done`: writes the body of the answer `done`.
fn done(alloc: Global, page: &mut Page) -> Result<(), RowFault> {
    page.bytes(&HostAnswer::Done.encode(alloc)?);
    Ok(())
}

/// `host refused CODE`: writes the body of a refusal.
fn refused(alloc: Global, words: &mut RowWords, page: &mut Page) -> Result<(), RowFault> {
    let code = words.byte();
    if code == 0 || code > 8 {
        return Err(RowFault::NoRow);
    }
    page.bytes(&HostAnswer::Refused(code).encode(alloc)?);
    Ok(())
}

/// `host records BYTES`: writes the body of an answer with these records.
fn records(alloc: Global, words: &mut RowWords, page: &mut Page) -> Result<(), RowFault> {
    let bytes = Bytes::from_vec(words.bytes(alloc));
    if bytes.is_empty() {
        return Err(RowFault::NoRow);
    }
    page.bytes(&HostAnswer::Payload(bytes).encode(alloc)?);
    Ok(())
}

/// `host kept BODIES`: puts the bodies into a list. Writes how many it keeps, and which.
fn kept(alloc: Global, words: &mut RowWords, page: &mut Page) -> Result<(), RowFault> {
    let mut sink = ListSink::new(alloc);
    put_all(&mut sink, &words.bodies(alloc))?;
    page.number(sink.bodies().len());
    for body in sink.bodies() {
        page.bytes(body);
    }
    Ok(())
}

/// Answers a row about the host's messages.
pub fn answer(
    alloc: Global,
    name: &str,
    words: &mut RowWords,
    page: &mut Page,
) -> Result<(), RowFault> {
    match name {
        "write" => write(alloc, words, page),
        "read" | "view" | "answered" => {
            let body = words.bytes(alloc);
            let read = read(alloc, name, &body, page);
            end_reading(page, read)
        }
        "heads" => heads(words, page),
        "done" => done(alloc, page),
        "refused" => refused(alloc, words, page),
        "records" => records(alloc, words, page),
        "kept" => kept(alloc, words, page),
        _ => Err(RowFault::NoRow),
    }
}
