//! The settings of a disk.

use crate::tables::read_or_bad;
use oram_geometry::Device;
use oram_settings::{
    DiskSettings, FixedKey, Sealing, device_of, disk_text, first_difference, near_len, near_levels,
    overhead_of, read_disk_settings, value_text,
};
use rows::{Page, RowFault, RowWords};
use std::alloc::Global;

/// `disk TEXT`: writes the settings in a document: size, block, slots, leaf load, table, sealer, near, key, host, listen, state,
/// sync and the reconnect timeout.
pub fn disk(alloc: Global, words: &mut RowWords, page: &mut Page) -> Result<(), RowFault> {
    let text = words.lines(alloc);
    put_settings(alloc, text.as_str(), page)
}

/// Reads settings, and writes them.
fn put_settings(alloc: Global, text: &str, page: &mut Page) -> Result<(), RowFault> {
    let Some(settings) = read_or_bad(read_disk_settings(alloc, text), page)? else {
        return Ok(());
    };
    put_numbers(&settings, page);
    put_names(&settings, page);
    Ok(())
}

fn put_numbers(settings: &DiskSettings, page: &mut Page) {
    page.number(settings.size);
    page.number(settings.block);
    page.number(settings.slots);
    page.number(settings.leaf_load);
    page.number(settings.table);
    page.word(match settings.sealer {
        Sealing::Plain => "plain",
        Sealing::ChaCha => "chacha",
    });
    page.number(settings.near);
    page.bytes(&settings.key);
}

fn put_names(settings: &DiskSettings, page: &mut Page) {
    page.word(settings.host.as_str());
    page.word(settings.listen.as_str());
    page.word(settings.state.as_str());
    page.flag(settings.sync);
    page.number(settings.reconnect_timeout);
}

/// Reads SIZE BLOCK SLOTS LEAF-LOAD TABLE, and returns the device of such a disk, if there is one.
pub fn device_in(words: &mut RowWords) -> Option<Device> {
    let size = words.number();
    let block = words.number();
    let slots = words.number();
    let leaf_load = words.number();
    device_of(size, block, slots, leaf_load, words.number())
}

/// `device SIZE BLOCK SLOTS LEAF-LOAD TABLE`: writes how many trees and blocks the device of such a disk has, and the depth of its
/// first tree.
pub fn device(words: &mut RowWords, page: &mut Page) -> Result<(), RowFault> {
    let Some(device) = device_in(words) else {
        page.word("none");
        return Ok(());
    };
    if device.trees() == 0 {
        return Err(RowFault::NoRow);
    }
    page.number(device.trees());
    page.number(device.blocks_in(0));
    page.number(device.depth(0));
    Ok(())
}

/// Returns the text of a new disk's settings, with the settings that it has only as comments set too.
fn all_set(alloc: Global, text: &str) -> Result<String, RowFault> {
    let mut all = String::new(alloc);
    for line in text.lines() {
        let line = match line.strip_prefix("# ") {
            Some(rest) if rest.contains(" = ") => rest,
            _ => line,
        };
        all.push_str(line)?;
        all.push('\n')?;
    }
    Ok(all)
}

/// `first-settings SIZE KEY`: reads the text of a new disk's settings, and writes the settings in it. `first-settings-set SIZE
/// KEY`: does so with the settings that the text has only as comments set too.
pub fn first_settings(
    alloc: Global,
    call: &str,
    words: &mut RowWords,
    page: &mut Page,
) -> Result<(), RowFault> {
    let size = words.number();
    let key = words.array(alloc);
    let mut text = disk_text(alloc, size, &key)?;
    if call == "first-settings-set" {
        text = all_set(alloc, text.as_str())?;
    }
    put_settings(alloc, text.as_str(), page)
}

fn sealing_in(words: &mut RowWords) -> Result<Sealing, RowFault> {
    match words.text() {
        "plain" => Ok(Sealing::Plain),
        "chacha" => Ok(Sealing::ChaCha),
        _ => Err(RowFault::NoRow),
    }
}

/// `near SIZE BLOCK SLOTS LEAF-LOAD TABLE SEALER BYTES`: writes how many near levels such a disk has if its near records may have so
/// many bytes, and how many bytes they have.
pub fn near(words: &mut RowWords, page: &mut Page) -> Result<(), RowFault> {
    let Some(device) = device_in(words) else {
        return Err(RowFault::NoRow);
    };
    let overhead = overhead_of(sealing_in(words)?);
    let levels = near_levels(&device, overhead, words.number());
    page.number(levels);
    page.number(near_len(&device, overhead, levels));
    Ok(())
}

/// `differs SIZE BLOCK SLOTS LEAF-LOAD TABLE SEALER NEAR SIZE BLOCK SLOTS LEAF-LOAD TABLE SEALER LEVELS`: writes the first key at
/// which settings differ from those with which a disk was formatted, and what it was then. The disk has LEVELS near levels.
pub fn differs(alloc: Global, words: &mut RowWords, page: &mut Page) -> Result<(), RowFault> {
    let settings = DiskSettings {
        size: words.number(),
        block: words.number(),
        slots: words.number(),
        leaf_load: words.number(),
        table: words.number(),
        sealer: sealing_in(words)?,
        near: words.number(),
        key: [0; 32],
        host: String::new(alloc),
        listen: String::new(alloc),
        state: String::new(alloc),
        sync: false,
        reconnect_timeout: 1,
    };
    let Some(device) = device_in(words) else {
        return Err(RowFault::NoRow);
    };
    let sealing = sealing_in(words)?;
    let levels = words.byte();
    match first_difference(&settings, &device, sealing, levels) {
        Some(key) => put_difference(alloc, key, &device, sealing, levels, page),
        None => {
            page.word("none");
            Ok(())
        }
    }
}

/// Writes a key of the settings, and what it was when a disk was formatted.
fn put_difference(
    alloc: Global,
    key: FixedKey,
    device: &Device,
    sealing: Sealing,
    levels: u8,
    page: &mut Page,
) -> Result<(), RowFault> {
    if device.depth(0) < levels {
        return Err(RowFault::NoRow);
    }
    let name = format!(in alloc; "{key}")?;
    page.word(name.as_str());
    let was = value_text(alloc, key, device, sealing, levels)?;
    page.word(was.as_str());
    Ok(())
}
