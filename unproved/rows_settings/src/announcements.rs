//! What `oramdisk` prints when all goes well, the amounts in it, and what it prints about a wrong settings file.

use crate::disks::device_in;
use oram_cli::InputFault;
use oram_settings::{
    Sealing, amount_text, begun_text, counted, disk_complaint, host_complaint, hosting_text,
    made_text, numbers_complaint, read_disk_settings, serving_text, size_mistake, size_text,
    stored_bytes,
};
use rows::{Page, RowFault, RowWords};
use std::alloc::Global;

/// `says amount BYTES`, `says size BYTES`, `says no-size TEXT`, `says counted COUNT NAME`, `says stored SIZE BLOCK SLOTS LEAF-LOAD
/// TABLE SEALER`, `says made FOLDER SIZE STORED NEAR`, `says begun STORED`, `says hosting FILE LISTEN`, `says serving SIZE URI`, and,
/// about the text of a file, `says bad-disk NAME TEXT`, `says bad-host NAME TEXT` and `says bad-numbers NAME TEXT`: writes
/// what `oramdisk` prints.
pub fn says(alloc: Global, words: &mut RowWords, page: &mut Page) -> Result<(), RowFault> {
    let kind = words.text();
    let text = match kind {
        "amount" => amount_text(alloc, words.number())?,
        "size" => size_text(alloc, words.number())?,
        "counted" => counted(alloc, words.number(), words.text())?,
        "stored" => amount_text(alloc, stored(words)?)?,
        "no-size" => size_mistake(alloc, words.all())?,
        "made" => made_text(
            alloc,
            words.text(),
            words.number(),
            words.number(),
            words.number(),
        )?,
        "begun" => begun_text(alloc, words.number())?,
        "hosting" => hosting_text(alloc, words.text(), words.text())?,
        "serving" => serving_text(alloc, words.number(), words.text())?,
        "bad-disk" => disk_complaint(alloc, words.text(), words.lines(alloc).as_str())?,
        "bad-host" => host_complaint(alloc, words.text(), words.lines(alloc).as_str())?,
        "bad-numbers" => bad_numbers(alloc, words.text(), words.lines(alloc).as_str())?,
        _ => return Err(RowFault::NoRow),
    };
    page.lines(text.as_str());
    Ok(())
}

/// Returns what is wrong with the numbers of a disk's settings, whose text can be read.
fn bad_numbers(alloc: Global, name: &str, text: &str) -> Result<String, RowFault> {
    match read_disk_settings(alloc, text) {
        Ok(settings) => Ok(numbers_complaint(alloc, name, text, &settings)?),
        Err(InputFault::Bad) => Err(RowFault::NoRow),
        Err(InputFault::OutOfMemory) => Err(RowFault::OutOfMemory),
    }
}

/// Returns how many bytes a disk with these settings takes at its host.
fn stored(words: &mut RowWords) -> Result<u64, RowFault> {
    let Some(device) = device_in(words) else {
        return Err(RowFault::NoRow);
    };
    match words.text() {
        "plain" => Ok(stored_bytes(&device, Sealing::Plain)),
        "chacha" => Ok(stored_bytes(&device, Sealing::ChaCha)),
        _ => Err(RowFault::NoRow),
    }
}
