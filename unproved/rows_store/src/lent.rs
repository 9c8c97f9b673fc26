//! Files that are lent to a store, which fail from some call on, or whose log has little room.
use oram_redo::{FileKind, FilePair, RedoError};

/// Files that are lent to a store.
#[derive(Drop)]
pub struct FailingFiles<'a, F: FilePair> {
    pub files: &'a mut F,
    /// How many more calls the files answer. After that, each call fails.
    pub calls: u64,
    /// The place up to which the log has room.
    pub log_room: u64,
}

impl<F: FilePair> FailingFiles<'_, F> {
    /// Returns whether a write of `len` bytes finds room.
    fn has_room(&self, file: FileKind, at: u64, len: usize) -> bool {
        file == FileKind::Records || at.saturating_add(len as u64) <= self.log_room
    }
}

impl<F: FilePair> FilePair for FailingFiles<'_, F> {
    // Any call may be one too many, and any write may find no room.
    ghost model = { record {
      seen = λ l. F.model.seen l.files.now;
      may_leave = λ l. F.model.may_leave l.files.now;
      moment = λ l. F.model.moment l.files.now;
      left_since = λ l. F.model.left_since l.files.now;
      is_honest = λ l. F.model.is_honest l.files.now;
      failures = λ l n. Unit {0};
      shortages = λ l n. Unit {0};
    } };

    ghost counts_now = { λ l t c le now. F.counts_now l.files.now t c le now };

    ghost whole = { λ l. F.whole l.files.now };

    ghost only_now = { λ l c left. F.only_now l.files.now c left };

    fn read_onto(
        &mut self,
        file: FileKind,
        at: u64,
        len: usize,
        bytes: &mut Vec<u8>,
    ) -> Result<(), RedoError> {
        let Some(calls) = self.calls.checked_sub(1) else {
            return Err(RedoError::Failed);
        };
        self.calls = calls;
        self.files.read_onto(file, at, len, bytes)
    }

    fn write_at(&mut self, file: FileKind, at: u64, bytes: &[u8]) -> Result<(), RedoError> {
        let Some(calls) = self.calls.checked_sub(1) else {
            return Err(RedoError::Failed);
        };
        self.calls = calls;
        if !self.has_room(file, at, bytes.len()) {
            return Err(RedoError::NoRoom);
        }
        self.files.write_at(file, at, bytes)
    }

    fn sync(&mut self, file: FileKind) -> Result<(), RedoError> {
        let Some(calls) = self.calls.checked_sub(1) else {
            return Err(RedoError::Failed);
        };
        self.calls = calls;
        self.files.sync(file)
    }

    fn write_front(&mut self, file: FileKind, at: u64, bytes: &[u8]) -> Result<(), RedoError> {
        let Some(calls) = self.calls.checked_sub(1) else {
            return Err(RedoError::Failed);
        };
        self.calls = calls;
        self.files.write_front(file, at, bytes)
    }

    fn errno(&self) -> Option<i32> {
        self.files.errno()
    }
}
