//! What the row programs share. They read rows of text, make the call that each row names, and write the row with the
//! call's answer. Several of them make devices and bucket servers in memory.
//!
//! A row is `CALL ARGUMENTS => ANSWER`. Lines that are empty or begin with `#` are copied. Bytes are written in
//! hexadecimal, in parts that dots separate: `ff*16` is one byte with the number of times that it occurs, a form that
//! is used from eight times on, and `-` is no bytes.

mod devices;
mod fakes;
mod groups;
mod hosts;
mod page;
mod table;
mod texts;
mod words;

pub use devices::{device_in, shown_device_in};
pub use fakes::{Pace, Source, Target, pace_in};
pub use groups::Groups;
pub use hosts::{
    NO_ROOM, flip_in, host_answer, host_of, lacks_room, put_all, show_answer, swap_in,
};
pub use page::Page;
pub use table::{RowFault, Table, run_table};
pub use texts::joined;
pub use words::RowWords;
