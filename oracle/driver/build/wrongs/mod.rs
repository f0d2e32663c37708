//! The wrong hosts: single changes that matter, each with a name.
//!
//! A site names a place in the driver's text by the function that it stands in
//! and a fragment that stands there once; each of its wrongs is what runs there
//! instead when its switch is on.

mod calls;
mod command;
mod controller;
mod data;
mod initialise;
mod types;
mod write;

#[derive(Clone, Copy, Eq, PartialEq)]
pub enum File {
    Driver,
    Types,
}

pub struct Site {
    pub file: File,
    /// The beginning of a function, which stands in the file once.
    pub within: &'static str,
    pub find: &'static str,
    pub wrongs: &'static [Wrong],
}

pub struct Wrong {
    pub name: &'static str,
    /// What is wrong, in a few words; empty where a wrong host of an earlier
    /// site needs a second change.
    pub what: &'static str,
    pub text: &'static str,
}

const fn driver(within: &'static str, find: &'static str, wrongs: &'static [Wrong]) -> Site {
    Site {
        file: File::Driver,
        within,
        find,
        wrongs,
    }
}

const fn wrong(name: &'static str, what: &'static str, text: &'static str) -> Wrong {
    Wrong { name, what, text }
}

/// Wrong hosts that live in the stubs: their code asks for the switch itself.
const STUBS: &[(&str, &str)] = &[
    (
        "remaining-in-eight-bits",
        "only the low 8 bits of the remaining count are looked at",
    ),
    ("dma-by-status", "the status is read for the DMA word"),
    ("data-big-endian", "data words are turned round as they land"),
    ("data-place-stays", "every data word is asked for as the first one"),
    ("echo-unmasked", "RESPCMD is compared with more than its low six bits"),
    ("full-host-not-restored", "the host is not as before after 22"),
    ("full-clkcr-not-restored", "CLKCR is not as before after 22"),
    ("ended-as-timeout", "a script's end gives 1"),
    ("ended-host-as-before", "a script's end leaves the host as before"),
    ("ended-closes-nothing", "no closing row is written at a script's end"),
    ("closing-full-as-ended", "a closing row without room gives 21"),
    (
        "closing-full-drops-record",
        "a closing row without room drops the record",
    ),
    ("closing-full-if-filled", "closing rows that just fill the list give 22"),
    ("fifo-before-command", "FIFO rows before the command of a write"),
    ("fifo-after-refusal", "FIFO rows also after a command that is refused"),
    ("fifo-before-dctrl", "FIFO rows before DCTRL"),
    ("fifo-after-polls", "FIFO rows after the polls"),
    (
        "fifo-as-dma-says",
        "FIFO rows as many as the first DMA word leaves over",
    ),
    ("fifo-big-endian", "the bytes of a FIFO row are turned round"),
    ("fifo-halves-exchanged", "the halves of a FIFO row are exchanged"),
    ("fifo-bytes", "a FIFO row for each byte"),
    ("fifo-first-missing", "no FIFO row for the first word"),
    ("fifo-last-missing", "no FIFO row for the last word"),
    (
        "fifo-last-of-first-block-missing",
        "no FIFO row for the first block's last word",
    ),
    ("fifo-one-more", "a FIFO row of 0 behind the last word"),
    ("fifo-first-twice", "two FIFO rows for the first word"),
    ("fifo-first-block-alone", "FIFO rows for the first block alone"),
    ("fifo-first-block-again", "every block is sent as the first one"),
    ("fifo-blocks-backwards", "the last block is sent first"),
    ("fifo-words-backwards", "the last word of a block is sent first"),
    ("fifo-without-zeros", "no FIFO row for a word of 0"),
    ("fifo-no-rows", "no FIFO row at all"),
    ("fifo-as-delay", "the words sent are rows of register 11"),
    (
        "fifo-full-accepted",
        "a FIFO row without room is no 22, and nor is any behind it",
    ),
    (
        "fifo-without-room",
        "FIFO rows without room are left out, and the call goes on",
    ),
    ("fifo-full-drops-record", "22 behind a FIFO row drops the record"),
    ("fifo-full-resets", "22 behind a FIFO row leaves CLKCR as reset rows do"),
    ("write-takes-data", "a write takes data words from the script"),
    ("write-counts-data", "the words used count the data words of a write"),
    (
        "write-gives-blocks",
        "an accepted write gives its blocks as a read does",
    ),
    (
        "book-without-blocks-refused",
        "a book with a write of no blocks gets 23",
    ),
    ("book-of-17-blocks", "a book may write 17 blocks"),
    ("book-counts-script", "a write's row counts its script alone"),
    ("book-data-behind", "a write's data stands behind its script"),
    (
        "book-data-filled-up",
        "a body shorter than its data is filled up with zeros",
    ),
];

pub fn sites() -> Vec<&'static Site> {
    let files = [
        controller::SITES,
        command::SITES,
        data::SITES,
        initialise::SITES,
        calls::SITES,
        write::SITES,
        types::SITES,
    ];
    files.into_iter().flatten().collect()
}

/// Name and meaning of every wrong host.
pub fn all() -> Vec<(&'static str, &'static str)> {
    let edits = sites().into_iter().flat_map(|site| site.wrongs);
    edits
        .filter(|wrong| !wrong.what.is_empty())
        .map(|wrong| (wrong.name, wrong.what))
        .chain(STUBS.iter().copied())
        .collect()
}
