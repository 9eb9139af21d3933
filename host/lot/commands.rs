//! The commands: what each is called with, what its help says, and the function that does it.

use crate::words::{Choice, Command};
use crate::{append, draw, house, lists, practice, van};

const LOG: Choice = Choice { name: "--log", values: &["N"], text: "the number of the log" };

const ROOM: Choice =
    Choice { name: "--room", values: &["R"], text: "for how many elements there is room, in all" };

const AT: Choice =
    Choice { name: "--at", values: &["N"], text: "the length of the log; the count unless given" };

const OUT: Choice = Choice {
    name: "-o",
    values: &["FILE"],
    text: "where the proof goes; - is standard output, and then the line goes to standard error",
};

const HANDLES: Choice = Choice {
    name: "--handles",
    values: &[],
    text: "LIST has handles, 64 hex digits a line, in rising order, and not keys",
};

const KEY: Choice = Choice {
    name: "--key",
    values: &["FILE"],
    text: "the van's present key, 32 bytes, which is overwritten",
};

/// What the commands are for, in the order of the manual, with the first of each.
pub const GROUPS: [(&str, &str); 4] = [
    ("The house", "init"),
    ("The practice", "hold"),
    ("The list of withdrawn lots", "root"),
    ("The van and the office", "seal"),
];

pub const COMMANDS: [Command; 24] = [
    Command {
        name: "init",
        words: "STORE --log N --room R",
        least: 1,
        most: 1,
        choices: &[LOG, ROOM],
        summary: "makes a file with an empty log",
        text: "The room is reserved on the disk, 65 bytes for an element. A file that is there \
               already stays as it is. Prints the log and the room: log 7, room 16.",
        run: house::init,
    },
    Command {
        name: "grow",
        words: "STORE --room R",
        least: 1,
        most: 1,
        choices: &[ROOM],
        summary: "gives a store more room",
        text: "The store gets a new file, made beside it and named STORE.growing until all of it \
               is safe. With the room that there is nothing changes; less is refused. Prints the \
               log, the room and the count.",
        run: house::grow,
    },
    Command {
        name: "append",
        words: "STORE (FILE.. | --lines FILE)",
        least: 1,
        most: usize::MAX,
        choices: &[Choice {
            name: "--lines",
            values: &["FILE"],
            text: "a file with an entry a line, without its line feed",
        }],
        summary: "enters lots, each safe on the disk when its line is printed",
        text: "An entry has 0 to 4,096 bytes; an empty file or line is one. A line for each: its \
               position, the digest T there and its name, which for a line is FILE:LINE. Files are \
               all read before the first is entered. Lines are entered as they come, and the first \
               that is refused ends it: those that were printed are in the log. A process that is \
               ended may have entered one more than it printed; lot count tells. The store holds \
               digests and not the entries: keep these, a proof is checked with its entry.",
        run: append::append,
    },
    Command {
        name: "count",
        words: "STORE",
        least: 1,
        most: 1,
        choices: &[],
        summary: "how many elements the log has",
        text: "Prints the number.",
        run: house::count,
    },
    Command {
        name: "digest",
        words: "STORE [N]",
        least: 1,
        most: 2,
        choices: &[],
        summary: "what a practice is to hold at a length",
        text:
            "Prints the length and the digest T there, at the count unless N is given. These are \
             two words of lot advance and of lot compare: lot compare HELD $(lot digest STORE).",
        run: house::digest,
    },
    Command {
        name: "audit",
        words: "STORE",
        least: 1,
        most: 1,
        choices: &[],
        summary: "computes every digest of a log anew",
        text: "Prints sound and the count, or wrong and the lowest element whose T is wrong, with \
               status 1. What an audit can't see, a log cut back to an earlier length above all, \
               only what was kept elsewhere shows: keep what lot digest prints.",
        run: house::audit,
    },
    Command {
        name: "compare-stores",
        words: "STORE1 STORE2",
        least: 2,
        most: 2,
        choices: &[],
        summary: "whether two copies of a log agree, and if not, from which byte on",
        text: "Compares the elements, not the room behind them. Prints equal; or first shorter or \
               second shorter, where that one is the start of the other; or differ, the first \
               element that differs and the first of its 64 bytes that does, counted from 0: below \
               32 it is in d, else in T; or refused and the number; or unread. The status is 0 if \
               they are equal and 1 if not, 1 too for two logs (26), 3 for damage (1) and 2 for \
               unread; the meaning of a refusal is told on standard error.",
        run: house::compare_stores,
    },
    Command {
        name: "prove",
        words: "STORE I [--at N] -o FILE",
        least: 2,
        most: 2,
        choices: &[AT, OUT],
        summary: "makes the proof that an entry is element I",
        text:
            "For lot verify, with the entry. Prints the element, the length and the bytes of the \
             proof.",
        run: house::prove,
    },
    Command {
        name: "prove-growth",
        words: "STORE FROM [--at N] -o FILE",
        least: 2,
        most: 2,
        choices: &[AT, OUT],
        summary: "makes the proof that the log of FROM elements has grown to N",
        text: "For lot advance, of a practice that holds the log at FROM, which is 0 at first. \
               Prints the two lengths and the bytes of the proof.",
        run: house::prove_growth,
    },
    Command {
        name: "hold",
        words: "HELD --log N",
        least: 1,
        most: 1,
        choices: &[LOG],
        summary: "makes a file with what a practice holds before anything was proved to it",
        text: "A file that is there already stays as it is. Prints what lot show does.",
        run: practice::hold,
    },
    Command {
        name: "show",
        words: "HELD",
        least: 1,
        most: 1,
        choices: &[],
        summary: "what a practice holds",
        text: "Prints the log, the count, the digest and which rows are in use.",
        run: practice::show,
    },
    Command {
        name: "advance",
        words: "HELD N DIGEST PROOF",
        least: 4,
        most: 4,
        choices: &[],
        summary: "checks that the log has only grown to N, and holds it from then on",
        text: "Only if the proof is accepted the held file is replaced, whole: the new one is \
               written beside it as HELD.saving, flushed, and renamed. Otherwise it stays as it \
               is, and the line says where the proof broke. If another process has replaced it \
               meanwhile, nothing is done.",
        run: practice::advance,
    },
    Command {
        name: "verify",
        words: "(HELD I ENTRY PROOF | I ENTRY PROOF --at N --digest HEX)",
        least: 3,
        most: 4,
        choices: &[
            Choice {
                name: "--at",
                values: &["N"],
                text: "the length, in the place of the held one",
            },
            Choice { name: "--digest", values: &["HEX"], text: "the digest there, likewise" },
        ],
        summary: "checks that an entry is element I of the log",
        text: "ENTRY and PROOF are files. Accepted is exactly what the rules of the log accept; \
               otherwise the line says why, and where the proof broke.",
        run: practice::verify,
    },
    Command {
        name: "compare",
        words: "HELD N DIGEST",
        least: 3,
        most: 3,
        choices: &[],
        summary: "whether another practice was told the same",
        text: "N and DIGEST are what the other holds. Prints same, or different with status 1: \
               then the house has shown two logs, and both practices should keep all that they \
               have. N must be the held count, or a length whose digest is among the held rows.",
        run: practice::compare,
    },
    Command {
        name: "dispute",
        words: "I N DIGEST ENTRY1 PROOF1 ENTRY2 PROOF2 -o A B",
        least: 7,
        most: 7,
        choices: &[Choice {
            name: "-o",
            values: &["A", "B"],
            text: "where the two messages go, if there are any",
        }],
        summary: "what two accepted proofs for one position, length and digest lead to",
        text: "Prints same if entries and proofs are the same byte for byte. Otherwise, with \
               status 1, it writes two different messages that have one SHA-256, and prints how \
               anyone can see that.",
        run: practice::dispute,
    },
    Command {
        name: "draw",
        words: "I N [DIGEST ENTRY PROOF]",
        least: 2,
        most: 5,
        choices: &[],
        summary: "draws the path from element I to N, and where a proof breaks",
        text: "A line for each component of the proof, with its bytes and its links, and one for \
               each hop between them; the link that the hop follows is in brackets. With a proof \
               the last line is that of lot verify.",
        run: draw::draw,
    },
    Command {
        name: "root",
        words: "LIST [--handles]",
        least: 1,
        most: 1,
        choices: &[HANDLES],
        summary: "the root of a list of keys",
        text:
            "LIST has a key a line, in any order, at most 1,000 of 0 to 4,096 bytes. A key twice \
             is refused, and so is space around a key, since a key with it is another key. Prints \
             the root.",
        run: lists::root,
    },
    Command {
        name: "absent",
        words: "LIST KEY -o FILE [--handles]",
        least: 2,
        most: 2,
        choices: &[OUT, HANDLES],
        summary: "makes the proof that a key is not in the list",
        text: "Refused with 15 and status 1 if it is. KEY is the word itself.",
        run: lists::absent,
    },
    Command {
        name: "present",
        words: "LIST KEY -o FILE [--handles]",
        least: 2,
        most: 2,
        choices: &[OUT, HANDLES],
        summary: "makes the proof that a key is in the list",
        text: "Refused with 15 and status 1 if it is not. KEY is the word itself.",
        run: lists::present,
    },
    Command {
        name: "verify-absent",
        words: "ROOT KEY PROOF",
        least: 3,
        most: 3,
        choices: &[],
        summary: "checks that a key is not in the list with this root",
        text: "A key is bytes: that ar-30972 is absent says nothing of AR-30972.",
        run: lists::verify_absent,
    },
    Command {
        name: "verify-present",
        words: "ROOT KEY PROOF",
        least: 3,
        most: 3,
        choices: &[],
        summary: "checks that a key is in the list with this root",
        text: "PROOF is a file, ROOT 64 hex digits.",
        run: lists::verify_present,
    },
    Command {
        name: "seal",
        words: "LOG --key FILE --type T DATA",
        least: 2,
        most: 2,
        choices: &[
            KEY,
            Choice {
                name: "--type",
                values: &["T"],
                text: "the entry's type, below 2^32 and not 1",
            },
        ],
        summary: "seals an entry behind a van's log",
        text:
            "DATA is a file of 0 to 4,096 bytes. LOG is made if it is not there; the key is A(0) \
             then. When the entry is safe on the disk the key is overwritten with the next one. A \
             command that is cut off in between is finished by the next. LOG is replaced whole, as \
             LOG.saving until all of it is safe. Keep the key's file in memory (a file system such \
             as /run): a disk keeps what is overwritten.",
        run: van::seal,
    },
    Command {
        name: "seal-close",
        words: "LOG --key FILE [DATA]",
        least: 1,
        most: 2,
        choices: &[KEY],
        summary: "seals the last entry of a van's log, and overwrites the key with zeros",
        text: "Nothing can be sealed behind it. Close a log before the van is out of your hands.",
        run: van::seal_close,
    },
    Command {
        name: "seal-check",
        words: "LOG --first-key FILE",
        least: 1,
        most: 1,
        choices: &[Choice {
            name: "--first-key",
            values: &["FILE"],
            text: "the key that the van began with, 32 bytes",
        }],
        summary: "checks a van's whole log",
        text: "Accepted if every entry is sealed as the van would have and the last one alone \
               closes. Otherwise the line says which entry, from 0, is the first wrong one, or \
               that none closes.",
        run: van::seal_check,
    },
];
