//! How the command is used: the commands with their forms, what each does, and every exit
//! status that it can give, in words.

use crate::arguments::{Arguments, quoted};
use crate::say::print;
use crate::trouble::{STATUSES, Trouble};
use crate::{calls, check, count, draw, lookup, search, settle, show, stat};
use isis::Refusal;
use std::ffi::OsStr;

/// A command.
pub struct Verb {
    /// Its name.
    pub name: &'static str,
    /// What does its work.
    pub run: fn(Arguments) -> Result<(), Trouble>,
    /// What it works on.
    on: On,
    /// What stands behind that, and what it does then.
    forms: &'static [(&'static str, &'static str)],
    /// What else is to be known.
    more: &'static str,
    /// The numbers of its refusals.
    refusals: &'static [u32],
}

/// What a command works on.
struct On {
    /// How that is named.
    names: &'static str,
    /// What these names are, if it is to be said.
    about: &'static str,
}

const CARD: On = On {
    names: "MST XRF",
    about: "",
};

const INDEX: On = On {
    names: "NAME",
    about: "\
NAME is what the five files of a search index have in common: NAME.CNT, NAME.N01, NAME.L01,
NAME.N02 and NAME.L02. An ending may be in capitals or in small letters; where a file is there in
both, CNT is taken in capitals and the others as CNT is. The files are only read; they may have
512 MB in all.
",
};

const POSTINGS: On = On {
    names: "NAME",
    about: SIX,
};

const SEARCH: On = On {
    names: "NAME MST XRF",
    about: SIX,
};

const SIX: &str = "\
NAME is what the six files of a search index have in common: those of 'card lookup', and the
postings file, NAME.IFP, whose ending is taken as the others are. They are only read; they may
have 512 MB in all.
";

/// What the overview says of them behind the five.
const POSTINGS_BESIDE: &str = "The postings file beside them is NAME.IFP.\n";

const FIELDS: &str = "\
A FIELD is TAG=TEXT, with a tag from 1 to 32767. TAG=@FILE takes the bytes of a file, of which no
more are read than a record can hold; TAG=@@TEXT is a text that begins with an @. The word --empty
in place of the fields makes a record without any.
";

/// Every command.
pub const VERBS: [Verb; 16] = [
    Verb {
        name: "format",
        run: calls::format,
        on: CARD,
        forms: &[
            ("BLOCKS BLOCKS", "make both files, empty, of so many blocks"),
            ("--erase", "empty the catalogue in two files that exist"),
        ],
        more: "A block has 512 bytes. An MST has 1 to 1048575 of them, an XRF 1 to 4096; an XRF block holds\n\
               127 MFNs.\n",
        refusals: &[1],
    },
    Verb {
        name: "show",
        run: show::show,
        on: CARD,
        forms: &[
            ("[MFN]", "show a record, or all"),
            (
                "MFN TAG [OCC]",
                "show one of its fields, the first of a tag or OCC",
            ),
        ],
        more: "A record is shown with its state and its fields; under a pending change, its settled version\n\
               too. What is no printable text is shown as \\xNN for each byte, and a backslash as two. Where\n\
               all are shown, the status is that of the first record that is not well formed.\n\
               One field is shown with which of how many it is, as in '70  1 of 2: Blake'. Of a field that is\n\
               not there it is told whether the record has no field of this tag (12), or has some, and how\n\
               many, but no OCC of them (15); occurrences count from 1.\n\
               Of a record that is not well formed (8) it is told what is broken, as by 'card check'.\n",
        refusals: &[1, 2, 4, 6, 7, 8, 9, 12, 15],
    },
    Verb {
        name: "create",
        run: calls::create,
        on: CARD,
        forms: &[("FIELD...", "write a new record, pending, and print its MFN")],
        more: FIELDS,
        refusals: &[1, 2, 3, 5, 6, 13],
    },
    Verb {
        name: "update",
        run: calls::update,
        on: CARD,
        forms: &[(
            "MFN FIELD...",
            "replace all fields of a record; this is pending",
        )],
        more: FIELDS,
        refusals: &[1, 2, 3, 4, 6, 7, 8, 9, 13],
    },
    Verb {
        name: "delete",
        run: calls::delete,
        on: CARD,
        forms: &[("MFN", "delete a record; this is pending")],
        more: "",
        refusals: &[1, 2, 4, 6, 7, 8, 9, 13],
    },
    Verb {
        name: "settle",
        run: settle::settle,
        on: CARD,
        forms: &[(
            "MFN...",
            "make pending changes final: the index is up to date",
        )],
        more: "Each MFN may be a number, a range like 3-17, or the word all, for every record on which something\n\
               is pending. They are settled in order, and both files are replaced once for all of them. Where\n\
               several are named, a refused one has its line, the others are settled, and the status is that\n\
               of the first refusal.\n",
        refusals: &[1, 2, 4, 6, 7, 8, 10],
    },
    Verb {
        name: "revert",
        run: calls::revert,
        on: CARD,
        forms: &[("MFN", "take a pending change back")],
        more: "",
        refusals: &[1, 2, 4, 6, 7, 8, 10, 11],
    },
    Verb {
        name: "check",
        run: check::check,
        on: CARD,
        forms: &[("", "check the whole store and say what is wrong")],
        more: "The first cause is named, and then what is independent of it. Of a record it is told whether its\n\
               leader is broken, or which entry of its directory is the first that is, counted from 1:\n    \
               MFN 7: directory entry 3: POS is 40, 38 was expected (record at MST byte 530)\n\
               Of a card on which nothing but RECCNT is wrong, that is told; see 'card help recount'.\n",
        refusals: &[1, 2, 14],
    },
    Verb {
        name: "stat",
        run: stat::stat,
        on: CARD,
        forms: &[("", "count the records and draw the space")],
        more: "Where RECCNT is not the number of live records, it stands beside that; see 'card help recount'.\n",
        refusals: &[1, 2, 14],
    },
    Verb {
        name: "draw",
        run: draw::draw,
        on: CARD,
        forms: &[("[SVG] [--replace]", "draw the layout of the card")],
        more: "Without SVG, or with -, the picture goes to standard output. A link is followed; what is no plain\n\
               file is written to as it is. A file that is there already is replaced if it is such a picture,\n\
               any other with --replace, and a file of the card never.\n",
        refusals: &[1, 2],
    },
    Verb {
        name: "migrate",
        run: calls::migrate,
        on: CARD,
        forms: &[("", "bring an old card up to date")],
        more: "Cards of earlier versions have the offset of the end in NXTMFP, MST bytes 12 and 13; now the offset\n\
               plus 1 stands there, as desktop programs write it. A migration adds the 1 and changes nothing else.\n\
               An old card is refused by every other command but format, with a word about this one; a card\n\
               that is no old one is refused here.\n",
        refusals: &[1, 2],
    },
    Verb {
        name: "recount",
        run: count::recount,
        on: CARD,
        forms: &[("", "write how many records there are")],
        more: "RECCNT, MST bytes 16 to 19, is how many records are neither deleted nor gone, as the desktop's\n\
               statistics page reads it. Every command keeps it. A card that was formatted by an earlier version\n\
               holds 0 there, others may hold anything; 'card check' (14) and 'card stat' say so. A recount\n\
               writes it, tells the number before and after, and changes nothing else. It is refused (14) where\n\
               something else keeps the card from being sound. As long as it is not recounted, 'card delete' is\n\
               refused (2) at 0 or below, and 'card create' and 'card revert' are at 2147483647; all else works.\n",
        refusals: &[1, 2, 14],
    },
    Verb {
        name: "lookup",
        run: lookup::lookup,
        on: INDEX,
        forms: &[("TERM...", "look terms up in a search index")],
        more: "For each term a line says where its postings begin in the postings file (IFP):\n    \
               KITE: block 3, word 12\n\
               A term has 1 to 30 bytes and no space at its end. It is compared with the keys byte by byte, as they\n\
               stand; most indexes hold capitals. Where several are named, a refused one has its line too, and the\n\
               status is that of the first.\n",
        refusals: &[20, 21, 22],
    },
    Verb {
        name: "check-index",
        run: lookup::check_index,
        on: INDEX,
        forms: &[("", "check a whole search index and say what is wrong")],
        more: "Of an index that is sound the terms of each tree are counted; of any other the first broken rule\n\
               is named.\n",
        refusals: &[21],
    },
    Verb {
        name: "postings",
        run: search::postings,
        on: POSTINGS,
        forms: &[("TERM", "show where a term occurs")],
        more: "A line says where the term's list begins in the postings file and how many postings it has. Then\n\
               each has its own, in stored order: the record, the field, the occurrence of the field, and the\n\
               term's number in it:\n    \
               KITE: block 3, word 12, 1 posting\n      \
               MFN 1, field 24, occurrence 1, term 2\n\
               Of a list that is not right the first broken rule is named.\n",
        refusals: &[20, 21, 22, 23],
    },
    Verb {
        name: "search",
        run: search::search,
        on: SEARCH,
        forms: &[(
            "TERM... --and|--or",
            "show the records that have all or any of some terms",
        )],
        more: "The records are shown as 'card show' shows them, in the order of their MFNs. A single term needs\n\
               neither flag. A term that the index does not hold is refused, also with --or. A record that is\n\
               deleted or gone is shown as such; the status is that of the first that cannot be shown.\n",
        refusals: &[1, 2, 4, 6, 8, 20, 21, 22, 23],
    },
];

/// The command of a name.
pub fn verb(name: &OsStr) -> Result<&'static Verb, Trouble> {
    VERBS.iter().find(|verb| name == verb.name).ok_or_else(|| {
        let name = quoted(name);
        Trouble::Usage(format!("{name} is no command; see 'card help'"))
    })
}

/// `card help`, for all or for one command.
pub fn help(mut arguments: Arguments) -> Result<(), Trouble> {
    match arguments.word() {
        None => print(&overview()),
        Some(word) if word == "help" || word == "--help" || word == "-h" => print(&overview()),
        Some(name) => {
            let verb = verb(&name)?;
            arguments.none_left()?;
            print(&verb.help())
        }
    }
}

/// `card --version`.
pub fn version(mut arguments: Arguments) -> Result<(), Trouble> {
    arguments.none_left()?;
    print(&format!("card {}\n", env!("CARGO_PKG_VERSION")))
}

/// All commands in a line or two each.
fn overview() -> String {
    let mut text = "card: a CDS/ISIS catalogue kept in two files, the master file (MST) and the \
                    cross-reference file (XRF)\n\n"
        .to_string();
    for verb in &VERBS {
        for (form, does) in verb.forms {
            let line = format!("card {:6} {} {form}", verb.name, verb.on.names);
            text += &format!("  {line:37}  {does}\n");
        }
    }
    text += "  card help [COMMAND]                    tell more about a command\n";
    text += "  card --version                         tell the version of this command\n\n";
    text += FIELDS;
    text += INDEX.about;
    text += POSTINGS_BESIDE;
    text += "Words behind -- are no flags. A change is on the disk when the command ends, both files or none.\n\n";
    text + "Exit status: 0 if done, the answer number if refused (1 to 23), and\n" + &statuses()
}

/// The statuses that every command has.
fn statuses() -> String {
    let lines = STATUSES.map(|(number, words)| format!("  {number:2}  {words}\n"));
    lines.concat()
        + "A sentence that cannot be written to standard error changes nothing of this.\n"
}

impl Verb {
    /// All about a command.
    pub fn help(&self) -> String {
        let mut text = String::new();
        for (form, does) in self.forms {
            let line = format!("card {} {} {form}", self.name, self.on.names);
            text += &format!("{}\n    {does}\n", line.trim_end());
        }
        text += "\n";
        let more = [self.on.about, self.more].concat();
        if !more.is_empty() {
            text += &more;
            text += "\n";
        }
        text += "Exit status\n   0  done\n";
        let all = Refusal::ALL.iter();
        for refusal in all.filter(|refusal| self.refusals.contains(&refusal.number())) {
            text += &format!("  {:2}  refused: {}\n", refusal.number(), refusal.words());
        }
        text + &statuses()
    }
}

#[cfg(test)]
mod tests {
    use super::*;

    /// Every status is told in lines that a terminal holds.
    #[test]
    fn help_is_whole_and_narrow() {
        for verb in &VERBS {
            let help = verb.help();
            let told = |number: &u32| help.contains(&format!("\n  {number:2}  refused: "));
            assert!(verb.refusals.iter().all(told), "{help}");
            assert!(
                help.lines().all(|line| line.chars().count() <= 100),
                "{help}"
            );
        }
        assert!(overview().lines().all(|line| line.chars().count() <= 110));
    }
}
