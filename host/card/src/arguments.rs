//! The words of the command line, each read strictly: what is not understood is
//! said in one sentence.

use crate::field::Asked;
use crate::fields;
use crate::search::Wanted;
use crate::trouble::Trouble;
use std::ffi::{OsStr, OsString};
use std::iter::Peekable;
use std::ops::RangeInclusive;
use std::os::unix::ffi::OsStrExt;
use std::path::PathBuf;
use std::vec::IntoIter;

/// What is left of the command line.
pub struct Arguments {
    /// The words up to `--`, or all; then those behind it, which are no flags.
    words: Peekable<IntoIter<OsString>>,
    plain: IntoIter<OsString>,
    /// The command that they are for.
    verb: &'static str,
}

/// What a word of `card settle` names.
#[derive(Clone, Debug, PartialEq, Eq)]
pub enum Named {
    /// An MFN, or a range of them.
    Mfns(RangeInclusive<u32>),
    /// Every MFN on which something is pending.
    All,
}

/// Whether a word before `--` looks like a flag. A number below 0 does not.
fn is_flag(word: &OsStr) -> bool {
    matches!(word.as_bytes(), [b'-', next, ..] if !next.is_ascii_digit())
}

impl Arguments {
    /// The words after the program's name.
    pub fn new(words: impl IntoIterator<Item = OsString>) -> Arguments {
        let mut words: Vec<OsString> = words.into_iter().collect();
        let end = words.iter().position(|word| word == "--");
        let plain = words.split_off(end.unwrap_or(words.len()));
        let mut plain = plain.into_iter();
        plain.next();
        Arguments {
            words: words.into_iter().peekable(),
            plain,
            verb: "help",
        }
    }

    /// The next word, if there is one.
    pub fn word(&mut self) -> Option<OsString> {
        self.words.next().or_else(|| self.plain.next())
    }

    /// The same words, for a command.
    pub fn of(self, verb: &'static str) -> Arguments {
        Arguments { verb, ..self }
    }

    /// Whether help is asked for.
    pub fn ask_help(&self) -> bool {
        let mut words = self.words.clone();
        words.any(|word| word == "--help" || word == "-h")
    }

    /// A wrong command line in a sentence.
    fn usage(&self, words: &str) -> Trouble {
        Trouble::Usage(format!("{words}; see 'card help {}'", self.verb))
    }

    /// The next word, which must be there and is no flag.
    pub fn wanted(&mut self, what: &str) -> Result<OsString, Trouble> {
        let word = self.unless_flag()?;
        word.ok_or_else(|| self.usage(&format!("{what} is missing")))
    }

    /// The name of a file, which must be there. `-` names none.
    fn file(&mut self, which: &str) -> Result<PathBuf, Trouble> {
        if self.words.peek().is_some_and(|word| word == "-") {
            let words = "'-' is no file; './-' names one of that name";
            return Err(self.usage(words));
        }
        let name = self.wanted(&format!("the name of the {which}"))?;
        Ok(name.into())
    }

    /// The two files.
    pub fn files(&mut self) -> Result<(PathBuf, PathBuf), Trouble> {
        Ok((self.file("MST file")?, self.file("XRF file")?))
    }

    /// The name of an index.
    pub fn index(&mut self) -> Result<PathBuf, Trouble> {
        self.file("index")
    }

    /// The terms: all words that are left, one or more.
    pub fn terms(&mut self) -> Result<Vec<OsString>, Trouble> {
        let mut terms = vec![self.wanted("a term")?];
        while let Some(term) = self.unless_flag()? {
            terms.push(term);
        }
        Ok(terms)
    }

    /// The terms of a search, one or more, and which records it is for: all words that are
    /// left. Of several terms it must be said whether a record has all or any.
    pub fn search(&mut self) -> Result<(Vec<OsString>, Wanted), Trouble> {
        let (mut terms, mut wanted) = (Vec::new(), self.said(None)?);
        while let Some(term) = self.unless_flag()? {
            terms.push(term);
            wanted = self.said(wanted)?;
        }
        match (terms.len(), wanted) {
            (0, _) => Err(self.usage("a term is missing")),
            (1, None) => Ok((terms, Wanted::All)),
            (_, Some(wanted)) => Ok((terms, wanted)),
            (_, None) => Err(self.usage(
                "--and or --or is missing: it says whether a record has all of several terms or any",
            )),
        }
    }

    /// What flags that come next say of a search, beside what was said before.
    fn said(&mut self, before: Option<Wanted>) -> Result<Option<Wanted>, Trouble> {
        let mut wanted = before;
        loop {
            let said = if self.flag("--and") {
                Wanted::All
            } else if self.flag("--or") {
                Wanted::Any
            } else {
                return Ok(wanted);
            };
            if wanted.is_some_and(|before| before != said) {
                return Err(self.usage("--and and --or are both there"));
            }
            wanted = Some(said);
        }
    }

    /// An MFN.
    pub fn mfn(&mut self) -> Result<u32, Trouble> {
        let word = self.wanted("the MFN")?;
        number(&word).ok_or_else(|| {
            let word = quoted(&word);
            self.usage(&format!("{word} is no MFN: a whole number is wanted"))
        })
    }

    /// The MFNs that all words that are left name, one word or more.
    pub fn named(&mut self) -> Result<Vec<Named>, Trouble> {
        let mut word = Some(self.wanted("the MFN")?);
        let mut named = Vec::new();
        while let Some(it) = word {
            named.push(self.mfns(&it)?);
            word = self.unless_flag()?;
        }
        Ok(named)
    }

    /// What a word names: an MFN, a range of them, or all.
    fn mfns(&self, word: &OsStr) -> Result<Named, Trouble> {
        if word == "all" {
            return Ok(Named::All);
        }
        let one = number(word).map(|mfn| mfn..=mfn);
        let range = || {
            let (first, last) = word.to_str()?.split_once('-')?;
            let (first, last) = (number(first.as_ref())?, number(last.as_ref())?);
            (first <= last).then_some(first..=last)
        };
        one.or_else(range).map(Named::Mfns).ok_or_else(|| {
            let word = quoted(word);
            self.usage(&format!(
                "{word} is no MFN, range of them like 3-17, or 'all'"
            ))
        })
    }

    /// Whether no word is left.
    fn is_empty(&self) -> bool {
        self.words.len() + self.plain.len() == 0
    }

    /// An MFN, if there is another word.
    pub fn mfn_if_any(&mut self) -> Result<Option<u32>, Trouble> {
        if self.is_empty() {
            return Ok(None);
        }
        self.mfn().map(Some)
    }

    /// A field, if there is another word: its tag, and its occurrence, 1 where none is named.
    pub fn field_if_any(&mut self) -> Result<Option<Asked>, Trouble> {
        if self.is_empty() {
            return Ok(None);
        }
        let tag = fields::tag(&self.wanted("the tag")?)?;
        if self.is_empty() {
            return Ok(Some(Asked { tag, occurrence: 1 }));
        }
        let word = self.wanted("the occurrence")?;
        let occurrence = number(&word).ok_or_else(|| {
            let word = quoted(&word);
            self.usage(&format!(
                "{word} is no occurrence: a whole number is wanted"
            ))
        })?;
        Ok(Some(Asked { tag, occurrence }))
    }

    /// A number of blocks.
    pub fn blocks(&self, word: &OsStr, most: usize) -> Result<usize, Trouble> {
        let blocks = number(word).map(|n| n as usize);
        blocks.filter(|n| (1..=most).contains(n)).ok_or_else(|| {
            let word = quoted(word);
            self.usage(&format!("{word} is no number of blocks from 1 to {most}"))
        })
    }

    /// Whether a flag comes next; it is taken if it does.
    pub fn flag(&mut self, flag: &str) -> bool {
        self.words.next_if(|word| word == flag).is_some()
    }

    /// The next word, if there is one, which is no flag.
    pub fn unless_flag(&mut self) -> Result<Option<OsString>, Trouble> {
        match self.words.next_if(|word| is_flag(word)) {
            None => Ok(self.word()),
            Some(flag) => {
                let (flag, verb) = (quoted(&flag), self.verb);
                Err(self.usage(&format!("{flag} is no flag of 'card {verb}'")))
            }
        }
    }

    /// All words that are left.
    pub fn rest(&mut self) -> Vec<OsString> {
        self.words.by_ref().chain(self.plain.by_ref()).collect()
    }

    /// Refuses words that are left over.
    pub fn none_left(&mut self) -> Result<(), Trouble> {
        match self.unless_flag()? {
            None => Ok(()),
            Some(word) => {
                let word = quoted(&word);
                Err(self.usage(&format!("{word} is one word too many")))
            }
        }
    }
}

/// A whole number of 32 bits, digits only.
pub fn number(word: &OsStr) -> Option<u32> {
    let digits = word.to_str()?;
    let plain = !digits.is_empty() && digits.bytes().all(|b| b.is_ascii_digit());
    plain.then(|| digits.parse().ok())?
}

/// A word as it is shown in a sentence.
pub fn quoted(word: &OsStr) -> String {
    format!("'{}'", word.to_string_lossy().escape_debug())
}

#[cfg(test)]
mod tests {
    use super::*;

    fn arguments(words: &[&str]) -> Arguments {
        Arguments::new(words.iter().map(OsString::from))
    }

    #[test]
    fn mfns_are_digits_of_32_bits() {
        assert_eq!(arguments(&["12"]).mfn().unwrap(), 12);
        assert_eq!(arguments(&["4294967295"]).mfn().unwrap(), u32::MAX);
        for bad in ["", "x", "-1", "+1", " 1", "1.0", "4294967296", "0x10"] {
            assert!(arguments(&[bad]).mfn().is_err(), "{bad}");
            assert!(arguments(&[bad]).mfn_if_any().is_err(), "{bad}");
        }
        assert_eq!(arguments(&[]).mfn_if_any().unwrap(), None);
        assert_eq!(arguments(&["--", "7"]).mfn_if_any().unwrap(), Some(7));
    }

    #[test]
    fn ranges_of_mfns_ascend() {
        let named = |words: &[&str]| arguments(words).named();
        let wanted = [
            Named::Mfns(7..=7),
            Named::Mfns(3..=17),
            Named::All,
            Named::Mfns(4..=4),
        ];
        assert_eq!(named(&["7", "3-17", "all", "--", "4-4"]).unwrap(), wanted);
        for bad in [
            "", "7-3", "3-", "-3", "3--4", "1-2-3", "ALL", "1,2", "0x1-2",
        ] {
            assert!(named(&[bad]).is_err(), "{bad}");
            assert!(named(&["1", bad]).is_err(), "{bad}");
        }
        assert!(named(&[]).is_err());
    }

    #[test]
    fn a_search_has_terms_and_says_which() {
        let search = |words: &[&str]| arguments(words).search().ok();
        let some = |terms: &[&str], wanted| {
            Some((terms.iter().map(OsString::from).collect::<Vec<_>>(), wanted))
        };
        assert_eq!(search(&["A"]), some(&["A"], Wanted::All));
        assert_eq!(search(&["A", "--or"]), some(&["A"], Wanted::Any));
        assert_eq!(search(&["A", "B", "--and"]), some(&["A", "B"], Wanted::All));
        assert_eq!(search(&["--or", "A", "B"]), some(&["A", "B"], Wanted::Any));
        let twice = ["A", "--or", "B", "--or"];
        assert_eq!(search(&twice), some(&["A", "B"], Wanted::Any));
        let plain = ["--and", "A", "--", "--or"];
        assert_eq!(search(&plain), some(&["A", "--or"], Wanted::All));
        for bad in [
            &[][..],
            &["--and"],
            &["A", "B"],
            &["A", "B", "--and", "--or"],
            &["A", "--or", "B", "--and"],
            &["A", "B", "--not"],
        ] {
            assert_eq!(search(bad), None, "{bad:?}");
        }
    }

    #[test]
    fn words_left_over_are_refused() {
        assert!(arguments(&[]).none_left().is_ok());
        assert!(arguments(&["--"]).none_left().is_ok());
        assert!(arguments(&["x"]).none_left().is_err());
        assert!(arguments(&["--", "x"]).none_left().is_err());
    }

    #[test]
    fn behind_two_dashes_there_are_no_flags() {
        assert!(arguments(&["-a", "b"]).files().is_err());
        assert!(arguments(&["a", "-"]).files().is_err());
        let plain = arguments(&["a", "--", "-b"]).files().unwrap();
        assert_eq!(plain, ("a".into(), "-b".into()));
        assert!(arguments(&["a", "--help"]).ask_help());
        assert!(!arguments(&["--", "--help"]).ask_help());
        assert!(!arguments(&["--", "--erase"]).flag("--erase"));
    }
}
