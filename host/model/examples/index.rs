//! Makes the search index of a list of terms: `index NAME` reads lines `TERM POSTING...`, where
//! a posting is MFN/FIELD/OCCURRENCE/NUMBER and a term may hold spaces, and writes NAME.CNT,
//! NAME.N01, NAME.L01, NAME.N02 and NAME.L02 at orders 5 and 5, and NAME.IFP as a full load
//! leaves it. The check passes the index if there are terms of up to 10 bytes and longer ones,
//! since a tree without terms has no root.

use model::index::{self, Entry};
use model::postings::{self, Posting};
use std::error::Error;
use std::fs;
use std::io::{Read, stdin};
use std::process::ExitCode;

fn main() -> ExitCode {
    match run() {
        Ok(()) => ExitCode::SUCCESS,
        Err(why) => {
            eprintln!("index: {why}");
            ExitCode::FAILURE
        }
    }
}

fn run() -> Result<(), Box<dyn Error>> {
    let name = std::env::args().nth(1).ok_or("usage: index NAME < LINES")?;
    let mut text = String::new();
    stdin().read_to_string(&mut text)?;
    let lines = (1..).zip(text.lines()).filter(|(_, line)| !line.is_empty());
    let terms = lines
        .map(|(n, line)| {
            let wrong = format!("line {n} is not TERM MFN/FIELD/OCCURRENCE/NUMBER...");
            Posting::of_line(line).ok_or(wrong)
        })
        .collect::<Result<Vec<_>, String>>()?;
    let (terms, lists): (Vec<&str>, Vec<Vec<u64>>) = terms.into_iter().unzip();
    let ifp = postings::plain(&lists);
    let entries: Vec<Entry> = terms
        .iter()
        .zip(ifp.starts())
        .map(|(term, from)| Entry {
            term: term.as_bytes().to_vec(),
            block: from.block,
            word: from.word,
        })
        .collect();
    if !entries.iter().all(Entry::right) {
        return Err("a term has 1 to 30 bytes and no space at its end".into());
    }
    let files = index::plain(&entries, 5, 5);
    for (file, bytes) in ["CNT", "N01", "L01", "N02", "L02"].iter().zip(files.all()) {
        fs::write(format!("{name}.{file}"), bytes)?;
    }
    fs::write(format!("{name}.IFP"), ifp.bytes(&mut |_| ()))?;
    Ok(())
}
