//! A search index in a folder, made by the model's builder.

use super::Folder;
use model::index::build::plain_trees;
use model::index::tree::{Leaf, Node, Tree};
use model::index::{Entry, Files};
use std::fs;

/// The endings of the five files.
pub const ENDINGS: [&str; 5] = ["CNT", "N01", "L01", "N02", "L02"];

/// The terms of the index, in the order of their keys: seven short ones and three long ones,
/// the first with block 1 and word 0, the next with 2 and 10, and so on.
pub const TERMS: [&str; 10] = [
    "AFRICA",
    "HEMINGWAY",
    "KHALED",
    "KITE",
    "RUNNER",
    "SEA",
    "WIND",
    "HOSSEINI, KHALED",
    "SAINT-EXUPERY, ANTOINE DE",
    "WIND, SAND AND STARS",
];

/// The two trees, of order 1, so that a record has two entries. Of the first tree leaves 1 to
/// 4 hold AFRICA HEMINGWAY, KHALED KITE, RUNNER SEA and WIND; nodes 1 and 2 lead to them, and
/// node 3 is the root. Of the second leaf 1 holds two terms and leaf 2 one, and node 1 leads
/// to both.
pub fn trees() -> [Tree; 2] {
    let entries: Vec<Entry> = (0..)
        .zip(TERMS)
        .map(|(n, term)| Entry {
            term: term.into(),
            block: n + 1,
            word: 10 * n,
        })
        .collect();
    plain_trees(&entries, 1, 1)
}

/// The files of two trees.
pub fn files(trees: &[Tree; 2]) -> Files {
    Files::of(trees, &mut |_| ())
}

/// A node of a tree.
pub fn node(tree: &mut Tree, number: usize) -> &mut Node {
    tree.nodes[number - 1].as_mut().unwrap()
}

/// A leaf of a tree.
pub fn leaf(tree: &mut Tree, number: usize) -> &mut Leaf {
    tree.leaves[number - 1].as_mut().unwrap()
}

impl Folder {
    /// A folder with the index `a`, its endings in capitals.
    pub fn with_index(name: &str) -> Folder {
        let folder = Folder::new(name);
        folder.put_index("a", &files(&trees()));
        folder
    }

    /// Without one of its files, and with a folder in its place, every command must say so.
    pub fn needs(&self, ending: &str, commands: &[&str]) {
        let (path, small) = (self.0.join(format!("a.{ending}")), ending.to_lowercase());
        let bytes = fs::read(&path).unwrap();
        fs::remove_file(&path).unwrap();
        for command in commands {
            let why = format!("a.{ending}: cannot be read: there is no such file, nor a.{small}\n");
            self.refused(command, 66, &why);
            fs::create_dir(&path).unwrap();
            let why = format!("a.{ending}: cannot be read: this is a folder");
            self.refused(command, 66, &why);
            fs::remove_dir(&path).unwrap();
        }
        fs::write(&path, bytes).unwrap();
    }

    /// Writes the five files of an index.
    pub fn put_index(&self, name: &str, files: &Files) {
        for (ending, bytes) in ENDINGS.iter().zip(files.all()) {
            self.write(&format!("{name}.{ending}"), bytes);
        }
    }
}
