//! Writes the lists that `replay_run` is given, and what it must print, into the
//! repository: `cargo run -p model --example replay`.

use model::replay::{lists, text};
use std::fs;
use std::path::Path;

fn main() -> std::io::Result<()> {
    let folder = Path::new(env!("CARGO_MANIFEST_DIR")).join("../../crates/replay_run");
    let lists = lists::all();
    fs::create_dir_all(&folder)?;
    fs::write(folder.join("stdin"), text::stdin(&lists))?;
    fs::write(folder.join("stdout"), text::stdout(&lists))
}
