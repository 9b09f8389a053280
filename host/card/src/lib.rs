//! `card`: the command for a CDS/ISIS card kept in two files, and its search index.
//!
//! Every change is made by the proved library, and every answer number is its own; so is the
//! number of the directory's entry that breaks a rule. The words beside a number come from a
//! second reading of the bytes, in `faults`, `tree_faults` and `posting_faults`.

mod arguments;
mod calls;
mod check;
mod count;
mod disk;
mod draw;
mod faults;
mod field;
mod fields;
mod files;
mod help;
mod index;
mod intent;
mod keep;
mod layout;
mod lookup;
mod mark;
mod picture;
mod posting_faults;
mod printable;
mod progress;
mod record;
mod recover;
pub mod replace;
mod say;
mod search;
mod settle;
mod show;
mod stat;
mod steps;
mod survey;
mod tree;
mod tree_faults;
#[cfg(test)]
mod trials;
pub mod trouble;

pub use arguments::Arguments;
pub use say::tell;
use trouble::Trouble;

/// Does what a command line says.
pub fn run(mut arguments: Arguments) -> Result<(), Trouble> {
    let Some(name) = arguments.word() else {
        return Err(Trouble::Usage(
            "a command is missing; see 'card help'".into(),
        ));
    };
    match name.to_str() {
        Some("help" | "--help" | "-h") => help::help(arguments),
        Some("--version" | "-V") => help::version(arguments),
        _ => {
            let verb = help::verb(&name)?;
            if arguments.ask_help() {
                return say::print(&verb.help());
            }
            (verb.run)(arguments.of(verb.name))
        }
    }
}
