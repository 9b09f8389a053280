//! `card stat`: the records counted by kind, and the space of the MST as a bar.

use crate::arguments::Arguments;
use crate::check::opened;
use crate::count;
use crate::files::Files;
use crate::layout::{Store, slots};
use crate::progress::with_progress;
use crate::say::print;
use crate::survey::{self, Counts, Space};
use crate::trouble::Trouble;

/// Characters in the bar.
const WIDTH: usize = 60;

/// `card stat`.
pub fn stat(mut arguments: Arguments) -> Result<(), Trouble> {
    let paths = arguments.files()?;
    arguments.none_left()?;
    let files = Files::read(paths)?;
    let store = opened(&files)?;
    let checked = with_progress("checking", || files.card().check());
    let (counts, space) = with_progress("counting", || {
        let space = survey::space(&store, &survey::spans(&store));
        (survey::count(&store), space)
    });
    let printed = print(&(records(counts, &store) + &spaces(space)));
    checked.map_err(|refusal| {
        let words = "'card check' says what is wrong; the numbers are what could be read";
        Trouble::Refused(refusal, words.into())
    })?;
    printed
}

/// The records in words.
fn records(counts: Counts, store: &Store) -> String {
    let Counts { changed, new, .. } = counts;
    let mut text = format!(
        "records   {} of {} MFNs given out\n",
        store.next - 1,
        slots(store.xrf)
    );
    text += &format!("  live    {}{}\n", counts.live, reccnt(counts, store));
    text += &format!("  deleted {}\n", counts.deleted);
    text += &format!("  gone    {}\n", counts.gone);
    text += &format!(
        "  pending {} ({changed} changed, {new} new)\n",
        changed + new
    );
    if counts.malformed > 0 {
        text += &format!("  malformed {}\n", counts.malformed);
    }
    text
}

/// RECCNT, where it is not what the entries say; they count malformed records too.
fn reccnt(counts: Counts, store: &Store) -> String {
    let (found, expected) = (count::of(store), count::live(store));
    if i64::from(found) == expected as i64 {
        String::new()
    } else if expected == counts.live {
        format!(", and RECCNT is {found}")
    } else {
        format!(", and RECCNT is {found}, {expected} was expected")
    }
}

/// The space in words and as a bar.
fn spaces(space: Space) -> String {
    let Space {
        used,
        kept,
        lost,
        free,
    } = space;
    let total = used + kept + lost + free;
    let line = |name: &str, bytes: usize, what: &str| {
        let percent = bytes as f64 * 100.0 / total as f64;
        format!("  {name}    {bytes:>9}  {percent:5.1} %  {what}\n")
    };
    let mut text = format!("space     {total} bytes\n");
    text += &line("used", used + kept, "#");
    text += &format!("          of them {kept} in settled versions that a revert needs\n");
    text += &line("lost", lost, "x");
    text += &line("free", free, ".");
    text += &format!(
        "  [{}]\n",
        bar(&[(used + kept, '#'), (lost, 'x'), (free, '.')])
    );
    text
}

/// A bar of `WIDTH` characters; every part that is not 0 has at least one.
fn bar(parts: &[(usize, char)]) -> String {
    let total: usize = parts.iter().map(|(bytes, _)| bytes).sum();
    let mut widths: Vec<usize> = parts
        .iter()
        .map(|(bytes, _)| (bytes * WIDTH / total).max(usize::from(*bytes > 0)))
        .collect();
    let widest = (0..parts.len()).max_by_key(|&i| parts[i].0).unwrap_or(0);
    let others: usize = widths.iter().sum::<usize>() - widths[widest];
    widths[widest] = WIDTH - others;
    parts
        .iter()
        .zip(widths)
        .map(|((_, letter), width)| letter.to_string().repeat(width))
        .collect()
}

#[cfg(test)]
mod tests {
    use super::{WIDTH, bar};

    #[test]
    fn a_bar_shows_every_part_that_is_there() {
        assert_eq!(bar(&[(1, '#'), (0, 'x'), (0, '.')]), "#".repeat(WIDTH));
        let long = bar(&[(64, '#'), (1, 'x'), (1_000_000, '.')]);
        assert_eq!(long, format!("#x{}", ".".repeat(WIDTH - 2)));
        let halves = bar(&[(50, '#'), (0, 'x'), (50, '.')]);
        assert_eq!(halves, "#".repeat(30) + &".".repeat(30));
    }
}
