//! "Numbers to test on": the one run.

use super::card::Card;

pub fn run(card: &mut Card) {
    card.format("worked run");
    card.xrf_start("worked run");
    card.state("worked run", 0..64);
    card.create("worked run, Kite", b"Kite");
    card.state("worked run, Kite", 64..92);
    card.update("worked run, Kit", 1, b"Kit");
    card.state("worked run, Kit", 64..92);
    card.settle("worked run, Kit", 1);
    card.state("worked run, Kit", 64..92);
    card.update("worked run, Kites", 1, b"Kites");
    card.state("worked run, Kites", 92..122);
    card.view("worked run, Kites", 1);
    card.settled_view("worked run, Kites", 1);
    card.revert("worked run, Kites", 1);
    card.state("worked run, reverted", 64..122);
    card.view("worked run, reverted", 1);
    card.check("worked run, reverted");
}
