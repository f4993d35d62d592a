//! Puts lists of definitions to the port in every order, in both editions, and looks what the order changes (request
//! The crate has no part in it.

mod order;

use crate::ours::Finished;
use crate::port::{EDITION_1, EDITION_2};
use oracle::generate::{definition_listings, Definition, LISTED_CHANNELS};
use order::{accepted, same_answer, same_but_for_marks, same_marks, same_planes, Orders, Pair};
use std::collections::HashSet;

/// After as many faults nothing more is put to the port.
const MOST_FAULTS: usize = 20;

/// Whether the order of definitions changes nothing that it may not change. False too where a case did not come up.
pub fn compare() -> bool {
    let mut findings = Findings::new();
    for lists in definition_listings() {
        if findings.faults() >= MOST_FAULTS {
            break;
        }
        findings.look(&lists);
    }
    findings.print();
    findings.faults() == 0 && findings.met_all()
}

/// The premises on definitions.
#[derive(Clone, Copy)]
struct Premises {
    /// No channel is defined twice.
    channels: bool,
    /// No colour is given twice.
    colours: bool,
}

impl Premises {
    fn of(definitions: &[Definition]) -> Self {
        let colour = |[_, typ, asoc]: &Definition| (*typ == 0).then_some(*asoc);
        let colours = definitions.iter().filter_map(colour);
        Premises {
            channels: no_two_alike(definitions.iter().map(|[channel, _, _]| *channel)),
            colours: no_two_alike(colours.filter(|asoc| !matches!(asoc, 0 | 65535))),
        }
    }

    fn both(self) -> bool {
        self.channels && self.colours
    }
}

fn no_two_alike(mut numbers: impl Iterator<Item = u16>) -> bool {
    let mut seen = HashSet::new();
    numbers.all(|number| seen.insert(number))
}

/// What came up in one edition, in numbers of lists.
struct Edition {
    name: &'static str,
    /// What has to be the same in every order under the premises.
    same: fn(&Finished, &Finished) -> bool,
    accepted: u64,
    /// Accepted and under the premises.
    premised: u64,
    /// Of these, those that have other marks in another order.
    other_marks: u64,
    /// Where the order changes what it may not change.
    faults: usize,
}

impl Edition {
    fn new(name: &'static str, same: fn(&Finished, &Finished) -> bool) -> Self {
        Edition {
            name,
            same,
            accepted: 0,
            premised: 0,
            other_marks: 0,
            faults: 0,
        }
    }

    fn look(&mut self, orders: &Orders, premises: Premises) {
        let accepted = orders.finished.iter().filter(|one| accepted(one));
        let accepted = accepted.count() as u64;
        self.accepted += accepted;
        if premises.both() {
            self.premised += accepted;
            let changed = orders.unlike(same_marks).is_some();
            self.other_marks += if changed { accepted } else { 0 };
        }
        if let Some(pair) = self.fault(orders, premises) {
            self.faults += 1;
            print_pair(&format!("{}, fault", self.name), &pair);
        }
    }

    fn fault(&self, orders: &Orders, premises: Premises) -> Option<Pair> {
        let unlike = orders.unlike(same_answer);
        unlike.or_else(|| orders.unlike(self.same).filter(|_| premises.both()))
    }

    fn print(&self) {
        let counted = [
            (self.accepted, "accepted"),
            (self.premised, "of these under the premises"),
            (
                self.other_marks,
                "of these with other marks in another order",
            ),
        ];
        println!("{}:", self.name);
        for (count, name) in counted {
            println!("{count:>10} {name}");
        }
    }
}

struct Findings {
    lists: u64,
    /// Those that are the same but for their order counted once.
    sets: u64,
    /// Lists under the premises.
    premised: u64,
    first: Edition,
    second: Edition,
    /// Of edition 2, where this premise is not met and the other one is: two orders with other marks.
    channel_twice: Option<Pair>,
    colour_twice: Option<Pair>,
}

impl Findings {
    fn new() -> Self {
        Findings {
            lists: 0,
            sets: 0,
            premised: 0,
            first: Edition::new("edition 1", same_but_for_marks),
            second: Edition::new("edition 2", same_planes),
            channel_twice: None,
            colour_twice: None,
        }
    }

    fn faults(&self) -> usize {
        self.first.faults + self.second.faults
    }

    /// Looks at one list in all its orders.
    fn look(&mut self, lists: &[Vec<Definition>]) {
        let premises = Premises::of(&lists[0]);
        let many = lists.len() as u64;
        self.sets += 1;
        self.lists += many;
        self.premised += if premises.both() { many } else { 0 };
        self.first.look(&Orders::new(lists, EDITION_1), premises);
        let second = Orders::new(lists, EDITION_2);
        self.second.look(&second, premises);
        self.keep_pair(&second, premises);
    }

    /// Keeps the first pair for each premise.
    fn keep_pair(&mut self, second: &Orders, premises: Premises) {
        let kept = match (premises.channels, premises.colours) {
            (false, true) => &mut self.channel_twice,
            (true, false) => &mut self.colour_twice,
            _ => return,
        };
        if kept.is_none() {
            *kept = second.unlike(same_marks);
        }
    }

    /// Whether something of every kind came up, so that nothing above holds for want of lists.
    fn met_all(&self) -> bool {
        let numbers = [
            self.first.premised,
            self.first.other_marks,
            self.second.premised,
        ];
        numbers.iter().all(|number| *number != 0)
            && self.channel_twice.is_some()
            && self.colour_twice.is_some()
    }

    fn print(&self) {
        println!("lists of definitions over {LISTED_CHANNELS} channels, each in every order:");
        println!(
            "{:>10} lists, {} but for their order",
            self.lists, self.sets
        );
        println!("{:>10} under the premises", self.premised);
        self.first.print();
        self.second.print();
        let kept = [
            ("a channel defined twice", &self.channel_twice),
            ("a colour given twice", &self.colour_twice),
        ];
        for (name, pair) in kept {
            match pair {
                Some(pair) => print_pair(&format!("edition 2, {name}"), pair),
                None => println!("edition 2, {name}: no two orders with other marks"),
            }
        }
        println!("{} faults", self.faults());
    }
}

fn print_pair(name: &str, pair: &Pair) {
    println!("{name}:");
    pair.iter().for_each(|order| println!("  {order}"));
}
