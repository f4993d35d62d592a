//! One request, written by both.

use super::ours::{self, Written};
use oracle::written::{self, Answer, Handed};

/// So many numbers of a list are printed.
const PRINTED: usize = 400;

/// What both made of a request.
pub struct Checked {
    /// What document 01 asks for by the crate's answer, or why there is none.
    pub asked: Result<Answer, String>,
    ours: Written,
    /// A length of the list for the answer that is too short and that the port does not mind.
    unminded: Option<usize>,
}

/// The list for the answer is just long enough or one longer, in turn. The request is written once more with one that is
/// too short, of another length in turn.
pub fn check(handed: &Handed, number: u64) -> Checked {
    let short = number as usize % 4;
    Checked {
        asked: written::answer(handed),
        ours: ours::write(handed, 4 + number as usize % 2),
        unminded: (!ours::minds_its_answer(handed, short)).then_some(short),
    }
}

impl Checked {
    /// What differs, in words.
    pub fn differences(&self) -> Vec<String> {
        let asked = match &self.asked {
            Ok(asked) => asked,
            Err(why) => return vec![format!("no answer of document 01: {why}")],
        };
        let mut found = crate::ours::answer_differences(
            ["kind", "number", "place", "bytes"],
            asked.numbers(),
            self.ours.returned,
            &self.ours.answer,
            self.unminded,
        );
        found.extend(destination(&asked.bytes, &self.ours.bytes));
        found
    }

    /// The request and both answers, for a reader.
    pub fn print(&self, handed: &Handed, differences: &[String]) {
        print_list("components", &handed.components);
        println!(
            "  count {}, corners {} {} {} {}, space {}, codestream {}, room {}",
            handed.count,
            handed.x0,
            handed.y0,
            handed.x1,
            handed.y1,
            handed.space,
            handed.codestream,
            handed.room
        );
        print_bytes("profile", &handed.profile);
        match &self.asked {
            Ok(asked) => {
                println!("  asked  answer {:?}", asked.numbers());
                print_bytes("asked", &asked.bytes);
            }
            Err(why) => println!("  asked  {why}"),
        }
        println!("  ours  answer {:?}", &self.ours.answer[..4]);
        print_bytes("ours, the whole destination", &self.ours.bytes);
        for difference in differences {
            println!("  differs  {difference}");
        }
    }
}

/// The first byte of the destination that is not what was asked for or, behind that, not what stood there before.
fn destination(asked: &[u8], ours: &[u8]) -> Option<String> {
    let wanted = |index| {
        asked
            .get(index)
            .copied()
            .unwrap_or_else(|| ours::pattern(index))
    };
    let index = (0..ours.len()).find(|index| ours[*index] != wanted(*index))?;
    let (wanted, ours) = (wanted(index), ours[index]);
    Some(format!("byte {index}: asked {wanted}, ours {ours}"))
}

fn print_list(name: &str, list: &[u32]) {
    let shown = &list[..list.len().min(PRINTED)];
    println!("  {name}, {}  {shown:?}", list.len());
}

fn print_bytes(name: &str, bytes: &[u8]) {
    print!("  {name}, {}  ", bytes.len());
    bytes
        .iter()
        .take(PRINTED)
        .for_each(|byte| print!("{byte:02x}"));
    println!();
}
