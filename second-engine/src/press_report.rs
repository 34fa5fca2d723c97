//! Says where the library and the plain press disagree, in as few records as can be found.

use crate::engine::Desk;
use crate::lent_press::{library, List, Presser};
use crate::press_floor::Question;
use crate::presses::{on_words, PressDifference};
use crate::shrink::shrink;
use crate::side_by_side::hex;

/// Shortens the failing case and prints it. Gives `false`.
pub fn report_press(records: Vec<Vec<u8>>, question: Question) -> bool {
    let case = PressCase { records, question }.shortened(&library);
    let count = case.records.len();
    println!("shortest failing press found, from the start, records {count}:");
    for record in &case.records {
        println!("{}", hex(record));
    }
    println!("{}", case.question);
    match case.fails(&library) {
        Some(difference) => println!("{difference}"),
        None => println!("asked again, it did not fail: the library is not steady"),
    }
    false
}

/// A question, and the records before it from the start.
#[derive(Clone)]
pub struct PressCase {
    pub records: Vec<Vec<u8>>,
    pub question: Question,
}

impl PressCase {
    /// Where this press and the plain one disagree, if they do.
    pub fn fails(&self, presser: &Presser) -> Option<PressDifference> {
        let mut desk = Desk::started();
        for record in &self.records {
            desk.call(record);
        }
        let words = self.question.words(desk.words());
        on_words(&self.question.lent, words, presser).err()
    }

    /// As few records, words of damage and list bytes other than 0 as can be found to fail.
    pub fn shortened(&self, presser: &Presser) -> PressCase {
        let mut case = self.least(presser, self.records.clone(), |case, records| {
            case.records = records;
        });
        let damage = Vec::from_iter(case.question.damage.clone());
        case = case.least(presser, damage, |case, mut damage| {
            case.question.damage = damage.pop();
        });
        let edits = case.question.damage.as_ref();
        let edits = edits.map(|damage| damage.edits.clone());
        case = case.least(presser, edits.unwrap_or_default(), |case, edits| {
            if let Some(damage) = &mut case.question.damage {
                damage.edits = edits;
            }
        });
        let lists: [fn(&mut PressCase) -> &mut List; 2] = [
            |case| &mut case.question.lent.owners,
            |case| &mut case.question.lent.stages,
        ];
        for list in lists {
            let List { behind, .. } = list(&mut case).clone();
            case = case.least(presser, behind, |case, behind| list(case).behind = behind);
            let bytes = list(&mut case).other_than_0();
            case = case.least(presser, bytes, |case, bytes| {
                let list = &mut list(case).bytes;
                list.fill(0);
                for (place, byte) in bytes {
                    list[place] = byte;
                }
            });
        }
        case
    }

    /// The case with as few of these items as can be found to fail.
    fn least<T: Clone>(
        &self,
        presser: &Presser,
        items: Vec<T>,
        put: impl Fn(&mut PressCase, Vec<T>),
    ) -> PressCase {
        let with = |items: &[T]| {
            let mut case = self.clone();
            put(&mut case, items.to_vec());
            case
        };
        let fails = |items: &[T]| with(items).fails(presser).map(|_| items.len());
        with(&shrink(items, fails))
    }
}
