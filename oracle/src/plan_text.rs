//! The text of a plan, as `show_plan` prints it: a line a message, forward ones first, then a line a key.
use std::fmt::{self, Display};

use crate::plan::{Gathered, Message, Plan};
use crate::solver::Slot;

impl Display for Plan {
    fn fmt(&self, f: &mut fmt::Formatter<'_>) -> fmt::Result {
        for (pass, messages) in [("forward", &self.forward), ("backward", &self.backward)] {
            for (place, Message { step, content, work, .. }) in messages.iter().enumerate() {
                let (content, kept, cleared) =
                    (words(content.iter().map(slot)), words(&work.kept), words(&work.cleared));
                writeln!(f, "{pass} {place} step {step} content{content} kept{kept} cleared{cleared}")?;
            }
        }
        for Gathered { key, forward, backward, originals, leaves, work } in &self.gathered {
            let [ahead, behind, own] = [forward, backward, originals].map(words);
            let [leaves, last] = [leaves, &work.cleared].map(words);
            writeln!(f, "key {key} forward{ahead} backward{behind} originals{own} leaves{leaves} last{last}")?;
        }
        Ok(())
    }
}

/// A message of the same pass has an m before its place.
fn slot(slot: &Slot) -> String {
    match slot {
        Slot::Original(i) => i.to_string(),
        Slot::Closed(j) => format!("m{j}"),
    }
}

/// Each behind a space.
fn words<T: Display>(list: impl IntoIterator<Item = T>) -> String {
    list.into_iter().map(|item| format!(" {item}")).collect()
}
