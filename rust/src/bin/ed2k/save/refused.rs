//! What a refused save says: why, that nothing was lost, where the work is, and what to do.

use std::fs;

use ed2k::Refusal;
use ed2k::disk::Mode;

use super::Save;
use crate::failure::Failure;
use crate::merge::versions::{OF_SAVE, Versions};
use crate::merge::{ADVICE, changes};
use crate::text;

/// In which way STORED is not the file that was opened.
enum Difference {
    StoredIsGone,
    StoredIsEmpty,
    OpenedIsGone,
    OpenedIsEmpty,
    SavedSince,
}

impl Save<'_> {
    /// The refusal of a save of these files: what was opened, what is stored, and what is new.
    pub(super) fn refused(&self, refusal: Refusal, files: [&[u8]; 3]) -> Failure {
        let [opened, _, new] = files;
        if ed2k::read_part_met(new).is_err() {
            let kept = text::file_name(self.store.name);
            return Failure::refused(text::input_name(self.new))(refusal)
                .and_say(format!("Nothing was saved: {kept} is as it was."));
        }
        let difference = self.difference(opened);
        if self.mode == Mode::Strict {
            return self.conflict(refusal, &difference);
        }
        match Versions::read(OF_SAVE, files) {
            Ok(versions) => self.unmerged(refusal, &versions, &difference),
            Err((place, own)) => self.unaccepted(place, own, &difference),
        }
    }

    fn difference(&self, opened: &[u8]) -> Difference {
        match fs::metadata(self.store.name) {
            Err(_) => Difference::StoredIsGone,
            Ok(stored) if stored.len() == 0 => Difference::StoredIsEmpty,
            Ok(_) if !opened.is_empty() => Difference::SavedSince,
            Ok(_) if fs::exists(self.opened).unwrap_or(true) => Difference::OpenedIsEmpty,
            Ok(_) => Difference::OpenedIsGone,
        }
    }

    fn refused_save(&self, refusal: Refusal, meaning: &'static str) -> Failure {
        Failure::refused_as(format!("the save of {}", text::input_name(self.new)), refusal, meaning)
    }

    /// A strict save over a file that is not the one opened.
    fn conflict(&self, refusal: Refusal, difference: &Difference) -> Failure {
        let advice = match self.advice(difference) {
            Some(advice) => advice,
            None => "To keep both, save without --strict, which merges them.".into(),
        };
        self.refused_save(refusal, "the stored file differs from the one opened")
            .and_say(self.happened(difference))
            .and_say(self.nothing_lost(difference))
            .and_say(advice)
    }

    /// Files that are accepted by themselves, and not merged.
    fn unmerged(&self, refusal: Refusal, versions: &Versions<'_>, difference: &Difference) -> Failure {
        let (meaning, why) = changes::of_refusal(refusal, versions);
        let failure = self.refused_save(refusal, meaning).and_say(self.happened(difference));
        let kept = self.nothing_lost(difference);
        if refusal == Refusal::Conflict {
            return failure.and_say(kept).and_say(why).and_say(ADVICE.into());
        }
        failure.and_say(why).and_say(kept)
    }

    /// The opened or the stored file is not accepted by itself, so that nothing can be merged.
    fn unaccepted(&self, place: usize, own: Refusal, difference: &Difference) -> Failure {
        let name = [self.opened, self.store.name, self.new][place];
        let what = format!("the {} {}", OF_SAVE.words[place], text::file_name(name));
        let failure = Failure::refused(what)(own).and_say(self.happened(difference));
        let kept = self.nothing_lost(difference);
        match self.advice(difference) {
            Some(advice) => failure.and_say(kept).and_say(advice),
            None => failure.and_say(MERGED.into()).and_say(kept),
        }
    }

    /// What happened, in a sentence.
    fn happened(&self, difference: &Difference) -> String {
        let (kept, opened) = (text::file_name(self.store.name), text::file_name(self.opened));
        let copy = format!("{opened}, the copy of what was opened,");
        match difference {
            Difference::StoredIsGone => format!("{kept} is not there, but {copy} is not empty."),
            Difference::StoredIsEmpty => format!("{kept} is empty, but {copy} is not."),
            Difference::OpenedIsGone => format!("{kept} is there, but {copy} is not."),
            Difference::OpenedIsEmpty => format!("{kept} is not empty, but {copy} is."),
            Difference::SavedSince => {
                format!("{kept} is not what it was when {opened} was opened: somebody has saved it since.")
            }
        }
    }

    fn nothing_lost(&self, difference: &Difference) -> String {
        let (kept, work) = (text::file_name(self.store.name), self.work());
        match difference {
            Difference::StoredIsGone => format!("Nothing was lost: nothing was written, and {work}."),
            _ => format!("Nothing was lost: {kept} is untouched, and {work}."),
        }
    }

    /// Where the person's work is. What came by standard input is nowhere else that we know of.
    fn work(&self) -> String {
        if self.new == "-" {
            return "your work is still with who sent it to standard input".into();
        }
        format!("your work is still in {}", text::file_name(self.new))
    }

    /// What to do where there are no three files to merge.
    fn advice(&self, difference: &Difference) -> Option<String> {
        let kept = text::file_name(self.store.name);
        match difference {
            Difference::StoredIsGone | Difference::StoredIsEmpty => {
                Some("For a first save, --opened names a file that is empty or not there.".into())
            }
            Difference::OpenedIsGone | Difference::OpenedIsEmpty => {
                Some(format!("To keep both, open {kept} again, make your change there, and save that."))
            }
            Difference::SavedSince => None,
        }
    }
}

const MERGED: &str = "Your save would be merged with that, for which all three files must be accepted.";
