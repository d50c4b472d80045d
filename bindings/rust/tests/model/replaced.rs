//! What renames onto another entry's name came to.
use crate::call::Call;
use crate::history::History;
use crate::store::{Done, Held, Store};

#[derive(Clone, Copy, Debug, Default)]
pub struct Replaced {
    /// Both names were the same file's, and nothing changed.
    pub same: usize,
    /// The holder was a file's last name, one of several, or an empty directory's.
    pub freed: usize,
    pub linked: usize,
    pub directories: usize,
    /// A move to a slot below the holder's, or into it.
    pub below: usize,
    pub refilled: usize,
    /// A move into the slot of an entry that stood untouched since the start of the copy.
    pub refilled_stood: usize,
    /// Refused, since the holder was locked and nothing else was.
    pub locked: usize,
}

impl Replaced {
    /// An accepted call, before the history learns of it.
    pub fn note(&mut self, done: &Done, history: Option<&History>) {
        match done.held {
            None => return,
            Some(Held::Same) => self.same += 1,
            Some(Held::Freed) => self.freed += 1,
            Some(Held::Linked) => self.linked += 1,
            Some(Held::Directory) => self.directories += 1,
        }
        if let (Some(holder), Some(made)) = (done.taken.first(), done.made) {
            let place = (holder.directory, holder.slot);
            let stood = history.is_some_and(|history| history.untouched(place));
            self.below += usize::from(made < place);
            self.refilled += usize::from(made == place);
            self.refilled_stood += usize::from(made == place && stood);
        }
    }

    /// A call that was refused with 14.
    pub fn note_busy(&mut self, call: &Call, store: &Store, locked: Option<usize>) {
        if let Call::Rename(directory, name, to, to_name) = call
            && ![Some(*directory), Some(*to), store.named(*directory, name)].contains(&locked)
        {
            self.locked += usize::from(store.named(*to, to_name) == locked);
        }
    }

    pub fn add(&mut self, other: &Replaced) {
        self.same += other.same;
        self.freed += other.freed;
        self.linked += other.linked;
        self.directories += other.directories;
        self.below += other.below;
        self.refilled += other.refilled;
        self.refilled_stood += other.refilled_stood;
        self.locked += other.locked;
    }

    pub fn all(&self) -> [usize; 8] {
        let Replaced { same, freed, linked, directories, below, refilled, refilled_stood, locked } = *self;
        [same, freed, linked, directories, below, refilled, refilled_stood, locked]
    }
}
