//! Calls made three times: of the library, of the model, and of a second store of the library with no copy running. Whatever
//! the three should agree on is compared after every call.
use honecerise::{CopyState, Files, Inode, Refusal, Watch, desk_len, enough_image, image_len, most_steps, store_len};

use crate::call::{Answer, Call, Kind, Sizes};
use crate::copier::{Copier, State};
use crate::history::History;
use crate::replaced::Replaced;
use crate::store::{Body, EDGE, Store};
use crate::{laid, seen};

/// How often the whole store is listed and compared, beside every finish.
const LIST_EVERY: usize = 8;

#[derive(Clone, PartialEq, Eq)]
struct Buffers {
    store: Vec<u8>,
    image: Vec<u8>,
    desk: Vec<u8>,
}

impl Buffers {
    fn new(sizes: Sizes, with_image: bool) -> Self {
        let Sizes { inodes, blocks, image_blocks } = sizes;
        let image = if with_image { image_len(inodes, image_blocks) } else { 0 };
        let mut buffers =
            Buffers { store: vec![0; store_len(inodes, blocks)], image: vec![0; image], desk: vec![0; desk_len(inodes)] };
        Watch::lay_out(&mut buffers.store, &mut buffers.image, &mut buffers.desk, inodes, blocks).expect("sizes are allowed");
        buffers
    }

    fn watch(&mut self) -> Watch<'_> {
        Watch::over(&mut self.store, &mut self.image, &mut self.desk)
    }
}

/// What the lists reached.
#[derive(Clone, Debug, Default)]
pub struct Tally {
    pub calls: usize,
    /// By number of the refusal.
    pub refused: [usize; 19],
    pub finishes: usize,
    /// Entries that the claim about a finished copy was about.
    pub claimed: usize,
    /// Inodes that were copied, freed and taken again in one copy.
    pub reused: usize,
    /// Those that were a file in the copy and are now a directory.
    pub reused_as_directory: usize,
    pub zeroed: usize,
    pub dropped: usize,
    pub displaced: usize,
    pub address_blocks: usize,
    /// Writes and shortenings that crossed 768 bytes while a copy ran, by what the copier had of the file: all of it, or nothing.
    pub crossed_copied: usize,
    pub crossed_uncopied: usize,
    /// Writes and shortenings that crossed 768 bytes while no copy ran.
    pub crossed_idle: usize,
    /// Steps accepted in bursts, copies that a burst finished, and copies that it stopped after steps of its own.
    pub burst_steps: usize,
    pub burst_finishes: usize,
    pub burst_stops: usize,
    pub replaced: Replaced,
}

impl Tally {
    pub fn add(&mut self, other: &Tally) {
        self.calls += other.calls;
        self.finishes += other.finishes;
        self.claimed += other.claimed;
        self.reused += other.reused;
        self.reused_as_directory += other.reused_as_directory;
        self.zeroed += other.zeroed;
        self.dropped += other.dropped;
        self.displaced += other.displaced;
        self.address_blocks += other.address_blocks;
        self.crossed_copied += other.crossed_copied;
        self.crossed_uncopied += other.crossed_uncopied;
        self.crossed_idle += other.crossed_idle;
        self.burst_steps += other.burst_steps;
        self.burst_finishes += other.burst_finishes;
        self.burst_stops += other.burst_stops;
        self.replaced.add(&other.replaced);
        self.refused.iter_mut().zip(other.refused).for_each(|(sum, count)| *sum += count);
    }
}

pub struct Session {
    sizes: Sizes,
    buffers: Buffers,
    /// The buffers before the call.
    before: Buffers,
    /// The plain store: fed the file calls, less those answered 14.
    plain: Buffers,
    pub store: Store,
    pub copier: Copier,
    history: Option<History>,
    /// Accepted steps since the latest start.
    steps: usize,
    tally: Tally,
}

/// One call of the library: its answer, and a read's out-buffer, which holds aa before.
fn make(watch: &mut Watch, call: &Call) -> (Answer, Vec<u8>) {
    let mut out = vec![];
    let number = |r: Result<Inode, Refusal>| r.map(|inode| inode.0);
    let nothing = |r: Result<(), Refusal>| r.map(|()| 0);
    let answer = match call {
        Call::LookUp(d, name) => number(watch.look_up(Inode(*d), name)),
        Call::Create(d, name, Kind::File) => number(watch.create_file(Inode(*d), name)),
        Call::Create(d, name, Kind::Directory) => number(watch.create_directory(Inode(*d), name)),
        Call::Read(i, offset, length) => {
            out.resize(*length, 0xaa);
            watch.read(Inode(*i), *offset, &mut out)
        }
        Call::Write(i, offset, bytes) => watch.write(Inode(*i), *offset, bytes),
        Call::Shorten(i, length) => watch.shorten(Inode(*i), *length),
        Call::Link(d, name, i) => nothing(watch.link(Inode(*d), name, Inode(*i))),
        Call::Unlink(d, name) => nothing(watch.unlink(Inode(*d), name)),
        Call::Rename(d, name, e, to) => nothing(watch.rename(Inode(*d), name, Inode(*e), to)),
        Call::RenameNew(d, name, e, to) => nothing(watch.rename_new(Inode(*d), name, Inode(*e), to)),
        Call::Start => nothing(watch.start()),
        Call::Step => watch.step(),
        Call::Burst(count) => watch.burst(*count),
        Call::Ask => watch.status().map(|_| 0),
    };
    (answer.map_err(Refusal::number), out)
}

/// The file that a call is to write or shorten.
fn changed(call: &Call) -> Option<usize> {
    match call {
        Call::Write(inode, ..) | Call::Shorten(inode, _) => Some(*inode),
        _ => None,
    }
}

fn agree<T: PartialEq + std::fmt::Debug>(what: &str, library: T, model: T) -> Result<(), String> {
    if library == model { Ok(()) } else { Err(format!("{what}: the library has {library:?}, expected was {model:?}")) }
}

impl Session {
    pub fn new(sizes: Sizes) -> Self {
        let buffers = Buffers::new(sizes, true);
        Session {
            sizes,
            before: buffers.clone(),
            buffers,
            plain: Buffers::new(sizes, false),
            store: Store::new(sizes.inodes, sizes.blocks),
            copier: Copier::idle(),
            history: None,
            steps: 0,
            tally: Tally::default(),
        }
    }

    pub fn tally(mut self) -> Tally {
        let aims = self.copier.aims;
        (self.tally.zeroed, self.tally.dropped, self.tally.displaced) = (aims.zeroed, aims.dropped, aims.displaced);
        self.tally.address_blocks = aims.address_blocks;
        self.tally
    }

    /// Makes a call, and says what is wrong with what it did.
    pub fn call(&mut self, call: &Call) -> Result<(), String> {
        self.before.clone_from(&self.buffers);
        let (answer, out) = make(&mut self.buffers.watch(), call);
        self.tally.calls += 1;
        self.tally.refused[usize::from(answer.err().unwrap_or(0))] += 1;
        match call {
            Call::Start => self.start(answer)?,
            Call::Step => self.step(answer)?,
            Call::Burst(count) => self.burst(*count, answer)?,
            Call::Ask => {
                agree("answer", answer, Ok(0))?;
                agree("a question changes nothing", self.buffers == self.before, true)?;
                self.status()?;
            }
            _ => self.file_call(call, answer, out)?,
        }
        agree("the desk's bytes", self.buffers.desk == laid::desk(&self.copier, self.sizes), true)?;
        if answer.is_err() && answer != Err(16) {
            agree("a refusal changes nothing", self.buffers == self.before, true)?;
        }
        if self.tally.calls.is_multiple_of(LIST_EVERY) { self.contents() } else { Ok(()) }
    }

    fn start(&mut self, answer: Answer) -> Result<(), String> {
        agree("answer", answer, self.copier.start(self.sizes.image_blocks))?;
        agree("a start leaves the store", self.buffers.store == self.before.store, true)?;
        if answer.is_ok() {
            self.history = Some(History::begin(&self.store));
            self.steps = 0;
            self.status()?;
            self.image()?;
        }
        Ok(())
    }

    fn step(&mut self, answer: Answer) -> Result<(), String> {
        agree("answer", answer, self.copier.step(&self.store))?;
        agree("a step leaves the store", self.buffers.store == self.before.store, true)?;
        self.steps += usize::from(answer.is_ok());
        if answer == Err(16) {
            agree("16 leaves the image", self.buffers.image == self.before.image, true)?;
            agree("16 comes only with too few blocks", self.sizes.image_blocks < enough_image(self.sizes.inodes), true)?;
            self.status()?;
        }
        if answer.is_ok() {
            self.image()?;
        }
        if answer.is_ok() && self.copier.state == State::Finished { self.finish() } else { Ok(()) }
    }

    /// A burst against the model's, and against the single steps of the library that it stands for.
    fn burst(&mut self, count: usize, answer: Answer) -> Result<(), String> {
        let was = self.copier.state;
        agree("answer", answer, self.copier.burst(&self.store, count))?;
        let mut singly = self.before.clone();
        let tried = match answer {
            Err(17) => 0,
            Err(_) => 1,
            Ok(done) if self.copier.state == State::Finished => done,
            Ok(done) => count.min(done + 1),
        };
        for _ in 0..tried {
            _ = singly.watch().step();
        }
        agree("single steps leave the same bytes", self.buffers == singly, true)?;
        let done = answer.unwrap_or(0);
        self.steps += done;
        self.tally.burst_steps += done;
        if answer == Err(16) {
            agree("16 leaves the image", self.buffers.image == self.before.image, true)?;
        }
        if was == State::Running && self.copier.state == State::Stopped {
            agree("16 comes only with too few blocks", self.sizes.image_blocks < enough_image(self.sizes.inodes), true)?;
            self.tally.burst_stops += usize::from(done > 0);
        }
        if was != State::Running || answer == Err(17) {
            return Ok(());
        }
        self.status()?;
        self.image()?;
        if self.copier.state != State::Finished {
            return Ok(());
        }
        self.tally.burst_finishes += 1;
        self.finish()
    }

    fn file_call(&mut self, call: &Call, answer: Answer, out: Vec<u8>) -> Result<(), String> {
        let size = changed(call).and_then(|inode| self.store.bytes(inode).ok()).map_or(0, Vec::len);
        let expected = self.store.call(call, self.copier.locked);
        agree("answer", answer, expected.as_ref().map(|done| done.answer).map_err(|&number| number))?;
        if answer == Err(14) {
            self.tally.replaced.note_busy(call, &self.store, self.copier.locked);
        } else {
            let plainly = make(&mut self.plain.watch(), call);
            agree("answer of a plain store", (answer, &out), (plainly.0, &plainly.1))?;
        }
        agree("the store's bytes are a plain store's", self.buffers.store == self.plain.store, true)?;
        if self.copier.state != State::Running {
            agree("while no copy runs the desk stays", self.buffers.desk == self.before.desk, true)?;
        }
        let mut image_changed = false;
        if let Call::Read(_, _, length) = call {
            let mut read = expected.as_ref().map_or(vec![], |done| done.out.clone());
            read.resize(*length, 0xaa);
            agree("out-buffer", out, read)?;
        }
        if let Ok(done) = expected {
            image_changed = self.copier.learn(&done);
            self.tally.replaced.note(&done, self.history.as_ref());
            if let Some(inode) = done.written
                && (size > EDGE) != (done.answer > EDGE)
            {
                self.crossed(inode);
            }
            if let Some(history) = &mut self.history {
                history.note(&done, &self.store);
            }
            if let (Call::Create(_, _, kind), State::Running) = (call, self.copier.state) {
                let again = self.copier.copied.contains(&done.answer);
                let was = self.copier.image.nodes.get(&done.answer).and_then(|kept| kept.kind);
                self.tally.reused += usize::from(again);
                self.tally.reused_as_directory += usize::from(again && was == Some(Kind::File) && *kind == Kind::Directory);
            }
        }
        agree("the image changed", self.buffers.image != self.before.image, image_changed)?;
        if image_changed { self.image() } else { Ok(()) }
    }

    fn crossed(&mut self, inode: usize) {
        match (self.copier.state, self.copier.copied.contains(&inode)) {
            (State::Running, true) => self.tally.crossed_copied += 1,
            (State::Running, false) => self.tally.crossed_uncopied += 1,
            _ => self.tally.crossed_idle += 1,
        }
    }

    /// The image's bytes, of a copy that runs or has just finished.
    fn image(&self) -> Result<(), String> {
        let expected = laid::image(&self.copier, self.sizes);
        let at = self.buffers.image.iter().zip(&expected).position(|(a, b)| a != b);
        agree("the image's first byte that is another than the records say", at, None)
    }

    /// The state question, against the model and the accepted steps counted here.
    fn status(&mut self) -> Result<(), String> {
        let status = self.buffers.watch().status().map_err(|refusal| format!("the state is refused: {refusal}"))?;
        let state = match status.state {
            CopyState::Idle => State::Idle,
            CopyState::Running => State::Running,
            CopyState::Finished => State::Finished,
            CopyState::Stopped => State::Stopped,
        };
        agree("state", state, self.copier.state)?;
        agree("locked inode", status.locked.map(|inode| inode.0), self.copier.locked)?;
        agree("steps", status.steps, self.steps)?;
        agree("steps are at most 46 for each inode, and 1", self.steps <= most_steps(self.sizes.inodes), true)
    }

    /// What the store holds: by the listing, and by look up and read.
    pub fn contents(&mut self) -> Result<(), String> {
        let files = Files::of_store(&self.buffers.store).ok_or("the store is not sound")?;
        let held = seen::of_bytes(&files, &self.buffers.store);
        held.same_as(&seen::of_store(&self.store)).map_err(|why| format!("the store's {why}"))?;
        let watch = self.buffers.watch();
        for (&inode, node) in &self.store.nodes {
            match &node.body {
                Body::File(bytes) => {
                    let mut out = vec![0; bytes.len() + 1];
                    agree("a file's size by a read", watch.read(Inode(inode), 0, &mut out), Ok(bytes.len()))?;
                    agree("a file's bytes by a read", &out[..bytes.len()], bytes)?;
                }
                Body::Directory(slots) => {
                    for entry in slots.iter().flatten() {
                        agree("an entry looked up", watch.look_up(Inode(inode), &entry.name), Ok(Inode(entry.inode)))?;
                    }
                }
            }
        }
        Ok(())
    }

    /// What demand 3 says of a finished copy, and what the rules say of every entry and byte of it.
    fn finish(&mut self) -> Result<(), String> {
        self.status()?;
        self.contents()?;
        let copy = Files::of_image(&self.buffers.image).ok_or("the image is not sound")?;
        let history = self.history.take().expect("a copy that finishes was started");
        self.tally.claimed += history.claim(&copy)?;
        self.tally.finishes += 1;
        agree("the image's inodes and blocks", (copy.inodes(), copy.blocks()), (self.sizes.inodes, self.sizes.image_blocks))?;
        let held = seen::of_bytes(&copy, &self.buffers.image);
        held.same_as(&seen::of_image(&self.copier.image, self.sizes.inodes)).map_err(|why| format!("the copy's {why}"))
    }
}
