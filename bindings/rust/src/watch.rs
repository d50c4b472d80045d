//! The three lent buffers, with all calls.
use core::fmt;

use crate::ffi::{self, Lent};
use crate::{Files, Inode, MAX_INODES, Refusal, desk_len};

/// Where the copier is.
#[derive(Clone, Copy, Debug, PartialEq, Eq, Hash)]
pub enum CopyState {
    /// No copy since the desk was laid out.
    Idle,
    /// A copy runs: [`Watch::step`] or [`Watch::burst`] goes on with it.
    Running,
    /// The image is a finished copy.
    Finished,
    /// [`Refusal::ImageFull`] ended the copy; the image is none.
    Stopped,
}

/// What the copier reports.
#[derive(Clone, Copy, Debug, PartialEq, Eq, Hash)]
pub struct Status {
    /// Where it is.
    pub state: CopyState,
    /// The inode that it is copying just now.
    pub locked: Option<Inode>,
    /// The accepted steps since the latest start.
    pub steps: usize,
}

/// A store, the image that copies of it go to, and the copier's desk: three buffers lent for as long as the watch is in hand.
///
/// Names are any bytes: `"laps"`, `b"laps"` and `[0xff, 0x20]` are all names; `Run1` and `run1` are one. Every call examines its buffers first, and
/// refuses with [`BadBuffer`](Refusal::BadBuffer), [`UnsoundStore`](Refusal::UnsoundStore) or [`BadDesk`](Refusal::BadDesk) if
/// they are not what they must be: with buffers that [`lay_out`](Watch::lay_out) of this release made and nobody else wrote to, that never
/// happens. What else a call refuses stands with it.
///
/// ```
/// use honecerise::{desk_len, store_len, Inode, Refusal, Watch};
/// # let (mut store, mut desk) = ([0; store_len(16, 64)], [0; desk_len(16)]);
/// // no copy is taken, so no image is needed
/// let mut watch = Watch::lay_out(&mut store, &mut [], &mut desk, 16, 64)?;
/// let run = watch.create_file(Inode::ROOT, "run1")?;
/// assert_eq!(watch.write(run, 0, b"71.2 70.8")?, 9);
/// assert_eq!(watch.create_file(Inode::ROOT, "run1"), Err(Refusal::NameTaken));
/// # Ok::<(), Refusal>(())
/// ```
pub struct Watch<'a> {
    lent: Lent<'a>,
}

impl<'a> Watch<'a> {
    /// Lays out an empty store and an idle desk. The image is left as it is: a start lays it out.
    ///
    /// Refused with [`BadBuffer`](Refusal::BadBuffer) unless store and desk have the lengths that
    /// [`store_len`](crate::store_len) and [`desk_len`] say, for 1 to 256 inodes and 1 to 1,024 blocks.
    pub fn lay_out(
        store: &'a mut [u8],
        image: &'a mut [u8],
        desk: &'a mut [u8],
        inodes: usize,
        blocks: usize,
    ) -> Result<Self, Refusal> {
        // the desk's length first, so that a refusal leaves the store as it was
        if inodes > MAX_INODES || desk.len() != desk_len(inodes) {
            return Err(Refusal::BadBuffer);
        }
        ffi::lay_out_store(store, inodes, blocks)?;
        ffi::lay_out_desk(desk, inodes)?;
        Ok(Watch::over(store, image, desk))
    }

    /// A watch over buffers as they stand, from an earlier time or from elsewhere. Nothing is looked at: each call does that.
    pub fn over(store: &'a mut [u8], image: &'a mut [u8], desk: &'a mut [u8]) -> Self {
        Watch { lent: Lent { store, image, desk } }
    }

    /// The store's bytes.
    pub fn store(&self) -> &[u8] {
        self.lent.store
    }

    /// The image's bytes.
    pub fn image(&self) -> &[u8] {
        self.lent.image
    }

    /// The desk's bytes.
    pub fn desk(&self) -> &[u8] {
        self.lent.desk
    }

    /// What the store holds, for listing it; `None` if it is not sound.
    pub fn files(&self) -> Option<Files<'_>> {
        Files::of_store(self.lent.store)
    }

    /// What the finished copy holds; `None` while the image is no sound finished one.
    pub fn copy(&self) -> Option<Files<'_>> {
        Files::of_image(self.lent.image)
    }

    // ---- looking and reading

    /// The inode that a name stands for.
    ///
    /// Refuses with `IllegalName`, `WrongInode`, `NameAbsent`.
    pub fn look_up(&self, directory: Inode, name: impl AsRef<[u8]>) -> Result<Inode, Refusal> {
        ffi::look_up(self.lent.store, directory.0, name.as_ref()).map(Inode)
    }

    /// Bytes of a file from `offset` on, as many as there are and `out` has room for: how many. The rest of `out` stays.
    ///
    /// Refuses with `WrongInode`, `PastEnd`.
    ///
    /// ```
    /// # use honecerise::{desk_len, store_len, Inode, Refusal, Watch};
    /// # let (mut store, mut desk) = ([0; store_len(16, 64)], [0; desk_len(16)]);
    /// # let mut watch = Watch::lay_out(&mut store, &mut [], &mut desk, 16, 64)?;
    /// # let run = watch.create_file(Inode::ROOT, "run1")?;
    /// # watch.write(run, 0, b"71.2 70.8")?;
    /// let mut lap = [0; 4];
    /// assert_eq!(watch.read(run, 5, &mut lap)?, 4);
    /// assert_eq!(&lap, b"70.8");
    /// # Ok::<(), Refusal>(())
    /// ```
    pub fn read(&self, inode: Inode, offset: usize, out: &mut [u8]) -> Result<usize, Refusal> {
        ffi::read(self.lent.store, inode.0, offset, out)
    }

    // ---- changing the store

    /// A new empty file: the lowest free inode.
    ///
    /// Refuses with `IllegalName`, `WrongInode`, `NameTaken`, `NoInode`, `NoBlocks`, `NoSlot`, `Busy`.
    pub fn create_file(&mut self, directory: Inode, name: impl AsRef<[u8]>) -> Result<Inode, Refusal> {
        ffi::create_file(&mut self.lent, directory.0, name.as_ref()).map(Inode)
    }

    /// A new empty directory: the lowest free inode.
    ///
    /// Refuses as [`create_file`](Watch::create_file) does.
    pub fn create_directory(&mut self, directory: Inode, name: impl AsRef<[u8]>) -> Result<Inode, Refusal> {
        ffi::create_directory(&mut self.lent, directory.0, name.as_ref()).map(Inode)
    }

    /// Lays bytes over a file from `offset`, which is at most its size, and grows it as needed: the new size.
    ///
    /// Refuses with `WrongInode`, `PastEnd`, `NoBlocks`, `Busy`.
    pub fn write(&mut self, inode: Inode, offset: usize, bytes: &[u8]) -> Result<usize, Refusal> {
        ffi::write(&mut self.lent, inode.0, offset, bytes)
    }

    /// Cuts a file to `length`, which is at most its size: the new size.
    ///
    /// Refuses with `WrongInode`, `PastEnd`, `Busy`.
    pub fn shorten(&mut self, inode: Inode, length: usize) -> Result<usize, Refusal> {
        ffi::shorten(&mut self.lent, inode.0, length)
    }

    /// A further name for a file.
    ///
    /// Refuses with `IllegalName`, `WrongInode`, `NameTaken`, `NoBlocks`, `NoSlot`, `Busy`.
    pub fn link(&mut self, directory: Inode, name: impl AsRef<[u8]>, inode: Inode) -> Result<(), Refusal> {
        ffi::link(&mut self.lent, directory.0, name.as_ref(), inode.0).map(drop)
    }

    /// Takes a name out: of a file, which is freed with its last name, or of an empty directory.
    ///
    /// Refuses with `IllegalName`, `WrongInode`, `NameAbsent`, `NotEmpty`, `Busy`.
    pub fn unlink(&mut self, directory: Inode, name: impl AsRef<[u8]>) -> Result<(), Refusal> {
        ffi::unlink(&mut self.lent, directory.0, name.as_ref()).map(drop)
    }

    /// Another name, another directory, or both. An entry that has the new name is replaced: it is unlinked first, a directory
    /// only if it is empty and a directory comes. If both names stand for the same file already, nothing changes. Another
    /// spelling of the entry's own name is written.
    ///
    /// Refuses with `IllegalName`, `WrongInode`, `NameAbsent`, `NotEmpty`, `IntoItself`, `KindsDiffer`, `NoBlocks`, `NoSlot`,
    /// `Busy`; with `NoBlocks` and `NoSlot` never where it replaces.
    ///
    /// ```
    /// # use honecerise::{desk_len, store_len, Inode, Refusal, Watch};
    /// # let (mut store, mut desk) = ([0; store_len(16, 64)], [0; desk_len(16)]);
    /// # let mut watch = Watch::lay_out(&mut store, &mut [], &mut desk, 16, 64)?;
    /// # let root = Inode::ROOT;
    /// let yesterday = watch.create_file(root, "best")?;
    /// let today = watch.create_file(root, "run 7")?;
    /// watch.rename(root, "run 7", root, "best")?;
    /// assert_eq!(watch.look_up(root, "best")?, today);
    /// assert_eq!(watch.files().expect("sound").kind(yesterday), None); // freed with its last name
    /// # Ok::<(), Refusal>(())
    /// ```
    pub fn rename(
        &mut self,
        directory: Inode,
        name: impl AsRef<[u8]>,
        to: Inode,
        to_name: impl AsRef<[u8]>,
    ) -> Result<(), Refusal> {
        ffi::rename(&mut self.lent, directory.0, name.as_ref(), to.0, to_name.as_ref()).map(drop)
    }

    /// As [`rename`](Watch::rename), but it replaces nothing: a name that another entry has refuses, and both stay.
    ///
    /// Refuses with `IllegalName`, `WrongInode`, `NameAbsent`, `NameTaken`, `IntoItself`, `NoBlocks`, `NoSlot`, `Busy`.
    ///
    /// ```
    /// # use honecerise::{desk_len, store_len, Inode, Refusal, Watch};
    /// # let (mut store, mut desk) = ([0; store_len(16, 64)], [0; desk_len(16)]);
    /// # let mut watch = Watch::lay_out(&mut store, &mut [], &mut desk, 16, 64)?;
    /// # let root = Inode::ROOT;
    /// // a recorder that keeps yesterday's run
    /// watch.create_file(root, "run")?;
    /// watch.create_file(root, "recording")?;
    /// assert_eq!(watch.rename_new(root, "recording", root, "Run"), Err(Refusal::NameTaken));
    /// watch.rename_new(root, "recording", root, "run 2")?;
    /// # Ok::<(), Refusal>(())
    /// ```
    pub fn rename_new(
        &mut self,
        directory: Inode,
        name: impl AsRef<[u8]>,
        to: Inode,
        to_name: impl AsRef<[u8]>,
    ) -> Result<(), Refusal> {
        ffi::rename_new(&mut self.lent, directory.0, name.as_ref(), to.0, to_name.as_ref()).map(drop)
    }

    // ---- the copier

    /// Begins a copy, and writes over the whole image. The image has as many inodes as the store and 1 to 4,096 blocks; with
    /// [`enough_image`](crate::enough_image) the copy always finishes.
    ///
    /// Refuses with `BadBuffer` for an image of another length, and with `WrongState` while a copy runs.
    pub fn start(&mut self) -> Result<(), Refusal> {
        ffi::start(&mut self.lent).map(drop)
    }

    /// One short step of the copy, which copies one block at most: the steps so far.
    ///
    /// Refuses with `WrongState` while no copy runs, and with `ImageFull`, which stops the copy.
    ///
    /// ```
    /// # use honecerise::{desk_len, image_len, store_len, CopyState, Refusal, Watch};
    /// # let (mut store, mut image, mut desk) = ([0; store_len(1, 1)], [0; image_len(1, 1)], [0; desk_len(1)]);
    /// let mut watch = Watch::lay_out(&mut store, &mut image, &mut desk, 1, 1)?;
    /// watch.start()?;
    /// while watch.status()?.state == CopyState::Running {
    ///     watch.step()?;
    /// }
    /// assert_eq!(watch.status()?.steps, 3); // an empty root
    /// assert_eq!(watch.step(), Err(Refusal::WrongState));
    /// # Ok::<(), Refusal>(())
    /// ```
    pub fn step(&mut self) -> Result<usize, Refusal> {
        ffi::step(&mut self.lent)
    }

    /// What so many single steps would do, 1 to [`MOST_BURST`](crate::MOST_BURST), in one call that examines its buffers once:
    /// how many of them were accepted. It ends early when the copy finishes or a step is refused; a refusal of the first is
    /// the answer, a later one only cuts the count short (after `ImageFull` the copy is stopped).
    ///
    /// Refuses with `BadCount`, and as [`step`](Watch::step) does.
    ///
    /// ```
    /// # use honecerise::{desk_len, image_len, store_len, CopyState, MOST_BURST, Refusal, Watch};
    /// # let (mut store, mut image, mut desk) = ([0; store_len(1, 1)], [0; image_len(1, 1)], [0; desk_len(1)]);
    /// let mut watch = Watch::lay_out(&mut store, &mut image, &mut desk, 1, 1)?;
    /// watch.start()?;
    /// assert_eq!(watch.burst(0), Err(Refusal::BadCount));
    /// assert_eq!(watch.burst(MOST_BURST)?, 3); // an empty root
    /// assert_eq!(watch.status()?.state, CopyState::Finished);
    /// # Ok::<(), Refusal>(())
    /// ```
    pub fn burst(&mut self, count: usize) -> Result<usize, Refusal> {
        ffi::burst(&mut self.lent, count)
    }

    /// State, locked inode and steps.
    pub fn status(&self) -> Result<Status, Refusal> {
        let (state, locked, steps) = ffi::state(&self.lent)?;
        Ok(Status {
            state: match state {
                0 => CopyState::Idle,
                1 => CopyState::Running,
                2 => CopyState::Finished,
                _ => CopyState::Stopped,
            },
            locked: (locked != 0).then_some(Inode(locked)),
            steps,
        })
    }
}

impl fmt::Debug for Watch<'_> {
    fn fmt(&self, f: &mut fmt::Formatter<'_>) -> fmt::Result {
        f.debug_struct("Watch").field("status", &self.status()).finish_non_exhaustive()
    }
}
