//! The layered inode store of appendfs, over its proved static library.
//!
//! A store is an image: bytes (docs/FORMAT.md of the repository). An [`Image`] is any bytes: each call judges them first and refuses what
//! is no image, so nothing has to be checked before. A read answers from the bytes, and a text that it answers is a part of them. A change
//! writes the new image to a target that the caller lends and answers its length; a refused one has written nothing. No call keeps
//! anything, allocates or panics.
//!
//! Each call does exactly what its definition says, refusals included, which is proved of the code that is linked (crates/ffi).
//!
//! ```
//! use appendfs_layers::{Image, Limits, Time, IMAGE_MAX};
//!
//! // the root of document 01, and a target for each change
//! let root = [1, 1, 0, 0xED, 3, 2, 0, 0, 0, 0, 0, 0, 0, 0, 0, 1, 0, 0, 0, 1, 0, 0, 0];
//! let (mut a, mut b) = ([0; IMAGE_MAX], [0; IMAGE_MAX]);
//!
//! // a file of 300 bytes, with the name offset
//! let file = [2, 0, 1, 0xAC, 2];
//! let n = Image::new(&root).insert_new_node(2, &file, &mut a)?;
//! let n = Image::new(&a[..n]).add_dir_entry(1, "offset", 2, Time::new(7, 0), &mut b)?;
//! let live = Image::new(&b[..n]);
//! assert_eq!(live.lookup_child(1, "offset"), Ok(Some(2)));
//!
//! // frozen, folded and popped it is the same
//! let n = live.freeze_live(Limits::default(), Time::new(8, 0), &mut a)?;
//! let n = Image::new(&a[..n]).fold_entries(&mut b)?;
//! let n = Image::new(&b[..n]).pop_flushed_batch(1, &mut a)?;
//! let base = Image::new(&a[..n]);
//! assert_eq!(base.lookup_child(1, "offset"), Ok(Some(2)));
//! assert_eq!(base.attr(2)?.unwrap().size, 300);
//! # Ok::<(), appendfs_layers::Refusal>(())
//! ```

#![cfg_attr(not(feature = "std"), no_std)]

mod raw;
mod rows;
#[cfg(feature = "std")]
mod time;
mod types;

pub use rows::{DirEntries, Entry, XattrNames};
pub use types::{FileAttr, FileType, FlushReason, Refusal, Result, Time};

/// A target of so many bytes has room for every image.
pub const IMAGE_MAX: usize = 65_536;

/// The limits of the queue of batches. A queue that has reached one of them is at capacity; one of 16 batches always is.
#[derive(Debug, Clone, Copy, PartialEq, Eq)]
pub struct Limits {
    /// On the number of batches.
    pub depth: u64,
    /// On their bytes in all.
    pub bytes: u64,
    /// On their operations in all.
    pub operations: u64,
}

impl Default for Limits {
    /// No limit but that of 16 batches.
    fn default() -> Limits {
        Limits { depth: u64::MAX, bytes: u64::MAX, operations: u64::MAX }
    }
}

/// A store as bytes, whatever they are.
#[derive(Debug, Clone, Copy, PartialEq, Eq)]
pub struct Image<'a> {
    bytes: &'a [u8],
}

/// The value, unless the call was refused.
fn unless<T>(refusal: u32, value: T) -> Result<T> {
    match refusal {
        0 => Ok(value),
        n => Err(Refusal::from_number(n).unwrap_or_else(|| unreachable!("the library answered refusal {n}"))),
    }
}

fn yes_no(r: raw::YesNo) -> Result<bool> {
    unless(r.refusal, r.yes)
}

fn inode(r: raw::Inode) -> Result<Option<u64>> {
    unless(r.refusal, r.found.then_some(r.inode))
}

/// The rows that were filled: the count is within the rows lent, which is proved.
fn filled(r: raw::Rows, rows: &[Entry]) -> Result<Option<&[Entry]>> {
    unless(r.refusal, if r.found { rows.get(..r.count) } else { None })
}

fn length(r: raw::Change) -> Result<usize> {
    unless(r.refusal, r.length)
}

/// What every call below rests on: each function takes any bytes, reads and writes only inside the slices whose pointer and length it is
/// given, and keeps none of them, which is proved of it. A Rust slice is never null, and `&mut` overlaps nothing.
macro_rules! call {
    ($image:ident, $function:ident($($argument:expr),*)) => {
        // SAFETY: as above.
        unsafe { raw::$function($image.bytes.as_ptr(), $image.bytes.len(), $($argument),*) }
    };
}

/// A change has the target last, and answers the length of the new image in it.
macro_rules! change {
    ($image:ident, $function:ident($($argument:expr),*), $target:ident) => {
        length(call!($image, $function($($argument,)* $target.as_mut_ptr(), $target.len())))
    };
}

impl<'a> Image<'a> {
    /// The image of these bytes. They are judged by each call, not here.
    ///
    /// ```
    /// # use appendfs_layers::{Image, Refusal};
    /// assert_eq!(Image::new(&[0, 0, 0, 1, 0, 0, 0]).exists(1), Ok(false));   // the empty store
    /// assert_eq!(Image::new(&[0, 0, 0, 1, 0, 0]).exists(1), Err(Refusal::ImageBroken));
    /// ```
    pub const fn new(bytes: &'a [u8]) -> Image<'a> {
        Image { bytes }
    }

    /// Its bytes.
    pub const fn bytes(self) -> &'a [u8] {
        self.bytes
    }

    fn text(self, r: raw::Text) -> Result<Option<&'a [u8]>> {
        // the part is inside the image, which is proved; `get` is there so that this code needs no proof
        let text = r.start.checked_add(r.length).and_then(|end| self.bytes.get(r.start..end));
        unless(r.refusal, if r.found { text } else { None })
    }

    // ---- reads

    /// Whether the inode exists.
    pub fn exists(self, ino: u64) -> Result<bool> {
        yes_no(call!(self, appendfs_exists(ino)))
    }

    /// The type of the inode.
    pub fn file_type(self, ino: u64) -> Result<Option<FileType>> {
        let r = call!(self, appendfs_file_type(ino));
        unless(r.refusal, r.found.then(|| FileType::of(r.kind)))
    }

    /// The attributes of the inode.
    pub fn attr(self, ino: u64) -> Result<Option<FileAttr>> {
        let r = call!(self, appendfs_attr(ino));
        unless(r.refusal, r.found.then(|| FileAttr::of(r.attr)))
    }

    /// The parent of a directory. Inode 1 always has parent 1.
    pub fn parent_dir_inode(self, ino: u64) -> Result<Option<u64>> {
        inode(call!(self, appendfs_parent_dir_inode(ino)))
    }

    /// The inode that a name leads to in a directory.
    pub fn lookup_child(self, parent: u64, name: impl AsRef<[u8]>) -> Result<Option<u64>> {
        let name = name.as_ref();
        inode(call!(self, appendfs_lookup_child(parent, name.as_ptr(), name.len())))
    }

    /// The text of a link: a part of the image.
    pub fn read_link(self, ino: u64) -> Result<Option<&'a [u8]>> {
        self.text(call!(self, appendfs_read_link(ino)))
    }

    /// Whether there is a link's text.
    pub fn has_link(self, ino: u64) -> Result<bool> {
        yes_no(call!(self, appendfs_has_link(ino)))
    }

    /// The value of an extended attribute: a part of the image.
    pub fn get_xattr(self, ino: u64, name: impl AsRef<[u8]>) -> Result<Option<&'a [u8]>> {
        let name = name.as_ref();
        self.text(call!(self, appendfs_get_xattr(ino, name.as_ptr(), name.len())))
    }

    /// Whether there is such an attribute.
    pub fn has_xattr(self, ino: u64, name: impl AsRef<[u8]>) -> Result<bool> {
        let name = name.as_ref();
        yes_no(call!(self, appendfs_has_xattr(ino, name.as_ptr(), name.len())))
    }

    /// The entries of a directory, rising by bytes. They fill the first of the rows lent; [`Refusal::NoRoom`] if there are too few.
    ///
    /// ```
    /// # use appendfs_layers::{Entry, Image, Time};
    /// # let root = [1, 1, 0, 0xED, 3, 2, 0, 0, 0, 0, 0, 0, 0, 0, 0, 1, 0, 0, 0, 1, 0, 0, 0];
    /// # let mut target = [0; 100];
    /// let n = Image::new(&root).add_dir_entry(1, "offset", 2, Time::new(7, 0), &mut target)?;
    /// let mut rows = [Entry::default(); 8];
    /// for (name, inode) in Image::new(&target[..n]).list_directory(1, &mut rows)?.unwrap() {
    ///     assert_eq!((name, inode), (&b"offset"[..], 2));
    /// }
    /// # Ok::<(), appendfs_layers::Refusal>(())
    /// ```
    pub fn list_directory<'r>(self, ino: u64, rows: &'r mut [Entry]) -> Result<Option<DirEntries<'a, 'r>>> {
        let r = call!(self, appendfs_list_directory(ino, rows.as_mut_ptr(), rows.len()));
        let rows = filled(r, rows)?;
        Ok(rows.map(|rows| DirEntries { image: self.bytes, rows: rows.iter() }))
    }

    /// The names of the extended attributes, rising by bytes, in the first of the rows lent.
    pub fn list_xattrs<'r>(self, ino: u64, rows: &'r mut [Entry]) -> Result<Option<XattrNames<'a, 'r>>> {
        let r = call!(self, appendfs_list_xattrs(ino, rows.as_mut_ptr(), rows.len()));
        let rows = filled(r, rows)?;
        Ok(rows.map(|rows| XattrNames { image: self.bytes, rows: rows.iter() }))
    }

    // ---- changes of the live layer. Each answers the length of the new image in the target

    /// Puts a record in the place of the live one. `delta` is the record from its code on.
    pub fn insert_new_node(self, ino: u64, delta: &[u8], target: &mut [u8]) -> Result<usize> {
        change!(self, appendfs_insert_new_node(ino, delta.as_ptr(), delta.len()), target)
    }

    /// Puts a tombstone in the place of the live record.
    pub fn tombstone(self, ino: u64, target: &mut [u8]) -> Result<usize> {
        change!(self, appendfs_tombstone(ino), target)
    }

    /// Adds a name that leads to `child_ino` to the live directory delta of `parent`.
    pub fn add_dir_entry(
        self,
        parent: u64,
        name: impl AsRef<[u8]>,
        child_ino: u64,
        now: Time,
        target: &mut [u8],
    ) -> Result<usize> {
        let name = name.as_ref();
        change!(
            self,
            appendfs_add_dir_entry(parent, name.as_ptr(), name.len(), child_ino, now.seconds, now.nanos),
            target
        )
    }

    /// Removes a name, in the live directory delta of `parent`.
    pub fn remove_dir_entry(self, parent: u64, name: impl AsRef<[u8]>, now: Time, target: &mut [u8]) -> Result<usize> {
        let name = name.as_ref();
        change!(self, appendfs_remove_dir_entry(parent, name.as_ptr(), name.len(), now.seconds, now.nanos), target)
    }

    /// Sets the parent in the live directory delta.
    pub fn update_dir_parent(self, ino: u64, new_parent: u64, target: &mut [u8]) -> Result<usize> {
        change!(self, appendfs_update_dir_parent(ino, new_parent), target)
    }

    /// Merges into the live delta. `delta` is a mask and its fields.
    pub fn update_attr_delta(self, ino: u64, delta: &[u8], target: &mut [u8]) -> Result<usize> {
        change!(self, appendfs_update_attr_delta(ino, delta.as_ptr(), delta.len()), target)
    }

    /// Holds the directory deltas of the layer at a position against the layers below. Live is at the number of batches.
    pub fn normalize_directory_deltas(self, position: u64, target: &mut [u8]) -> Result<usize> {
        change!(self, appendfs_normalize_directory_deltas(position), target)
    }

    // ---- changes of the queue and the base

    /// Makes live the last batch, unless the queue is at capacity.
    pub fn freeze_live(self, limits: Limits, wall_now: Time, target: &mut [u8]) -> Result<usize> {
        change!(
            self,
            appendfs_freeze_live(limits.depth, limits.bytes, limits.operations, wall_now.seconds, wall_now.nanos),
            target
        )
    }

    /// Applies the front batch to the base. The batch stays in the queue.
    pub fn fold_entries(self, target: &mut [u8]) -> Result<usize> {
        change!(self, appendfs_fold_entries(), target)
    }

    /// Drops the front batch, whose id it must be.
    pub fn pop_flushed_batch(self, batch_id: u64, target: &mut [u8]) -> Result<usize> {
        change!(self, appendfs_pop_flushed_batch(batch_id), target)
    }

    /// Stages one operation more, and so many bytes.
    pub fn record_mutation(self, additional_bytes: u64, target: &mut [u8]) -> Result<usize> {
        change!(self, appendfs_record_mutation(additional_bytes), target)
    }

    /// Requests a freeze for a reason; `None` takes a request back.
    pub fn request(self, reason: Option<FlushReason>, target: &mut [u8]) -> Result<usize> {
        change!(self, appendfs_request(reason.map_or(0, |reason| reason as u64)), target)
    }

    /// Folds every layer into the base, and drops non-directories with 0 links.
    pub fn snapshot_all(self, target: &mut [u8]) -> Result<usize> {
        change!(self, appendfs_snapshot_all(), target)
    }
}
