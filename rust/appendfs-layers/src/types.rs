//! The types of the original, and its refusals.

use crate::raw;

/// Why a call was refused, with document 01's numbers. A refused call has written nothing.
///
/// ```
/// use appendfs_layers::Refusal;
/// assert_eq!(Refusal::WrongBatch.number(), 9);
/// assert_eq!(Refusal::from_number(9), Some(Refusal::WrongBatch));
/// assert_eq!(Refusal::from_number(0), None);
/// ```
#[derive(Debug, Clone, Copy, PartialEq, Eq, Hash)]
#[repr(u32)]
pub enum Refusal {
    /// 1: the image is over 65,536 bytes.
    ImageTooLong = 1,
    /// 2: the image is not by the layout.
    ImageBroken = 2,
    /// 3: the name is empty or over 255 bytes.
    BadName = 3,
    /// 4: a delta breaks the layout, has bytes left over or is a tombstone; or a time has 1,000,000,000 nanoseconds or more.
    BadArgument = 4,
    /// 5: the new image is over 65,536 bytes or over the target.
    NoRoom = 5,
    /// 6: the queue is at one of its limits.
    AtCapacity = 6,
    /// 7: there is nothing to freeze.
    LiveEmpty = 7,
    /// 8: there is no batch to fold or to pop.
    NoBatch = 8,
    /// 9: the id isn't the front batch's.
    WrongBatch = 9,
    /// 10: a staged count, or the next id, is at its end.
    CountFull = 10,
    /// 11: the position is above the number of batches.
    NoLayer = 11,
}

impl Refusal {
    /// Its number in document 01.
    pub const fn number(self) -> u32 {
        self as u32
    }

    /// The refusal of a number, from 1 to 11.
    pub const fn from_number(number: u32) -> Option<Refusal> {
        Some(match number {
            1 => Refusal::ImageTooLong,
            2 => Refusal::ImageBroken,
            3 => Refusal::BadName,
            4 => Refusal::BadArgument,
            5 => Refusal::NoRoom,
            6 => Refusal::AtCapacity,
            7 => Refusal::LiveEmpty,
            8 => Refusal::NoBatch,
            9 => Refusal::WrongBatch,
            10 => Refusal::CountFull,
            11 => Refusal::NoLayer,
            _ => return None,
        })
    }
}

impl core::fmt::Display for Refusal {
    fn fmt(&self, f: &mut core::fmt::Formatter<'_>) -> core::fmt::Result {
        let why = match self {
            Refusal::ImageTooLong => "image over 65,536 bytes",
            Refusal::ImageBroken => "image not by the layout",
            Refusal::BadName => "name empty or over 255 bytes",
            Refusal::BadArgument => "delta or time not right",
            Refusal::NoRoom => "no room for the new image",
            Refusal::AtCapacity => "queue at a limit",
            Refusal::LiveEmpty => "live is empty",
            Refusal::NoBatch => "no batch",
            Refusal::WrongBatch => "not the id of the front batch",
            Refusal::CountFull => "a count is at its end",
            Refusal::NoLayer => "position above the number of batches",
        };
        write!(f, "refused {}: {why}", self.number())
    }
}

impl core::error::Error for Refusal {}

/// What the calls answer.
pub type Result<T> = core::result::Result<T, Refusal>;

/// The type of a file.
#[derive(Debug, Clone, Copy, PartialEq, Eq, Hash)]
pub enum FileType {
    /// A directory.
    Directory,
    /// A regular file.
    RegularFile,
    /// A symbolic link.
    Symlink,
    /// A named pipe.
    NamedPipe,
    /// A character device.
    CharDevice,
    /// A block device.
    BlockDevice,
    /// A socket.
    Socket,
}

impl FileType {
    /// By its number in document 01: "kind 0 to 6".
    pub(crate) fn of(kind: u32) -> FileType {
        match kind {
            0 => FileType::Directory,
            1 => FileType::RegularFile,
            2 => FileType::Symlink,
            3 => FileType::NamedPipe,
            4 => FileType::CharDevice,
            5 => FileType::BlockDevice,
            6 => FileType::Socket,
            other => unreachable!("the library answered kind {other}"),
        }
    }
}

/// Seconds since 1970, which may be negative, and nanoseconds. A call that is given 1,000,000,000 nanoseconds or more refuses with
/// [`Refusal::BadArgument`].
#[derive(Debug, Clone, Copy, PartialEq, Eq, PartialOrd, Ord, Hash, Default)]
pub struct Time {
    /// Whole seconds, rounded down.
    pub seconds: i64,
    /// Nanoseconds after that.
    pub nanos: u32,
}

impl Time {
    /// A time.
    ///
    /// ```
    /// let t = appendfs_layers::Time::new(-1, 500_000_000);   // half a second before 1970
    /// assert!(t < appendfs_layers::Time::default());
    /// ```
    pub const fn new(seconds: i64, nanos: u32) -> Time {
        Time { seconds, nanos }
    }

    pub(crate) fn of(t: raw::Timestamp) -> Time {
        Time { seconds: t.seconds, nanos: t.nanos }
    }
}

/// The attributes of a file.
#[derive(Debug, Clone, Copy, PartialEq, Eq)]
pub struct FileAttr {
    /// The inode.
    pub ino: u64,
    /// The type.
    pub file_type: FileType,
    /// The permission.
    pub perm: u32,
    /// The number of links.
    pub nlink: u32,
    /// The owner.
    pub uid: u32,
    /// The group.
    pub gid: u32,
    /// The device number.
    pub rdev: u32,
    /// The size. By the layout sizes are below 2^63.
    pub size: i64,
    /// The time of the last access.
    pub atime: Time,
    /// The time of the last change of the contents.
    pub mtime: Time,
    /// The time of the last change of the attributes.
    pub ctime: Time,
}

impl FileAttr {
    pub(crate) fn of(a: raw::Attributes) -> FileAttr {
        FileAttr {
            ino: a.ino,
            file_type: FileType::of(a.kind),
            perm: a.perm,
            nlink: a.nlink,
            uid: a.uid,
            gid: a.gid,
            rdev: a.rdev,
            size: a.size as i64,
            atime: Time::of(a.atime),
            mtime: Time::of(a.mtime),
            ctime: Time::of(a.ctime),
        }
    }
}

/// Why a batch is frozen.
#[derive(Debug, Clone, Copy, PartialEq, Eq, Hash)]
#[repr(u64)]
pub enum FlushReason {
    /// A file sync.
    Fsync = 1,
    /// A directory sync.
    Fsyncdir = 2,
    /// An explicit sync point.
    Quiesce = 3,
    /// The periodic tick.
    Periodic = 4,
    /// Staged bytes or operations reached a threshold.
    Threshold = 5,
}
