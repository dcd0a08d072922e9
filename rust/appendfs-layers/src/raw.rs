//! The functions of the static library, as include/appendfs_layers.h declares them. A slice is a pointer and a length.

use crate::Entry;

#[repr(C)]
pub struct YesNo {
    pub refusal: u32,
    pub yes: bool,
}

#[repr(C)]
pub struct Type {
    pub refusal: u32,
    pub found: bool,
    pub kind: u32,
}

#[repr(C)]
pub struct Inode {
    pub refusal: u32,
    pub found: bool,
    pub inode: u64,
}

#[repr(C)]
pub struct Timestamp {
    pub seconds: i64,
    pub nanos: u32,
}

#[repr(C)]
pub struct Attributes {
    pub ino: u64,
    pub kind: u32,
    pub perm: u32,
    pub nlink: u32,
    pub uid: u32,
    pub gid: u32,
    pub rdev: u32,
    pub size: u64,
    pub atime: Timestamp,
    pub mtime: Timestamp,
    pub ctime: Timestamp,
}

#[repr(C)]
pub struct Attr {
    pub refusal: u32,
    pub found: bool,
    pub attr: Attributes,
}

#[repr(C)]
pub struct Text {
    pub refusal: u32,
    pub found: bool,
    pub start: usize,
    pub length: usize,
}

#[repr(C)]
pub struct Rows {
    pub refusal: u32,
    pub found: bool,
    pub count: usize,
}

#[repr(C)]
pub struct Change {
    pub refusal: u32,
    pub length: usize,
}

unsafe extern "C" {
    pub fn appendfs_exists(img: *const u8, img_len: usize, ino: u64) -> YesNo;
    pub fn appendfs_file_type(img: *const u8, img_len: usize, ino: u64) -> Type;
    pub fn appendfs_attr(img: *const u8, img_len: usize, ino: u64) -> Attr;
    pub fn appendfs_parent_dir_inode(img: *const u8, img_len: usize, ino: u64) -> Inode;
    pub fn appendfs_lookup_child(img: *const u8, img_len: usize, ino: u64, name: *const u8, name_len: usize) -> Inode;
    pub fn appendfs_read_link(img: *const u8, img_len: usize, ino: u64) -> Text;
    pub fn appendfs_has_link(img: *const u8, img_len: usize, ino: u64) -> YesNo;
    pub fn appendfs_get_xattr(img: *const u8, img_len: usize, ino: u64, name: *const u8, name_len: usize) -> Text;
    pub fn appendfs_has_xattr(img: *const u8, img_len: usize, ino: u64, name: *const u8, name_len: usize) -> YesNo;
    pub fn appendfs_list_directory(img: *const u8, img_len: usize, ino: u64, rows: *mut Entry, rows_len: usize)
    -> Rows;
    pub fn appendfs_list_xattrs(img: *const u8, img_len: usize, ino: u64, rows: *mut Entry, rows_len: usize) -> Rows;
    pub fn appendfs_insert_new_node(
        img: *const u8,
        img_len: usize,
        ino: u64,
        delta: *const u8,
        delta_len: usize,
        target: *mut u8,
        target_len: usize,
    ) -> Change;
    pub fn appendfs_tombstone(img: *const u8, img_len: usize, ino: u64, target: *mut u8, target_len: usize) -> Change;
    pub fn appendfs_add_dir_entry(
        img: *const u8,
        img_len: usize,
        ino: u64,
        name: *const u8,
        name_len: usize,
        inode: u64,
        seconds: i64,
        nanos: u32,
        target: *mut u8,
        target_len: usize,
    ) -> Change;
    pub fn appendfs_remove_dir_entry(
        img: *const u8,
        img_len: usize,
        ino: u64,
        name: *const u8,
        name_len: usize,
        seconds: i64,
        nanos: u32,
        target: *mut u8,
        target_len: usize,
    ) -> Change;
    pub fn appendfs_update_dir_parent(
        img: *const u8,
        img_len: usize,
        ino: u64,
        parent: u64,
        target: *mut u8,
        target_len: usize,
    ) -> Change;
    pub fn appendfs_update_attr_delta(
        img: *const u8,
        img_len: usize,
        ino: u64,
        delta: *const u8,
        delta_len: usize,
        target: *mut u8,
        target_len: usize,
    ) -> Change;
    pub fn appendfs_normalize_directory_deltas(
        img: *const u8,
        img_len: usize,
        position: u64,
        target: *mut u8,
        target_len: usize,
    ) -> Change;
    pub fn appendfs_freeze_live(
        img: *const u8,
        img_len: usize,
        depth: u64,
        bytes: u64,
        operations: u64,
        seconds: i64,
        nanos: u32,
        target: *mut u8,
        target_len: usize,
    ) -> Change;
    pub fn appendfs_fold_entries(img: *const u8, img_len: usize, target: *mut u8, target_len: usize) -> Change;
    pub fn appendfs_pop_flushed_batch(
        img: *const u8,
        img_len: usize,
        batch_id: u64,
        target: *mut u8,
        target_len: usize,
    ) -> Change;
    pub fn appendfs_record_mutation(
        img: *const u8,
        img_len: usize,
        additional_bytes: u64,
        target: *mut u8,
        target_len: usize,
    ) -> Change;
    pub fn appendfs_request(img: *const u8, img_len: usize, reason: u64, target: *mut u8, target_len: usize) -> Change;
    pub fn appendfs_snapshot_all(img: *const u8, img_len: usize, target: *mut u8, target_len: usize) -> Change;
}
