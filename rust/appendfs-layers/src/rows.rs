//! Listings: rows that a call fills, and what is read from them.

/// A row of a listing, lent to a call to be filled.
#[derive(Debug, Clone, Copy, PartialEq, Eq, Default)]
#[repr(C)]
pub struct Entry {
    /// Where the name starts in the image.
    pub start: usize,
    /// Its length.
    pub length: usize,
    /// The inode; 0 for an attribute.
    pub inode: u64,
}

impl Entry {
    /// The name, in the image that was listed. Of another image it is whatever stands there, or nothing.
    pub fn name<'a>(&self, image: &'a [u8]) -> &'a [u8] {
        self.start.checked_add(self.length).and_then(|end| image.get(self.start..end)).unwrap_or(&[])
    }
}

/// The entries of a directory, rising by bytes: each name with its inode.
#[derive(Debug, Clone)]
pub struct DirEntries<'a, 'r> {
    pub(crate) image: &'a [u8],
    pub(crate) rows: core::slice::Iter<'r, Entry>,
}

impl<'a> Iterator for DirEntries<'a, '_> {
    type Item = (&'a [u8], u64);

    fn next(&mut self) -> Option<(&'a [u8], u64)> {
        self.rows.next().map(|row| (row.name(self.image), row.inode))
    }

    fn size_hint(&self) -> (usize, Option<usize>) {
        self.rows.size_hint()
    }
}

impl ExactSizeIterator for DirEntries<'_, '_> {}

/// The names of extended attributes, rising by bytes.
#[derive(Debug, Clone)]
pub struct XattrNames<'a, 'r> {
    pub(crate) image: &'a [u8],
    pub(crate) rows: core::slice::Iter<'r, Entry>,
}

impl<'a> Iterator for XattrNames<'a, '_> {
    type Item = &'a [u8];

    fn next(&mut self) -> Option<&'a [u8]> {
        self.rows.next().map(|row| row.name(self.image))
    }

    fn size_hint(&self) -> (usize, Option<usize>) {
        self.rows.size_hint()
    }
}

impl ExactSizeIterator for XattrNames<'_, '_> {}
