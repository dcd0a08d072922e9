//! Document 01's layout, read in place: nothing is copied, nothing allocated.
//!
//! Written from document 01, as one would write it in Rust by hand; it shares no line with the port nor with the
//! oracle's reader. It is the second judge of damaged images and the measure of the benchmarks.
#![forbid(unsafe_code)]

pub const MAX_IMAGE: usize = 65_536;
const MAX_LAYERS: usize = 17;

/// Document 01's refusals of a read.
#[derive(Debug, Clone, Copy, PartialEq, Eq)]
pub enum Refusal {
    TooLong = 1,
    Broken = 2,
    Name = 3,
}

type Read<T> = Result<T, Refusal>;

/// Whether the bytes are an image.
pub fn validate(image: &[u8]) -> Read<()> {
    survey(image, None).map(|_| ())
}

/// The inode that `name` leads to in the directory `inode`.
pub fn lookup_child(image: &[u8], inode: u64, name: &[u8]) -> Read<Option<u64>> {
    let stack = survey(image, Some(inode))?;
    if name.is_empty() || name.len() > 255 {
        return Err(Refusal::Name);
    }
    for record in stack.records[..stack.count].iter().rev() {
        match child_in_record(record, name)? {
            Child::Below => {}
            Child::Decided(child) => return Ok(child),
        }
    }
    stack.base.map_or(Ok(None), |node| child_in_node(node, name))
}

/// What an image has of one inode, each from after the inode on.
#[derive(Default)]
struct Stack<'a> {
    base: Option<&'a [u8]>,
    /// Front batch first, live last; layers without a record are left out.
    records: [&'a [u8]; MAX_LAYERS],
    count: usize,
}

enum Child {
    Below,
    Decided(Option<u64>),
}

fn child_in_record(record: &[u8], name: &[u8]) -> Read<Child> {
    let mut cursor = Cursor { rest: record };
    if cursor.number(7)? != 1 {
        return Ok(Child::Decided(None));
    }
    cursor.fields()?;
    cursor.optional(u64::MAX)?;
    let added = cursor.find(name, |c| c.number(u64::MAX))?;
    let removed = cursor.find(name, |_| Ok(()))?;
    Ok(match (removed, added) {
        (Some(()), _) => Child::Decided(None),
        (None, Some(child)) => Child::Decided(Some(child)),
        (None, None) => Child::Below,
    })
}

fn child_in_node(node: &[u8], name: &[u8]) -> Read<Option<u64>> {
    let mut cursor = Cursor { rest: node };
    if cursor.number(6)? != 0 {
        return Ok(None);
    }
    cursor.meta()?;
    cursor.number(u64::MAX)?;
    cursor.find(name, |c| c.number(u64::MAX))
}

/// One pass over the whole image, which judges each field and keeps where `inode` stands.
fn survey(image: &[u8], inode: Option<u64>) -> Read<Stack<'_>> {
    if image.len() > MAX_IMAGE {
        return Err(Refusal::TooLong);
    }
    let mut cursor = Cursor { rest: image };
    let mut stack = Stack { base: cursor.by_inode(inode, Cursor::node)?, ..Stack::default() };
    let mut last = None;
    for _ in 0..cursor.number(16)? {
        let id = cursor.number(u64::MAX)?;
        if last.is_some_and(|last| last >= id) {
            return Err(Refusal::Broken);
        }
        last = Some(id);
        cursor.number32()?;
        cursor.number32()?;
        cursor.code(1, 5)?;
        cursor.time()?;
        stack.push(cursor.by_inode(inode, Cursor::record)?);
    }
    stack.push(cursor.by_inode(inode, Cursor::record)?);
    let next = cursor.number(u64::MAX)?;
    if last.is_some_and(|last| last >= next) {
        return Err(Refusal::Broken);
    }
    cursor.number32()?;
    cursor.number32()?;
    cursor.number(5)?;
    if cursor.rest.is_empty() { Ok(stack) } else { Err(Refusal::Broken) }
}

impl<'a> Stack<'a> {
    fn push(&mut self, record: Option<&'a [u8]>) {
        if let Some(record) = record {
            self.records[self.count] = record;
            self.count += 1;
        }
    }
}

struct Cursor<'a> {
    rest: &'a [u8],
}

impl<'a> Cursor<'a> {
    #[inline]
    fn number(&mut self, most: u64) -> Read<u64> {
        // Most numbers are one byte long.
        let value = match self.rest {
            [byte @ 0..0x80, rest @ ..] => {
                self.rest = rest;
                u64::from(*byte)
            }
            _ => self.long_number()?,
        };
        if value <= most { Ok(value) } else { Err(Refusal::Broken) }
    }

    fn long_number(&mut self) -> Read<u64> {
        let mut value = 0;
        for (place, &byte) in self.rest.iter().take(10).enumerate() {
            if place == 9 && byte > 1 {
                break;
            }
            value |= u64::from(byte & 0x7f) << (7 * place);
            if byte < 0x80 {
                if byte == 0 {
                    break;
                }
                self.rest = &self.rest[place + 1..];
                return Ok(value);
            }
        }
        Err(Refusal::Broken)
    }

    fn number32(&mut self) -> Read<u32> {
        self.number(u32::MAX.into()).map(|n| n as u32)
    }

    fn code(&mut self, least: u64, most: u64) -> Read<u64> {
        let code = self.number(most)?;
        if code >= least { Ok(code) } else { Err(Refusal::Broken) }
    }

    fn time(&mut self) -> Read<()> {
        self.number(u64::MAX)?;
        self.number(999_999_999)?;
        Ok(())
    }

    fn text(&mut self, least: u64, most: u64) -> Read<&'a [u8]> {
        let length = self.code(least, most)? as usize;
        let (text, rest) = self.rest.split_at_checked(length).ok_or(Refusal::Broken)?;
        self.rest = rest;
        Ok(text)
    }

    fn optional(&mut self, most: u64) -> Read<()> {
        if self.number(1)? == 1 {
            self.number(most)?;
        }
        Ok(())
    }

    /// A list by rising name.
    fn by_name<T>(&mut self, under: impl Fn(&mut Self) -> Read<T>) -> Read<()> {
        let mut last: &[u8] = &[];
        for _ in 0..self.number(u64::MAX)? {
            let name = self.text(1, 255)?;
            if last >= name {
                return Err(Refusal::Broken);
            }
            last = name;
            under(self)?;
        }
        Ok(())
    }

    /// What a list by name, judged before, has under `name`; the cursor passes the whole list.
    fn find<T>(&mut self, name: &[u8], under: impl Fn(&mut Self) -> Read<T>) -> Read<Option<T>> {
        let mut found = None;
        for _ in 0..self.number(u64::MAX)? {
            let same = self.text(1, 255)? == name;
            let value = under(self)?;
            if same {
                found = Some(value);
            }
        }
        Ok(found)
    }

    /// A list by rising inode; what stands under `wanted`.
    fn by_inode(&mut self, wanted: Option<u64>, pass: impl Fn(&mut Self) -> Read<()>) -> Read<Option<&'a [u8]>> {
        let mut found = None;
        let mut last = None;
        for _ in 0..self.number(u64::MAX)? {
            let inode = self.number(u64::MAX)?;
            if last.is_some_and(|last| last >= inode) {
                return Err(Refusal::Broken);
            }
            last = Some(inode);
            if wanted == last {
                found = Some(self.rest);
            }
            pass(self)?;
        }
        Ok(found)
    }

    /// Permission, links, owner, group, times and attributes of a node.
    fn meta(&mut self) -> Read<()> {
        for _ in 0..4 {
            self.number32()?;
        }
        for _ in 0..3 {
            self.time()?;
        }
        self.by_name(|c| c.text(0, 4096))
    }

    fn node(&mut self) -> Read<()> {
        let kind = self.number(6)?;
        self.meta()?;
        match kind {
            0 => {
                self.number(u64::MAX)?;
                self.by_name(|c| c.number(u64::MAX))
            }
            1 => self.number(u64::MAX >> 1).map(|_| ()),
            2 => self.text(0, 4095).map(|_| ()),
            4 | 5 => self.number32().map(|_| ()),
            _ => Ok(()),
        }
    }

    fn fields(&mut self) -> Read<()> {
        let mask = self.number(511)?;
        for _ in 0..(mask & 0b1111).count_ones() {
            self.number32()?;
        }
        for _ in 0..(mask >> 4 & 0b1111).count_ones() {
            self.time()?;
        }
        if mask >> 8 == 1 {
            self.by_name(|c| match c.number(1)? {
                0 => Ok(()),
                _ => c.text(0, 4096).map(|_| ()),
            })?;
        }
        Ok(())
    }

    fn record(&mut self) -> Read<()> {
        let code = self.number(7)?;
        if code == 0 {
            return Ok(());
        }
        self.fields()?;
        match code {
            1 => {
                self.optional(u64::MAX)?;
                self.by_name(|c| c.number(u64::MAX))?;
                self.by_name(|_| Ok(()))
            }
            2 => self.optional(u64::MAX >> 1),
            3 => match self.number(1)? {
                0 => Ok(()),
                _ => self.text(0, 4095).map(|_| ()),
            },
            _ => self.number32().map(|_| ()),
        }
    }
}

#[cfg(test)]
mod tests {
    use super::*;

    const ROOT: [u8; 23] = [1, 1, 0, 0xED, 3, 2, 0, 0, 0, 0, 0, 0, 0, 0, 0, 1, 0, 0, 0, 1, 0, 0, 0];

    #[test]
    fn the_documents_images() {
        assert_eq!(validate(&[0, 0, 0, 1, 0, 0, 0]), Ok(()));
        assert_eq!(validate(&ROOT), Ok(()));
        for end in 0..ROOT.len() {
            assert_eq!(validate(&ROOT[..end]), Err(Refusal::Broken));
        }
        assert_eq!(validate(&[0x80, 0, 0, 0, 1, 0, 0, 0]), Err(Refusal::Broken));
        assert_eq!(validate(&[0; MAX_IMAGE + 1]), Err(Refusal::TooLong));
    }

    #[test]
    fn a_child_from_the_top() {
        let live = |record: &[u8]| {
            [&[1, 5, 0, 0, 0, 0, 0, 0, 0, 0, 0, 0, 0, 0, 1, 1, 1, b'a', 7, 0, 1, 5], record, &[1, 0, 0, 0]].concat()
        };
        assert_eq!(lookup_child(&live(&[1, 0, 0, 0, 0]), 5, b"a"), Ok(Some(7)));
        assert_eq!(lookup_child(&live(&[1, 0, 0, 0, 1, 1, b'a']), 5, b"a"), Ok(None));
        assert_eq!(lookup_child(&live(&[1, 0, 0, 1, 1, b'a', 8, 0]), 5, b"a"), Ok(Some(8)));
        assert_eq!(lookup_child(&live(&[0]), 5, b"a"), Ok(None));
        assert_eq!(lookup_child(&live(&[2, 0, 0]), 5, b"a"), Ok(None));
        assert_eq!(lookup_child(&live(&[2, 0, 0]), 5, b""), Err(Refusal::Name));
    }
}
