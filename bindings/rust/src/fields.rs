//! Field sections of QPACK with the static table only (RFC 9204, section 4.5), as lists of fields.
use crate::error::{ReadError, WriteError};
use crate::sys;
use alloc::string::String;
use alloc::vec;
use alloc::vec::Vec;
use core::fmt;

/// A list of fields, each with a name and a value, both bytes. Names may be repeated. The order is that
/// of the section.
///
/// ```
/// use vesgrauf::fields::FieldList;
///
/// let mut list = FieldList::from([(":status", "200"), ("set-cookie", "a=1")]);
/// list.push(b"set-cookie", b"b=2");
/// let mut section = Vec::new();
/// list.encode(&mut section)?;
///
/// let read = FieldList::decode(&section).unwrap();
/// assert_eq!(read.first(b":status"), Some(&b"200"[..]));
/// assert_eq!(read.all(b"set-cookie").collect::<Vec<_>>(), [b"a=1", b"b=2"]);
/// assert_eq!(read, list);
/// # Ok::<(), vesgrauf::error::WriteError>(())
/// ```
#[derive(Clone, Default)]
pub struct FieldList {
    fields: Vec<sys::Field>,
    texts: Vec<u8>,
}

impl FieldList {
    /// Creates an empty list.
    pub fn new() -> Self {
        FieldList::default()
    }

    /// Creates the list of what a call found.
    pub(crate) fn of(fields: &[sys::Field], texts: &[u8]) -> Self {
        let (fields, texts) = (fields.into(), texts.into());
        FieldList { fields, texts }
    }

    /// Returns the parts as calls take them.
    pub(crate) fn parts(&self) -> (&[sys::Field], &[u8]) {
        (&self.fields, &self.texts)
    }

    /// Reads a field section, the payload of a HEADERS frame. Names and values need not be UTF-8. Whether
    /// a message may have them is for the caller to check (RFC 9114, sections 4.2 and 4.3), or for
    /// [`Connection`](crate::Connection).
    ///
    /// The section may decode to many times its size: a caller who reads those of a peer bounds them
    /// first, as [`Limits`](crate::Limits) do.
    ///
    /// # Errors
    ///
    /// [`Code::QPACK_DECOMPRESSION_FAILED`](crate::error::Code::QPACK_DECOMPRESSION_FAILED), and
    /// [`ReadError::Memory`].
    pub fn decode(section: &[u8]) -> Result<Self, ReadError> {
        let mut fields = vec![sys::Field::default(); 32];
        let mut texts = vec![0; section.len() * 2 + 256];
        loop {
            match sys::fields_read(section, &mut fields, &mut texts) {
                (sys::WT_OK, count, used, _) => {
                    fields.truncate(count);
                    texts.truncate(used);
                    return Ok(FieldList { fields, texts });
                }
                (sys::WT_BUFFER_TOO_SMALL, count, used, _) => {
                    fields.resize(count, sys::Field::default());
                    texts.resize(used, 0);
                }
                (answer, _, _, code) => return Err(ReadError::of(answer, code)),
            }
        }
    }

    /// Appends the field section of the list, in as few bytes as is possible with the static table only.
    /// Fields whose values an attacker could guess, as `authorization` and short cookies, are never indexed.
    /// That a message may have these fields is for the caller to check: a [`Sending`](crate::Sending) does
    /// so.
    ///
    /// # Errors
    ///
    /// [`WriteError::Invalid`] if a name or a value is not UTF-8, and [`WriteError::Memory`].
    pub fn encode(&self, out: &mut Vec<u8>) -> Result<(), WriteError> {
        WriteError::result(sys::fields_write(&self.fields, &self.texts, out))
    }

    /// Appends a field.
    pub fn push(&mut self, name: &[u8], value: &[u8]) {
        let name_offset = self.texts.len();
        self.texts.extend_from_slice(name);
        self.texts.extend_from_slice(value);
        self.fields.push(sys::Field {
            name_offset,
            name_length: name.len(),
            value_offset: name_offset + name.len(),
            value_length: value.len(),
        });
    }

    /// Returns the number of fields.
    pub fn len(&self) -> usize {
        self.fields.len()
    }

    /// Returns whether there are no fields.
    pub fn is_empty(&self) -> bool {
        self.fields.is_empty()
    }

    /// Returns the field at an index, as its name and its value.
    pub fn get(&self, index: usize) -> Option<(&[u8], &[u8])> {
        self.fields.get(index).map(|field| self.line(field))
    }

    /// Returns an iterator over the fields, as pairs of a name and a value.
    pub fn iter(&self) -> Fields<'_> {
        Fields { list: self, rest: self.fields.iter() }
    }

    /// Returns an iterator over the values of a name.
    pub fn all<'a>(&'a self, name: &'a [u8]) -> impl Iterator<Item = &'a [u8]> {
        let found = self.iter().filter(move |(other, _)| *other == name);
        found.map(|(_, value)| value)
    }

    /// Returns the first value of a name.
    pub fn first(&self, name: &[u8]) -> Option<&[u8]> {
        let mut found = self.iter().filter(|(other, _)| *other == name);
        found.next().map(|(_, value)| value)
    }

    /// Returns the last value of a name.
    pub fn last(&self, name: &[u8]) -> Option<&[u8]> {
        let found = self.iter().filter(|(other, _)| *other == name);
        found.last().map(|(_, value)| value)
    }

    fn line(&self, field: &sys::Field) -> (&[u8], &[u8]) {
        let text = |offset: usize, length: usize| &self.texts[offset..offset + length];
        (text(field.name_offset, field.name_length), text(field.value_offset, field.value_length))
    }
}

impl<N: AsRef<[u8]>, V: AsRef<[u8]>> FromIterator<(N, V)> for FieldList {
    fn from_iter<I: IntoIterator<Item = (N, V)>>(lines: I) -> Self {
        let mut list = FieldList::new();
        lines.into_iter().for_each(|(name, value)| list.push(name.as_ref(), value.as_ref()));
        list
    }
}

impl<N: AsRef<[u8]>, V: AsRef<[u8]>, const SIZE: usize> From<[(N, V); SIZE]> for FieldList {
    fn from(lines: [(N, V); SIZE]) -> Self {
        lines.into_iter().collect()
    }
}

impl PartialEq for FieldList {
    fn eq(&self, other: &Self) -> bool {
        self.iter().eq(other.iter())
    }
}

impl Eq for FieldList {}

impl fmt::Debug for FieldList {
    fn fmt(&self, f: &mut fmt::Formatter<'_>) -> fmt::Result {
        let text = |bytes| String::from_utf8_lossy(bytes);
        let lines = self.iter().map(|(name, value)| (text(name), text(value)));
        f.debug_map().entries(lines).finish()
    }
}

/// An iterator over the fields of a list.
#[derive(Clone, Debug)]
pub struct Fields<'a> {
    list: &'a FieldList,
    rest: core::slice::Iter<'a, sys::Field>,
}

impl<'a> Iterator for Fields<'a> {
    type Item = (&'a [u8], &'a [u8]);

    fn next(&mut self) -> Option<Self::Item> {
        self.rest.next().map(|field| self.list.line(field))
    }
}

impl<'a> IntoIterator for &'a FieldList {
    type Item = (&'a [u8], &'a [u8]);
    type IntoIter = Fields<'a>;

    fn into_iter(self) -> Fields<'a> {
        self.iter()
    }
}
