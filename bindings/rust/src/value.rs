//! The values of members, from their bytes.
//!
//! The library has judged these bytes; this module takes them apart. It checks again only what safe Rust needs: that they
//! are there, and that a string is UTF-8. So a wrong library, or an older one that judges no text, cannot make a bad `str`.

use crate::{Format, Kind, TypeRow};
use core::iter::FusedIterator;
use core::ops::Range;

/// A value: what the bytes of a member, or of a part of it, say.
#[derive(Clone, Debug)]
pub enum Value<'a> {
    /// A bool.
    Bool(bool),
    /// A byte.
    Byte(u8),
    /// A short.
    Short(i16),
    /// An int.
    Int(i32),
    /// A long.
    Long(i64),
    /// A float.
    Float(f32),
    /// A double.
    Double(f64),
    /// A string, without its size.
    String(&'a str),
    /// An enumerator's number.
    Enum(u32),
    /// The members of a struct.
    Struct(Fields<'a>),
    /// The elements of a sequence.
    Sequence(Elements<'a>),
    /// The entries of a dictionary, in the order of the message.
    Dictionary(Entries<'a>),
    /// A proxy; none where it is nil.
    Proxy(Option<Proxy<'a>>),
}

/// A getter for each type: none for a value of another.
impl<'a> Value<'a> {
    /// The value of a type that these bytes are, all of them, in encoding 1.1.
    pub fn new(of: TypeRow<'a>, bytes: &'a [u8]) -> Option<Value<'a>> {
        Value::new_in(Format::Sliced, of, bytes)
    }

    /// The same in the encoding of a format: enumerators and proxies of encoding 1.0 are written in another way.
    pub fn new_in(format: Format, of: TypeRow<'a>, bytes: &'a [u8]) -> Option<Value<'a>> {
        let (value, length) = Value::at_front_in(format, of, bytes)?;
        (length == bytes.len()).then_some(value)
    }

    /// The value of a type at the start of these bytes, and its length; none where they run out before it ends, or where
    /// a string in it is not UTF-8.
    ///
    /// Nothing else is judged: a bool of 2 is true, an enumerator may be any number.
    pub fn at_front(of: TypeRow<'a>, bytes: &'a [u8]) -> Option<(Value<'a>, usize)> {
        Value::at_front_in(Format::Sliced, of, bytes)
    }

    /// The same in the encoding of a format.
    pub fn at_front_in(format: Format, of: TypeRow<'a>, bytes: &'a [u8]) -> Option<(Value<'a>, usize)> {
        let mut rest = Rest { bytes, old: format == Format::Old };
        let value = rest.value(of)?;
        Some((value, bytes.len() - rest.bytes.len()))
    }

    /// A bool.
    pub fn as_bool(&self) -> Option<bool> {
        match self {
            Value::Bool(truth) => Some(*truth),
            _ => None,
        }
    }

    /// A byte.
    pub fn as_u8(&self) -> Option<u8> {
        match self {
            Value::Byte(number) => Some(*number),
            _ => None,
        }
    }

    /// A short.
    pub fn as_i16(&self) -> Option<i16> {
        match self {
            Value::Short(number) => Some(*number),
            _ => None,
        }
    }

    /// An int or a short.
    pub fn as_i32(&self) -> Option<i32> {
        match self {
            Value::Int(number) => Some(*number),
            _ => self.as_i16().map(i32::from),
        }
    }

    /// A long, an int or a short.
    pub fn as_i64(&self) -> Option<i64> {
        match self {
            Value::Long(number) => Some(*number),
            _ => self.as_i32().map(i64::from),
        }
    }

    /// A float.
    pub fn as_f32(&self) -> Option<f32> {
        match self {
            Value::Float(number) => Some(*number),
            _ => None,
        }
    }

    /// A double or a float.
    pub fn as_f64(&self) -> Option<f64> {
        match self {
            Value::Double(number) => Some(*number),
            _ => self.as_f32().map(f64::from),
        }
    }

    /// A string.
    pub fn as_str(&self) -> Option<&'a str> {
        match self {
            Value::String(text) => Some(text),
            _ => None,
        }
    }

    /// The bytes of a string or of a sequence of bytes, without its size.
    pub fn as_bytes(&self) -> Option<&'a [u8]> {
        match self {
            Value::String(text) => Some(text.as_bytes()),
            Value::Sequence(elements) if elements.of.kind() == Kind::Byte => Some(elements.rest.bytes),
            _ => None,
        }
    }

    /// An enumerator's number.
    pub fn as_enumerator(&self) -> Option<u32> {
        match self {
            Value::Enum(number) => Some(*number),
            _ => None,
        }
    }

    /// The members of a struct.
    pub fn as_struct(&self) -> Option<Fields<'a>> {
        match self {
            Value::Struct(fields) => Some(fields.clone()),
            _ => None,
        }
    }

    /// The elements of a sequence.
    pub fn as_sequence(&self) -> Option<Elements<'a>> {
        match self {
            Value::Sequence(elements) => Some(elements.clone()),
            _ => None,
        }
    }

    /// The entries of a dictionary.
    pub fn as_dictionary(&self) -> Option<Entries<'a>> {
        match self {
            Value::Dictionary(entries) => Some(entries.clone()),
            _ => None,
        }
    }

    /// A proxy that is not nil.
    pub fn as_proxy(&self) -> Option<Proxy<'a>> {
        match self {
            Value::Proxy(proxy) => proxy.clone(),
            _ => None,
        }
    }
}

/// The values of a struct's members, in order.
#[derive(Clone, Debug)]
pub struct Fields<'a> {
    of: TypeRow<'a>,
    left: Range<u32>,
    rest: Rest<'a>,
}

impl<'a> Fields<'a> {
    /// The struct.
    pub fn of(&self) -> TypeRow<'a> {
        self.of
    }
}

impl<'a> Iterator for Fields<'a> {
    type Item = Value<'a>;

    fn next(&mut self) -> Option<Value<'a>> {
        let member = self.of.table().member_row(self.left.next()?)?;
        self.rest.value(member.of())
    }

    fn size_hint(&self) -> (usize, Option<usize>) {
        self.left.size_hint()
    }
}

/// The values of a sequence, in order.
#[derive(Clone, Debug)]
pub struct Elements<'a> {
    of: TypeRow<'a>,
    left: u32,
    rest: Rest<'a>,
}

impl<'a> Elements<'a> {
    /// The type of the elements.
    pub fn of(&self) -> TypeRow<'a> {
        self.of
    }
}

impl<'a> Iterator for Elements<'a> {
    type Item = Value<'a>;

    fn next(&mut self) -> Option<Value<'a>> {
        self.left = self.left.checked_sub(1)?;
        self.rest.value(self.of)
    }

    fn size_hint(&self) -> (usize, Option<usize>) {
        (self.left as usize, Some(self.left as usize))
    }
}

/// The keys and values of a dictionary, in the order of the message.
#[derive(Clone, Debug)]
pub struct Entries<'a> {
    key: TypeRow<'a>,
    value: TypeRow<'a>,
    left: u32,
    rest: Rest<'a>,
}

impl<'a> Entries<'a> {
    /// The type of the keys.
    pub fn key(&self) -> TypeRow<'a> {
        self.key
    }

    /// The type of the values.
    pub fn value(&self) -> TypeRow<'a> {
        self.value
    }
}

impl<'a> Iterator for Entries<'a> {
    type Item = (Value<'a>, Value<'a>);

    fn next(&mut self) -> Option<(Value<'a>, Value<'a>)> {
        self.left = self.left.checked_sub(1)?;
        Some((self.rest.value(self.key)?, self.rest.value(self.value)?))
    }

    fn size_hint(&self) -> (usize, Option<usize>) {
        (self.left as usize, Some(self.left as usize))
    }
}

/// A proxy that is not nil.
#[derive(Clone, Debug)]
pub struct Proxy<'a> {
    /// The name of the identity.
    pub name: &'a str,
    /// The category of the identity.
    pub category: &'a str,
    /// The facet, if it is not the default one.
    pub facet: Option<&'a str>,
    /// 0 twoway, 1 oneway, 2 batch oneway, 3 datagram, 4 batch datagram.
    pub mode: u8,
    /// Whether secure endpoints are required.
    pub secure: bool,
    /// The protocol's version, major and minor; none in encoding 1.0, which does not send it.
    pub protocol: Option<(u8, u8)>,
    /// The encoding's version, major and minor; none in encoding 1.0.
    pub encoding: Option<(u8, u8)>,
    /// The endpoints.
    pub endpoints: Endpoints<'a>,
    /// The object adapter, of a proxy without endpoints.
    pub adapter: Option<&'a str>,
}

/// The endpoints of a proxy, in order.
#[derive(Clone, Debug)]
pub struct Endpoints<'a> {
    left: u32,
    rest: Rest<'a>,
}

impl<'a> Iterator for Endpoints<'a> {
    type Item = Endpoint<'a>;

    fn next(&mut self) -> Option<Endpoint<'a>> {
        self.left = self.left.checked_sub(1)?;
        self.rest.endpoint()
    }

    fn size_hint(&self) -> (usize, Option<usize>) {
        (self.left as usize, Some(self.left as usize))
    }
}

// A value is taken apart only once all of its parts were found, so no iterator ends early.
impl ExactSizeIterator for Fields<'_> {}
impl ExactSizeIterator for Elements<'_> {}
impl ExactSizeIterator for Entries<'_> {}
impl ExactSizeIterator for Endpoints<'_> {}
impl FusedIterator for Fields<'_> {}
impl FusedIterator for Elements<'_> {}
impl FusedIterator for Entries<'_> {}
impl FusedIterator for Endpoints<'_> {}

/// An endpoint, unopened.
#[derive(Clone, Copy, Debug, PartialEq, Eq)]
pub struct Endpoint<'a> {
    /// All its bytes: its type, then the encapsulation.
    pub bytes: &'a [u8],
    /// Its type: 1 TCP, 2 SSL, 3 UDP.
    pub of: i16,
    /// The version of the encapsulation, major and minor.
    pub encoding: (u8, u8),
}

/// The bytes not yet taken, and whether they are of encoding 1.0. Each function takes the next item; none where it is
/// not there.
#[derive(Clone, Copy, Debug)]
struct Rest<'a> {
    bytes: &'a [u8],
    old: bool,
}

impl<'a> Rest<'a> {
    fn take(&mut self, count: usize) -> Option<&'a [u8]> {
        let (taken, rest) = self.bytes.split_at_checked(count)?;
        self.bytes = rest;
        Some(taken)
    }

    fn array<const N: usize>(&mut self) -> Option<[u8; N]> {
        self.take(N)?.try_into().ok()
    }

    fn byte(&mut self) -> Option<u8> {
        self.array::<1>().map(|[byte]| byte)
    }

    fn size(&mut self) -> Option<u32> {
        match self.byte()? {
            255 => i32::from_le_bytes(self.array()?).try_into().ok(),
            size => Some(size.into()),
        }
    }

    fn string(&mut self) -> Option<&'a str> {
        let size = self.size()?;
        core::str::from_utf8(self.take(size as usize)?).ok()
    }

    fn value(&mut self, of: TypeRow<'a>) -> Option<Value<'a>> {
        Some(match of.kind() {
            Kind::Bool => Value::Bool(self.byte()? != 0),
            Kind::Byte => Value::Byte(self.byte()?),
            Kind::Short => Value::Short(i16::from_le_bytes(self.array()?)),
            Kind::Int => Value::Int(i32::from_le_bytes(self.array()?)),
            Kind::Long => Value::Long(i64::from_le_bytes(self.array()?)),
            Kind::Float => Value::Float(f32::from_le_bytes(self.array()?)),
            Kind::Double => Value::Double(f64::from_le_bytes(self.array()?)),
            Kind::String => Value::String(self.string()?),
            Kind::Enum => Value::Enum(self.enumerator(of)?),
            Kind::Struct => {
                let start = self.bytes;
                for member in of.member_rows() {
                    self.value(member.of())?;
                }
                Value::Struct(Fields { of, left: of.members(), rest: self.since(start) })
            }
            Kind::Sequence => {
                let (of, left) = (of.element()?, self.size()?);
                let start = self.bytes;
                for _ in 0..left {
                    self.value(of)?;
                }
                Value::Sequence(Elements { of, left, rest: self.since(start) })
            }
            Kind::Dictionary => {
                let (key, value, left) = (of.key()?, of.value()?, self.size()?);
                let start = self.bytes;
                for _ in 0..left {
                    self.value(key)?;
                    self.value(value)?;
                }
                Value::Dictionary(Entries { key, value, left, rest: self.since(start) })
            }
            Kind::Proxy => Value::Proxy(self.proxy()?),
            Kind::Exception | Kind::Class | Kind::ParameterList => return None,
        })
    }

    /// A size; in encoding 1.0 a byte, short or int by the greatest.
    fn enumerator(&mut self, of: TypeRow<'a>) -> Option<u32> {
        match of.greatest() {
            _ if !self.old => self.size(),
            Some(0..=126) => self.byte().map(u32::from),
            Some(127..=32_766) => self.array().map(u16::from_le_bytes).map(u32::from),
            _ => self.array().map(u32::from_le_bytes),
        }
    }

    /// What was taken since these bytes were left.
    fn since(&self, start: &'a [u8]) -> Rest<'a> {
        Rest { bytes: &start[..start.len() - self.bytes.len()], old: self.old }
    }

    fn proxy(&mut self) -> Option<Option<Proxy<'a>>> {
        let (name, category) = (self.string()?, self.string()?);
        if name.is_empty() && category.is_empty() {
            return Some(None);
        }
        let facet = match self.size()? {
            0 => None,
            1 => Some(self.string()?),
            _ => return None,
        };
        let (mode, secure) = (self.byte()?, self.byte()? != 0);
        let protocol = self.version()?;
        let encoding = self.version()?;
        let left = self.size()?;
        let start = self.bytes;
        for _ in 0..left {
            self.endpoint()?;
        }
        let endpoints = Endpoints { left, rest: self.since(start) };
        let adapter = if left == 0 { Some(self.string()?) } else { None };
        Some(Some(Proxy { name, category, facet, mode, secure, protocol, encoding, endpoints, adapter }))
    }

    /// A proxy's version of protocol or encoding, which encoding 1.0 does not have.
    fn version(&mut self) -> Option<Option<(u8, u8)>> {
        if self.old {
            return Some(None);
        }
        Some(Some((self.byte()?, self.byte()?)))
    }

    fn endpoint(&mut self) -> Option<Endpoint<'a>> {
        let start = self.bytes;
        let of = i16::from_le_bytes(self.array()?);
        let length = usize::try_from(i32::from_le_bytes(self.array()?)).ok()?;
        let encoding = (self.byte()?, self.byte()?);
        self.take(length.checked_sub(6)?)?;
        Some(Endpoint { bytes: self.since(start).bytes, of, encoding })
    }
}
