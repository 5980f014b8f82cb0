//! Where a refusal is: the slice and the member of a message that hold a place.
//!
//! The library has refused the message at that place, so what comes before it follows the rules, and can be walked by
//! lengths alone. The walk judges nothing, and stops where it does not know how to go on.

use icehub::{Format, Kind, MemberRow, Table, TypeRow, Value};

/// What is at a place of a message.
#[derive(Debug, Default, PartialEq)]
pub struct Location<'a> {
    /// The slice that holds the place, of an exception or a class.
    pub slice: Option<Slice<'a>>,
    /// The member that holds the place.
    pub member: Option<Held<'a>>,
    /// The way to the place inside the member's value.
    pub path: Vec<Step>,
    /// The type of the value that holds the place.
    pub of: Option<TypeRow<'a>>,
    /// What is at the place, if it is no value.
    pub item: Option<&'static str>,
}

/// A slice: its number, counted from 1, the place of its flags, its type ID, and its type if the table knows it.
#[derive(Clone, Copy, Debug, PartialEq)]
pub struct Slice<'a> {
    pub number: usize,
    pub place: usize,
    pub id: Option<&'a [u8]>,
    pub of: Option<TypeRow<'a>>,
}

/// A member: where it begins, the header of an optional included. An optional that the table does not know has only a
/// tag.
#[derive(Clone, Copy, Debug, PartialEq)]
pub struct Held<'a> {
    pub place: usize,
    pub tag: Option<u32>,
    pub declared: Option<MemberRow<'a>>,
}

/// A step into a value.
#[derive(Clone, Copy, Debug, PartialEq, Eq)]
pub enum Step {
    Member(u32),
    Element(usize),
    Key(usize),
    Value(usize),
}

impl std::fmt::Display for Step {
    fn fmt(&self, f: &mut std::fmt::Formatter) -> std::fmt::Result {
        match self {
            Step::Member(number) => write!(f, "member {number}"),
            Step::Element(number) => write!(f, "element {number}"),
            Step::Key(number) => write!(f, "key {number}"),
            Step::Value(number) => write!(f, "value {number}"),
        }
    }
}

/// [`Format::Old`] for a message of encoding 1.0, else [`Format::Sliced`]: how its values are encoded.
pub fn format_of(message: &[u8]) -> Format {
    match message.get(4..6) {
        Some([1, 0]) => Format::Old,
        _ => Format::Sliced,
    }
}

/// What is at a place of a message that is read under a top.
pub fn locate<'a>(table: Table<'a>, top: u32, message: &'a [u8], place: usize) -> Location<'a> {
    let format = format_of(message);
    let mut walk = Walk { table, message, place, format, found: Location::default() };
    walk.message_of(top);
    walk.found
}

struct Walk<'a> {
    table: Table<'a>,
    message: &'a [u8],
    place: usize,
    /// How values are encoded: see [`format_of`].
    format: Format,
    found: Location<'a>,
}

impl<'a> Walk<'a> {
    /// The place is at this item, and the walk ends: none.
    fn at<T>(&mut self, item: &'static str) -> Option<T> {
        self.found.item = Some(item);
        None
    }

    fn byte(&self, at: usize) -> Option<u8> {
        self.message.get(at).copied()
    }

    /// The int at a place, if it is not negative.
    fn int(&self, at: usize) -> Option<usize> {
        let bytes = self.message.get(at..at.checked_add(4)?)?;
        i32::from_le_bytes(bytes.try_into().ok()?).try_into().ok()
    }

    /// The size at a place, and how many bytes it takes.
    fn size(&self, at: usize) -> Option<(usize, usize)> {
        match self.byte(at)? {
            255 => Some((self.int(at + 1)?, 5)),
            size => Some((size.into(), 1)),
        }
    }

    fn message_of(&mut self, top: u32) -> Option<()> {
        match self.place {
            0..4 => return self.at("the encapsulation's size"),
            4..6 => return self.at("the encoding's version"),
            _ => {}
        }
        let top = self.table.type_row(top)?;
        match top.kind() {
            Kind::ParameterList if self.format == Format::Old => {
                self.members(top, 6, self.message.len(), None)?;
                self.at("what follows the parameter list")
            }
            Kind::ParameterList => self.members(top, 6, self.message.len(), Some(Optionals::ToTheEnd)).map(|_| ()),
            _ if self.format == Format::Old && self.place == 6 => self.at("the header byte"),
            _ if self.format == Format::Old => self.pairs(7),
            Kind::Class if self.place == 6 => self.at("the class marker"),
            Kind::Class => self.slices(7),
            _ => self.slices(6),
        }
    }

    /// The slices from a place on: those that the table does not know, then the first known type and its bases.
    fn slices(&mut self, mut at: usize) -> Option<()> {
        let is_sliced = self.byte(at).is_some_and(|flags| flags & 16 != 0);
        let mut base = None;
        for number in 1.. {
            let mut slice = Slice { number, place: at, id: None, of: base };
            self.found.slice = Some(slice);
            let Some(flags) = self.byte(at) else { return self.at("the slice's flags") };
            let mut next = at + 1;
            if is_sliced || number == 1 {
                slice.id = self.size(next).and_then(|(length, width)| {
                    let start = next + width;
                    next = start.checked_add(length)?;
                    self.message.get(start..next)
                });
                slice.of = base.or_else(|| self.table.named(std::str::from_utf8(slice.id?).ok()?));
                self.found.slice = Some(slice);
            }
            if self.place == at {
                return self.at("the slice's flags");
            }
            if self.place < next || (is_sliced || number == 1) && slice.id.is_none() {
                return self.at("the slice's type ID");
            }
            let mut end = self.message.len();
            if is_sliced {
                let Some(size) = self.int(next) else { return self.at("the slice's size") };
                if self.place < next + 4 {
                    return self.at("the slice's size");
                }
                end = (next + size).min(end);
                next += 4;
            }
            at = match slice.of {
                None if self.place < end => return self.at("the data of a slice that is skipped"),
                None => end,
                Some(of) => self.members(of, next, end, (flags & 4 != 0).then_some(Optionals::ToTheMarker))?,
            };
            base = slice.of.and_then(TypeRow::base);
            if slice.of.is_some() && base.is_none() {
                self.found.slice = None;
                return self.at("what follows the record");
            }
            if flags & 32 != 0 {
                return None;
            }
        }
        None
    }

    /// The pairs of type ID and size of an exception of encoding 1.0, from a place on.
    fn pairs(&mut self, mut at: usize) -> Option<()> {
        let mut base = None;
        for number in 1.. {
            let mut slice = Slice { number, place: at, id: None, of: base };
            self.found.slice = Some(slice);
            let Some((length, width)) = self.size(at) else { return self.at("the slice's type ID") };
            let size = at + width + length;
            slice.id = self.message.get(at + width..size);
            slice.of = base.or_else(|| self.table.named(std::str::from_utf8(slice.id?).ok()?));
            self.found.slice = Some(slice);
            if self.place < size || slice.id.is_none() {
                return self.at("the slice's type ID");
            }
            let Some(length) = self.int(size).filter(|_| self.place >= size + 4) else {
                return self.at("the slice's size");
            };
            let end = (size + length).min(self.message.len());
            at = match slice.of {
                None if self.place < end => return self.at("the data of a slice that is skipped"),
                None => end,
                Some(of) => self.members(of, size + 4, end, None)?,
            };
            base = slice.of.and_then(TypeRow::base);
            if slice.of.is_some() && base.is_none() {
                self.found.slice = None;
                return self.at("what follows the record");
            }
        }
        None
    }

    /// The members of one owner: the place after them, or none where they hold the place.
    fn members(&mut self, owner: TypeRow<'a>, at: usize, end: usize, optionals: Option<Optionals>) -> Option<usize> {
        let mut at = at;
        for declared in owner.member_rows().filter(|member| member.tag().is_none()) {
            match self.passed(declared.of(), at, end) {
                Some(next) => at = next,
                None => {
                    self.found.member = Some(Held { place: at, tag: None, declared: Some(declared) });
                    self.inside(declared.of(), at, end);
                    return None;
                }
            }
        }
        match optionals {
            Some(kind) => self.optionals(owner, at, end, kind),
            None => Some(at),
        }
    }

    fn optionals(&mut self, owner: TypeRow<'a>, at: usize, end: usize, kind: Optionals) -> Option<usize> {
        let mut at = at;
        loop {
            let header = match (self.byte(at).filter(|_| at < end), kind) {
                (None, Optionals::ToTheEnd) => return Some(at),
                (None, Optionals::ToTheMarker) => {
                    return self.at("the end, where an optional or the end marker is due")
                }
                (Some(255), Optionals::ToTheMarker) if self.place <= at => return self.at("the end marker"),
                (Some(255), Optionals::ToTheMarker) => return Some(at + 1),
                (Some(header), _) => header,
            };
            let mut next = at + 1;
            let tag = match header >> 3 {
                31 => return self.at("the header of an optional"),
                30 => match self.size(next) {
                    Some((tag, width)) => {
                        next += width;
                        tag as u32
                    }
                    None => return self.at("the header of an optional"),
                },
                tag => tag.into(),
            };
            let declared = owner.member_rows().find(|member| member.tag() == Some(tag));
            self.found.member = Some(Held { place: at, tag: Some(tag), declared });
            if self.place < next {
                return self.at("the header of the optional");
            }
            // Where the value begins, and where it ends.
            let extent = match header & 7 {
                form @ 0..=3 => Some((next, next + (1 << form))),
                4 => self.size(next).map(|(_, width)| (next, next + width)),
                5 => self.size(next).map(|(length, width)| {
                    let has_own_size = declared.is_some_and(|member| has_own_size(member.of()));
                    (if has_own_size { next } else { next + width }, next + width + length)
                }),
                6 => self.int(next).map(|length| (next + 4, next + 4 + length)),
                _ => return self.at("the header of the optional"),
            };
            let Some((value, stop)) = extent.filter(|(value, _)| *value <= self.place) else {
                return self.at("the length of the optional");
            };
            if self.place < stop || stop > end {
                if let Some(member) = declared {
                    self.inside(member.of(), value, stop.min(end));
                }
                return None;
            }
            self.found.member = None;
            at = stop;
        }
    }

    /// The place after a value, if it ends before or at the place that is looked for.
    fn passed(&self, of: TypeRow<'a>, at: usize, end: usize) -> Option<usize> {
        let (_, length) = Value::at_front_in(self.format, of, self.message.get(at..end)?)?;
        Some(at + length).filter(|next| *next <= self.place)
    }

    /// Steps into a value as far as the place is in a part of it.
    fn inside(&mut self, of: TypeRow<'a>, at: usize, end: usize) {
        self.found.of = Some(of);
        if of.kind() == Kind::Proxy {
            self.proxy(at);
            return;
        }
        let parts = match of.kind() {
            Kind::Struct => of.members().len(),
            Kind::Sequence | Kind::Dictionary => self.size(at).map_or(0, |(count, _)| count),
            _ => 0,
        };
        let mut at = match of.kind() {
            Kind::Struct => at,
            _ => self.size(at).map_or(at, |(_, width)| at + width),
        };
        if self.place < at {
            return;
        }
        for number in 0..parts {
            for (step, part) in steps(of, number) {
                match self.passed(part, at, end) {
                    Some(next) => at = next,
                    None => {
                        self.found.path.push(step);
                        return self.inside(part, at, end);
                    }
                }
            }
        }
    }

    /// The item of a proxy that the place is at.
    fn proxy(&mut self, at: usize) -> Option<()> {
        let at = self.string(at, "the name of the identity")?;
        let at = self.string(at, "the category of the identity")?;
        let Some((facets, width)) = self.size(at) else { return self.at("the facet count") };
        let mut at = self.item(at, width, "the facet count")?;
        for _ in 0..facets {
            at = self.string(at, "the facet")?;
        }
        let at = self.item(at, 1, "the mode")?;
        let at = self.item(at, 1, "the secure byte")?;
        let mut at = at;
        if self.format != Format::Old {
            at = self.item(at, 2, "the protocol's version")?;
            at = self.item(at, 2, "the encoding's version")?;
        }
        let Some((endpoints, width)) = self.size(at) else { return self.at("the endpoint count") };
        let mut at = self.item(at, width, "the endpoint count")?;
        for _ in 0..endpoints {
            at = self.item(at, 2, "the type of an endpoint")?;
            let length = self.int(at);
            at = self.item(at, 4, "the length of an endpoint")?;
            at = (at + length?).checked_sub(4)?;
        }
        self.string(at, "the adapter").map(|_| ())
    }

    /// The place after an item of so many bytes, or none where it holds the place.
    fn item(&mut self, at: usize, width: usize, item: &'static str) -> Option<usize> {
        if self.place < at + width {
            return self.at(item);
        }
        Some(at + width)
    }

    /// The place after a string, or none where it holds the place.
    fn string(&mut self, at: usize, item: &'static str) -> Option<usize> {
        match self.size(at) {
            Some((length, width)) => self.item(at, width + length, item),
            None => self.at(item),
        }
    }
}

/// Where the optionals of an owner end.
#[derive(Clone, Copy)]
enum Optionals {
    ToTheEnd,
    ToTheMarker,
}

/// Part `number` of a value: the steps to it, with their types.
fn steps(of: TypeRow, number: usize) -> Vec<(Step, TypeRow)> {
    let parts = match of.kind() {
        Kind::Struct => {
            let member = of.member_rows().nth(number);
            [member.map(|member| (Step::Member(member.number()), member.of())), None]
        }
        Kind::Sequence => [of.element().map(|element| (Step::Element(number), element)), None],
        _ => [of.key().map(|key| (Step::Key(number), key)), of.value().map(|value| (Step::Value(number), value))],
    };
    parts.into_iter().flatten().collect()
}

/// A string, or a sequence of bool or byte: as an optional, its own size is the length field.
fn has_own_size(of: TypeRow) -> bool {
    of.kind() == Kind::String || of.element().is_some_and(|element| matches!(element.kind(), Kind::Bool | Kind::Byte))
}
