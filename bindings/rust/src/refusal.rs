//! The refusals: an enum with document 01's numbers, and the same words as `include/icehub.h`.

use core::error::Error;
use core::fmt;

/// Why a call refused, and where.
///
/// A refused call has changed no lent byte.
#[derive(Clone, Copy, Debug, PartialEq, Eq, Hash)]
pub struct Refusal {
    /// The number of document 01's table, as [`Reason::number`] has it.
    pub number: u32,
    /// A place in the message, in the table where [`Reason::is_of_table`], or what [`Reason::place_text`] says.
    pub place: u32,
}

impl Refusal {
    /// The reason; none for a number that only a newer library has.
    pub const fn reason(&self) -> Option<Reason> {
        Reason::from_number(self.number)
    }

    /// When a call is refused by this number.
    pub const fn text(&self) -> &'static str {
        match self.reason() {
            Some(reason) => reason.text(),
            None => "a number that this version does not know",
        }
    }

    /// What the place of this number is.
    pub const fn place_text(&self) -> &'static str {
        match self.reason() {
            Some(reason) => reason.place_text(),
            None => "0",
        }
    }
}

/// For each reason: its name here, its number, its name in C, when it applies, and what its place is.
macro_rules! reasons {
    ($($name:ident = $number:literal, $c_name:literal: $when:literal, $place:literal;)*) => {
        /// The reasons of document 01's table.
        #[derive(Clone, Copy, Debug, PartialEq, Eq, Hash)]
        #[non_exhaustive]
        #[repr(u32)]
        pub enum Reason {
            $(#[doc = concat!("Number ", $number, ": ", $when, ". Place: ", $place, ".")]
            $name = $number,)*
        }

        impl Reason {
            /// Every reason, by rising number.
            pub const ALL: &'static [Reason] = &[$(Reason::$name),*];

            /// The reason with this number.
            pub const fn from_number(number: u32) -> Option<Reason> {
                match number {
                    $($number => Some(Reason::$name),)*
                    _ => None,
                }
            }

            /// Its number in document 01.
            pub const fn number(self) -> u32 {
                self as u32
            }

            /// Its name in C, without `ICEHUB_`.
            pub const fn name(self) -> &'static str {
                match self {
                    $(Reason::$name => $c_name,)*
                }
            }

            /// When a call is refused by it.
            pub const fn text(self) -> &'static str {
                match self {
                    $(Reason::$name => $when,)*
                }
            }

            /// What its place is.
            pub const fn place_text(self) -> &'static str {
                match self {
                    $(Reason::$name => $place,)*
                }
            }
        }
    };
}

impl Reason {
    /// The table breaks a rule: 31 to 39, and the place is in the table.
    pub const fn is_of_table(self) -> bool {
        matches!(self.number(), 31..=39)
    }
}

reasons! {
    BadType = 2, "BAD_TYPE": "the type is not in the table, or is no exception, class or parameter list", "0";
    InputTooLong = 3, "INPUT_TOO_LONG": "the message, the writer's buffer, or what is to be set is over 65,536 bytes long", "0";
    CutOff = 4, "CUT_OFF": "an item or a declared length runs past what holds it", "its first byte";
    BadOuterSize = 5, "BAD_OUTER_SIZE": "the encapsulation's size is under 6 or not the message's length", "0";
    BadVersion = 6, "BAD_VERSION": "the encoding's version is neither 1.1 nor 1.0, or is 1.0 with a class as the top", "4";
    BadSize = 7, "BAD_SIZE": "a size below 255 in the long form, or a negative size", "the byte 255 of the size";
    BadBool = 8, "BAD_BOOL": "a bool is neither 0 nor 1", "its byte";
    BadEnumerator = 9, "BAD_ENUMERATOR": "an enumerator is not one that its enum allows",
        "its size; in encoding 1.0 its first byte";
    BadProxy = 10, "BAD_PROXY": "a proxy's identity, facet count or mode is wrong",
        "the identity, the facet count or the mode byte";
    BadLength = 11, "BAD_LENGTH":
        "a declared length is below its least (FSize 1, slice 4, endpoint 6), negative, or not used up", "the length";
    BadHeader = 12, "BAD_HEADER":
        "an optional's header is wrong: upper bits 31 where no end marker may be, a long tag under 30, a tag that does \
        not rise, or another type than the table's", "the header";
    NotCovered = 13, "NOT_COVERED":
        "an optional of a class, an indirection table, a type ID that is no string, or a class marker other than 1",
        "its byte";
    BadFlags = 14, "BAD_FLAGS":
        "a slice's flags are wrong: bit 6 or 7 set, formats mixed, the type ID missing, or bit 2 set with no optional",
        "the flags";
    UnknownCompact = 15, "UNKNOWN_COMPACT": "the first type ID of a compact record is not in the table", "the type ID";
    UnknownSliced = 16, "UNKNOWN_SLICED": "no type ID of a sliced record is in the table", "the last slice's flags";
    BadChain = 17, "BAD_CHAIN": "the slices, or their last bit, do not follow the table's bases",
        "the flags; in encoding 1.0 the type ID";
    LeftOver = 18, "LEFT_OVER": "bytes follow the record", "the first of them";
    ListTooShort = 19, "LIST_TOO_SHORT": "the lent list is too short", "the number of rows or entries needed";
    BadRow = 20, "BAD_ROW": "writer: a row is wrong, missing, out of order or outside the buffer", "the row's number";
    BadRowBytes = 21, "BAD_ROW_BYTES": "writer, set: the bytes are not exactly a value of the member's type",
        "the row's number; 0 in setting";
    OutputTooLong = 22, "OUTPUT_TOO_LONG": "the output is longer than its room or 65,536 bytes",
        "the number of bytes needed";
    BadFormat = 23, "BAD_FORMAT": "writer: the format is not 1 or 2, or 2 for a class", "0";
    BadText = 24, "BAD_TEXT": "a string is not well-formed UTF-8", "its size";
    BadOldHeader = 25, "BAD_OLD_HEADER": "the header byte of a 1.0 exception is not 0", "the header byte";
    OldOptionals = 26, "OLD_OPTIONALS":
        "encoding 1.0 where the type, a base of it or a record that descends from it has optionals", "0";
    BadPort = 27, "BAD_PORT": "an endpoint's port is not 1 to 65,535", "the port; 0 for the writer of an endpoint";
    BadTableHeader = 31, "BAD_TABLE_HEADER": "the table's header is wrong, or its length is not what the header says",
        "0";
    BadTableZeros = 32, "BAD_TABLE_ZEROS":
        "in a row of the table a zero byte or an unused field is not 0, or a required member has a tag",
        "the row's first byte, in the table";
    BadTableKind = 33, "BAD_TABLE_KIND": "a type row of the table has an unknown kind",
        "the row's first byte, in the table";
    BadTableReference = 34, "BAD_TABLE_REFERENCE":
        "a row of the table refers to a row that is not smaller, or is of the wrong kind",
        "the row's first byte, in the table";
    BadTableMembers = 35, "BAD_TABLE_MEMBERS": "the table's member rows are not taken in turn, or not all taken",
        "the row's first byte, in the table; 0 if not all are taken";
    BadTableMark = 36, "BAD_TABLE_MARK": "a struct of the table has no member, or a member's mark is wrong",
        "the row's first byte, in the table";
    BadTableName = 37, "BAD_TABLE_NAME":
        "a record's name lies outside the table's name bytes, is not 1 to 255 bytes long, is not well-formed UTF-8, or \
        is another record's",
        "the row's first byte, in the table";
    BadTableTag = 38, "BAD_TABLE_TAG":
        "a tag or an enum's greatest enumerator is over 2,147,483,647, or an owner has a tag twice",
        "the row's first byte, in the table";
    BadTableEnumerators = 39, "BAD_TABLE_ENUMERATORS":
        "an enum's list of enumerators is not taken in turn, is empty, reaches beyond the entries, does not rise or \
        does not end with the greatest, or entries are left over",
        "the row's first byte, in the table; 0 for entries left over";
    BadTick = 40, "BAD_TICK": "frost guard: the tick is negative or lower than the last", "0";
    BadDelay = 41, "BAD_DELAY": "frost guard: the delay is negative", "0";
    MissingField = 42, "MISSING_FIELD": "frost guard: the report lacks its tick or its delay", "0";
    BadMember = 43, "BAD_MEMBER": "season sheet: the member is not in the table, or is neither a short nor an int", "0";
    TooManyMessages = 44, "TOO_MANY_MESSAGES":
        "season sheet: the messages of the buffer and those on the sheet are more than 1,000,000", "0";
    MessageTooLong = 45, "MESSAGE_TOO_LONG":
        "planner: a message is longer than a burst, over 340 bytes", "the message's number";
    BadPlan = 46, "BAD_PLAN":
        "an entry of a plan breaks a rule with the entries before it, or messages are missing",
        "the entry's number; the number of entries where only messages are missing";
    NotCompact = 47, "NOT_COMPACT": "converter: the message is no compact record", "0";
    Skipped = 48, "SKIPPED": "converter: something in the message is skipped, as the table does not know it", "0";
    NotOptional = 49, "NOT_OPTIONAL":
        "set, remove: the member is not an optional of the message's type or of a base of it", "0";
    NotThere = 50, "NOT_THERE": "remove: the message does not have the member", "0";
    IsCompact = 51, "IS_COMPACT": "set, remove: the message is a compact record", "0";
    BadState = 52, "BAD_STATE":
        "frost guard: the state has another length or mark, a negative tick, start or delay, or a start and no tick at or \
        after it",
        "0";
    BadSheet = 53, "BAD_SHEET":
        "season sheet: the sheet is not 52 bytes long, a mark is neither 0 nor 1, it has carriers and no smallest or \
        largest value, or either without carriers, or its sum is not between their number times these", "0";
}

/// `refusal 19 at 3 (the number of rows or entries needed): the lent list is too short`; without the brackets where the place is
/// always the same.
impl fmt::Display for Refusal {
    fn fmt(&self, f: &mut fmt::Formatter) -> fmt::Result {
        write!(f, "refusal {} at {}", self.number, self.place)?;
        match self.place_text() {
            "0" | "4" => {}
            place => write!(f, " ({place})")?,
        }
        write!(f, ": {}", self.text())
    }
}

impl Error for Refusal {}

#[cfg(test)]
mod tests {
    extern crate std;
    use super::*;
    use std::format;
    use std::prelude::rust_2021::*;

    /// The header, as one line of words; strings that C joins are joined.
    fn header() -> String {
        let words: Vec<_> =
            include_str!("../include/icehub.h").split_whitespace().filter(|&word| word != "*").collect();
        words.join(" ").replace("\" \"", "")
    }

    /// Name, number, words and place of each reason are those of the C header, and the header has no other.
    #[test]
    fn as_in_the_header() {
        let header = header();
        for reason in Reason::ALL {
            let (name, number, text, place) = (reason.name(), reason.number(), reason.text(), reason.place_text());
            for line in [
                format!("/* {text}. Place: {place}. */ ICEHUB_{name} = {number}"),
                format!("case ICEHUB_{name}: return \"{name}\";"),
                format!("case ICEHUB_{name}: return \"{text}\";"),
            ] {
                assert!(header.contains(&line), "{line}");
            }
        }
        assert_eq!(header.matches(". Place: ").count(), Reason::ALL.len());
    }

    /// The header has this crate's version.
    #[test]
    fn version() {
        let [major, minor, patch] =
            [env!("CARGO_PKG_VERSION_MAJOR"), env!("CARGO_PKG_VERSION_MINOR"), env!("CARGO_PKG_VERSION_PATCH")];
        for line in [
            format!("#define ICEHUB_VERSION \"{major}.{minor}.{patch}\""),
            format!("#define ICEHUB_VERSION_MAJOR {major} "),
            format!("#define ICEHUB_VERSION_MINOR {minor} "),
            format!("#define ICEHUB_VERSION_PATCH {patch} "),
        ] {
            assert!(header().contains(&line), "{line}");
        }
    }

    #[test]
    fn numbers() {
        assert_eq!(
            Reason::ALL.iter().map(|reason| reason.number()).collect::<Vec<_>>(),
            (2..=27).chain(31..=53).collect::<Vec<_>>()
        );
        for reason in Reason::ALL {
            assert_eq!(Reason::from_number(reason.number()), Some(*reason));
        }
        assert!([0, 1, 28, 30, 54].into_iter().all(|number| Reason::from_number(number).is_none()));
    }

    #[test]
    fn shown() {
        let shown = |number, place| Refusal { number, place }.to_string();
        assert_eq!(
            shown(4, 52),
            "refusal 4 at 52 (its first byte): an item or a declared length runs past what holds it"
        );
        assert_eq!(shown(25, 6), "refusal 25 at 6 (the header byte): the header byte of a 1.0 exception is not 0");
        assert_eq!(shown(19, 3), "refusal 19 at 3 (the number of rows or entries needed): the lent list is too short");
        assert_eq!(shown(99, 0), "refusal 99 at 0: a number that this version does not know");
    }
}
