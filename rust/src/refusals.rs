//! Why a schema or a message is refused, one variant for each number of docs/REFERENCE.md, and where.

use std::error::Error;
use std::fmt;

/// A refusal and its place: where what is refused goes wrong.
///
/// ```
/// # use windosprio::{MessageRefusal, Schema};
/// let refused = Schema::compile("").unwrap().check(b"[1,]").unwrap_err();
/// assert_eq!((refused.why(), refused.place()), (MessageRefusal::NotText, 3));
/// assert_eq!(refused.to_string(), "23 at byte 3: the message is not JSON text in UTF-8");
/// ```
#[derive(Clone, Copy, Debug, PartialEq, Eq, PartialOrd, Ord, Hash)]
pub struct Refused<R> {
    why: R,
    /// The byte that it points at, if it does.
    at: Option<usize>,
}

impl<R: Refusal> Refused<R> {
    /// Of an answer.
    pub(crate) fn answered(number: u32, place: usize) -> Self {
        let why = Self::reason(number);
        Refused { why, at: why.points(place).then_some(place) }
    }

    /// Of a stream, whose refusals point nowhere.
    pub(crate) fn of_stream(number: u32) -> Self {
        Refused { why: Self::reason(number), at: None }
    }

    /// By the library's contract the number is one of a refusal.
    fn reason(number: u32) -> R {
        R::from_number(number).unwrap_or_else(|| panic!("the library answered {number}, no number of a refusal"))
    }

    /// Why it is refused.
    pub fn why(self) -> R {
        self.why
    }

    /// The number of that.
    pub fn number(self) -> u32 {
        self.why.number()
    }

    /// Where, in bytes from the start; 0 where the refusal points nowhere.
    pub fn place(self) -> usize {
        self.at.unwrap_or(0)
    }
}

impl<R: Refusal> fmt::Display for Refused<R> {
    /// The number, the place where there is one, then what is wrong.
    fn fmt(&self, out: &mut fmt::Formatter) -> fmt::Result {
        let (number, says) = (self.number(), self.why.says());
        match self.at {
            Some(place) => write!(out, "{number} at byte {place}: {says}"),
            None => write!(out, "{number}: {says}"),
        }
    }
}

impl<R: Refusal> Error for Refused<R> {}

/// What both kinds of refusals have.
pub trait Refusal: Copy + fmt::Debug {
    /// Its number.
    fn number(self) -> u32;

    /// The refusal that has a number, if one does.
    fn from_number(number: u32) -> Option<Self>;

    /// What is wrong.
    fn says(self) -> &'static str;

    /// Whether at this place it points at a byte of what is refused, or at its end. One of absent arguments doesn't.
    fn points(self, place: usize) -> bool;
}

/// An enum with a variant for each number. What a variant says is its documentation and its text; what its place is, if
/// it points at anything, comes after it, and from which place on it does.
macro_rules! refusals {
    ($(#[$doc:meta])* $name:ident {
        $($(#[$more:meta])* $variant:ident = $number:literal: $says:literal $(, at $at:literal from $least:literal)?;)*
    }) => {
        $(#[$doc])*
        #[derive(Clone, Copy, Debug, PartialEq, Eq, PartialOrd, Ord, Hash)]
        pub enum $name {
            $(
                #[doc = concat!("Number ", $number, ": ", $says, ".")]
                $(#[doc = concat!("Its place is ", $at, ".")])?
                $(#[$more])*
                $variant = $number,
            )*
        }

        impl $name {
            /// All of them, by number.
            pub const ALL: &'static [Self] = &[$(Self::$variant),*];
        }

        impl Refusal for $name {
            fn number(self) -> u32 {
                self as u32
            }

            fn from_number(number: u32) -> Option<Self> {
                match number {
                    $($number => Some(Self::$variant),)*
                    _ => None,
                }
            }

            fn says(self) -> &'static str {
                match self {
                    $(Self::$variant => $says,)*
                }
            }

            fn points(self, place: usize) -> bool {
                match self {
                    $(Self::$variant => false $(|| ($least..).contains(&place))?,)*
                }
            }
        }
    };
}

refusals! {
    /// Why a schema is refused. Where several hold, it is the one with the lowest number.
    SchemaRefusal {
        /// The most are [`SCHEMA_BYTES`](crate::limits::SCHEMA_BYTES).
        TooLong = 1: "the schema has too many bytes";
        NotText = 2: "the bytes are not schema text",
            at "the length of the longest start that some schema text within the levels has" from 0;
        RepeatedKey = 3: "an object has a key twice",
            at "the opening quote of the earliest key that repeats one before it in its object" from 0;
        NotDefinitions = 4: "a definition has no or two kinds, or a key or value that its kind doesn't have";
        BadName = 5: "a name is not well formed";
        RepeatedName = 6: "two names are one in C (- as _), or one is a built-in type's";
        UnknownName = 7: "a name refers to no definition of a fitting kind";
        BadChain = 8: "a chain of bases has a cycle, over 16 structs, or a member's name twice";
        BadUnion = 9: "a union has no branch, or a discriminator or branch that doesn't fit";
        BadAlternate = 10: "an alternate has no alternative, or some that can't be told apart";
        BadReturn = 11: "a command returns something other than a struct, a union or an array of these";
        /// The most are [`ROWS`](crate::limits::ROWS).
        TooManyRows = 12: "the table would have too many rows";
        /// It can't come of [`Schema::compile`](crate::Schema::compile), which lends the most there may be.
        NoRoom = 13: "fewer whole rows were lent than the table has";
    }
}

refusals! {
    /// Why a message is refused. Where several hold, it is the one with the lowest number.
    MessageRefusal {
        /// It can't come of a [`Schema`](crate::Schema): the table of an accepted schema is sound.
        UnsoundTable = 21: "the table is not sound";
        /// The most are [`MESSAGE_BYTES`](crate::limits::MESSAGE_BYTES).
        TooLong = 22: "the message has too many bytes";
        NotText = 23: "the message is not JSON text in UTF-8",
            at "the length of the longest start that some message text within the levels has" from 0;
        TooDeep = 24: "the message has more than 32 levels of brackets",
            at "the bracket that opens a level too many" from 0;
        /// Keys are compared by meaning: `"\u0061"` is `"a"`.
        RepeatedKey = 25: "an object has a key twice",
            at "the opening quote of the earliest key that repeats one before it in its object" from 0;
        /// Not an object with either `execute` or `exec-oob`, a string; `arguments`, an object, and `id` if at all.
        NotEnvelope = 26: "the message is not a command";
        UnknownCommand = 27: "the schema has no command of that name";
        NotOutOfBand = 28: "the command may not be sent out of band";
        NoReading = 29: "the arguments have no reading by the command's types",
            at "the start of the arguments, 0 where they are absent" from 1;
        /// It can't come of [`Schema::check`](crate::Schema::check), which lends enough.
        NoRoom = 30: "fewer whole records were lent than the reading has",
            at "the start of the arguments, 0 where they are absent" from 1;
    }
}

#[cfg(test)]
mod tests {
    use super::*;

    #[test]
    fn every_number_has_its_refusal() {
        assert!(SchemaRefusal::ALL.iter().map(|refusal| refusal.number()).eq(1..=13));
        assert!(MessageRefusal::ALL.iter().map(|refusal| refusal.number()).eq(21..=30));
        assert!(SchemaRefusal::ALL.iter().all(|&x| SchemaRefusal::from_number(x.number()) == Some(x)));
        assert!(MessageRefusal::ALL.iter().all(|&x| MessageRefusal::from_number(x.number()) == Some(x)));
    }

    #[test]
    fn other_numbers_have_none() {
        assert!([0, 14, 21, u32::MAX].iter().all(|&number| SchemaRefusal::from_number(number).is_none()));
        assert!([0, 13, 20, 31].iter().all(|&number| MessageRefusal::from_number(number).is_none()));
    }

    /// The numbers that point at something at a place.
    fn pointing_at(place: usize) -> Vec<u32> {
        let schema = SchemaRefusal::ALL.iter().filter(|x| x.points(place)).map(|x| x.number());
        let message = MessageRefusal::ALL.iter().filter(|x| x.points(place)).map(|x| x.number());
        schema.chain(message).collect()
    }

    #[test]
    fn seven_numbers_point_at_something() {
        assert_eq!(pointing_at(34), [2, 3, 23, 24, 25, 29, 30]);
        assert_eq!(pointing_at(0), [2, 3, 23, 24, 25]);
    }

    #[test]
    fn the_text_starts_with_the_number_and_the_place_if_there_is_one() {
        let error: &dyn Error = &Refused::<MessageRefusal>::answered(29, 34);
        assert_eq!(error.to_string(), "29 at byte 34: the arguments have no reading by the command's types");
        assert_eq!(Refused::<SchemaRefusal>::answered(1, 0).to_string(), "1: the schema has too many bytes");
        let absent = Refused::<MessageRefusal>::answered(29, 0);
        assert_eq!(absent.to_string(), "29: the arguments have no reading by the command's types");
        let lost = Refused::<MessageRefusal>::of_stream(23);
        assert_eq!((lost.place(), lost.to_string()), (0, "23: the message is not JSON text in UTF-8".to_string()));
    }
}
