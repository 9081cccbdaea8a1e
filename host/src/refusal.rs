//! The refusals of the rules (docs/RULES.md), in words.

use std::fmt;

/// The field of a date that does not exist.
#[derive(Clone, Copy, Debug, PartialEq, Eq)]
pub enum Field {
    Year,
    Month,
    Day,
    Milliseconds,
    DayNumber,
}

/// What a case holds beside its number.
trait Held: Sized {
    fn of(figure: i64) -> Option<Self>;
    fn figure(self) -> i64;
}

impl Held for i64 {
    fn of(figure: i64) -> Option<i64> {
        Some(figure)
    }

    fn figure(self) -> i64 {
        self
    }
}

/// The fields in the order of their figures, from 1 on.
const FIELDS: [Field; 5] = [Field::Year, Field::Month, Field::Day, Field::Milliseconds, Field::DayNumber];

impl Held for Field {
    fn of(figure: i64) -> Option<Field> {
        FIELDS.into_iter().find(|field| field.figure() == figure)
    }

    fn figure(self) -> i64 {
        self as i64 + 1
    }
}

/// The cases, each from its line in the table below, with what is read off that table.
macro_rules! refusals {
    ($($(#[$doc:meta])* $number:literal $case:ident $(($name:ident: $held:ty))?,)*) => {
        /// Why a call gave no answer. Each case has a number in the table of include/stephylax.h and, but for 12, a figure.
        #[derive(Clone, Copy, Debug, PartialEq, Eq)]
        pub enum Refusal {
            $($(#[$doc])* $case $(($held))?,)*
        }

        impl Refusal {
            fn read(number: u64, figure: i64) -> Option<Refusal> {
                match number {
                    $($number => Some(Refusal::$case $((<$held as Held>::of(figure)?))?),)*
                    _ => None,
                }
            }

            /// The number in that table.
            pub fn number(self) -> u64 {
                match self {
                    $(Refusal::$case { .. } => $number,)*
                }
            }

            /// The figure given with it.
            pub fn figure(self) -> i64 {
                match self {
                    $(Refusal::$case $(($name))? => refusals!(@figure $($name)?),)*
                }
            }
        }
    };
    (@figure) => { 0 };
    (@figure $name:ident) => { Held::figure($name) };
}

refusals! {
    /// The first field that does not exist.
    1 NoSuchDate(field: Field),
    /// The instant, in milliseconds from 2000-01-01 12h TD.
    2 PastLimit(t: i64),
    /// The offset of the byte.
    3 BadByte(at: i64),
    /// The offset.
    4 OverLimit(at: i64),
    /// The offset.
    5 TotalOverLimit(at: i64),
    /// The offset.
    6 TooCoarse(at: i64),
    /// The length that the output would need, of a list of changes their number; in a text or a published file the offset of the
    /// line that does not fit.
    7 NoRoom(length: i64),
    /// The length of the input.
    8 EndedEarly(length: i64),
    /// The offset of the first byte after the series.
    9 ByteAfterEnd(at: i64),
    /// The offset of the number's last byte.
    10 NotShortest(at: i64),
    /// The minute in a Sun list, else 0.
    11 NotUsable(minute: i64),
    /// Nothing.
    12 BadWindow,
    /// The offset of the heading's line feed.
    13 BadHeading(at: i64),
    /// The offset of the line feed.
    14 BadNumber(at: i64),
    /// The instant.
    17 TooFar(t: i64),
}

impl Refusal {
    /// From the number and the figure that the library gives.
    pub fn of(number: u64, figure: i64) -> Refusal {
        match Refusal::read(number, figure) {
            Some(refusal) if refusal.figure() == figure => refusal,
            _ => panic!("the table of refusals has no {number} with {figure}"),
        }
    }

    /// What is wrong, in a sentence.
    pub fn sentence(self) -> String {
        match self {
            Refusal::NoSuchDate(Field::Year) => "the year does not exist here: years go from -4712 to 9999".to_string(),
            Refusal::NoSuchDate(Field::Month) => "the month does not exist: months go from 1 to 12".to_string(),
            Refusal::NoSuchDate(Field::Day) => {
                "the month has no such day (5 to 14 October 1582 do not exist either)".to_string()
            }
            Refusal::NoSuchDate(Field::Milliseconds) => {
                "the time of day does not exist: it goes from 00:00 to 23:59:59.999".to_string()
            }
            Refusal::NoSuchDate(Field::DayNumber) => "there is no such day number: they go from 0 to 5,373,484".to_string(),
            Refusal::PastLimit(t) => {
                format!("the instant {t} ms is more than four millennia from 2000-01-01 12h TD")
            }
            Refusal::BadByte(at) => format!("the byte at offset {at} cannot continue its line"),
            Refusal::OverLimit(at) => format!("the number that ends at offset {at} passes its limit"),
            Refusal::TotalOverLimit(at) => {
                format!("the amplitudes of a block total more than 100,000 at offset {at}")
            }
            Refusal::TooCoarse(at) => {
                format!("the series has too many or too large terms to be summed closely enough, from offset {at}")
            }
            Refusal::NoRoom(n) => {
                format!(
                    "the output does not fit ({n}: the length it would need, of a list of changes their number; \
                     in a text or a published file the offset)"
                )
            }
            Refusal::EndedEarly(n) => format!("the input ended too early, after {n} bytes"),
            Refusal::ByteAfterEnd(at) => format!("the byte at offset {at} follows the end of the series"),
            Refusal::NotShortest(at) => {
                format!("the packed number that ends at offset {at} is not in its shortest form")
            }
            Refusal::NotUsable(_) => {
                "the place is not usable: a body is nearer than 0.1 AU or farther than 64 AU, or both are too close together"
                    .to_string()
            }
            Refusal::BadWindow => {
                "the keep-out angle is outside 60 to 2,700 arcminutes, or the minutes are outside 1 to 1,440".to_string()
            }
            Refusal::BadHeading(at) => {
                format!("the heading that ends at offset {at} is out of order, of no block, or not of version 4 (VSOP87D)")
            }
            Refusal::BadNumber(at) => {
                format!("the running number of the line that ends at offset {at} does not come next")
            }
            Refusal::TooFar(t) => {
                format!("the instant {t} ms is more than two millennia from 2000-01-01 12h TD, and a series is not good for that")
            }
        }
    }
}

impl fmt::Display for Refusal {
    fn fmt(&self, f: &mut fmt::Formatter) -> fmt::Result {
        write!(f, "refused {} ({}): {}", self.number(), self.figure(), self.sentence())
    }
}

impl std::error::Error for Refusal {}
