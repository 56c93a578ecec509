//! What refusals are called. Later versions have more of them, so no enum here is exhaustive.
#![deny(clippy::exhaustive_enums)]

use boxglue_sys as sys;
use std::fmt::{Display, Formatter, Result};

/// An enum of what the library numbers, whose names are those of answers. A number of a later version is `Other`.
macro_rules! numbered {
    ($(#[$about:meta])* $kind:ident { $($(#[$doc:meta])* $name:ident = $number:path,)* }) => {
        $(#[$about])*
        #[derive(Clone, Copy, Debug, PartialEq, Eq, Hash)]
        #[non_exhaustive]
        pub enum $kind {
            $($(#[$doc])* $name,)*
            /// One that this version does not know, by its number.
            Other(u32),
        }

        impl $kind {
            /// The one of a number.
            pub(crate) fn of(number: u32) -> $kind {
                match number {
                    $($number => $kind::$name,)*
                    other => $kind::Other(other),
                }
            }
        }

        impl Display for $kind {
            fn fmt(&self, out: &mut Formatter<'_>) -> Result {
                match self {
                    $($kind::$name => out.pad(stringify!($name)),)*
                    $kind::Other(number) => Display::fmt(number, out),
                }
            }
        }
    };
}

numbered! {
    /// Why something is refused (docs/REFUSALS.md).
    RefusalKind {
        /// Memory was refused for a command.
        OutOfMemory = sys::BOXGLUE_REFUSAL_OUT_OF_MEMORY,
        /// A line of a script is bad.
        BadScript = sys::BOXGLUE_REFUSAL_BAD_SCRIPT,
        /// A dimension does not fit.
        DimensionTooLarge = sys::BOXGLUE_REFUSAL_DIMENSION_TOO_LARGE,
        /// There is no such font.
        NoFont = sys::BOXGLUE_REFUSAL_NO_FONT,
        /// A metric file is bad.
        BadTfm = sys::BOXGLUE_REFUSAL_BAD_TFM,
        /// The slot has a font.
        SlotTaken = sys::BOXGLUE_REFUSAL_SLOT_TAKEN,
        /// No list is open.
        NoOpenList = sys::BOXGLUE_REFUSAL_NO_OPEN_LIST,
        /// The list is of the other mode.
        WrongMode = sys::BOXGLUE_REFUSAL_WRONG_MODE,
        /// The box is of the other kind.
        WrongKind = sys::BOXGLUE_REFUSAL_WRONG_KIND,
        /// The list would be too long.
        ListTooLong = sys::BOXGLUE_REFUSAL_LIST_TOO_LONG,
        /// Lists or boxes would be too deep.
        TooDeep = sys::BOXGLUE_REFUSAL_TOO_DEEP,
        /// Glue shrinks by an infinite order.
        InfiniteShrink = sys::BOXGLUE_REFUSAL_INFINITE_SHRINK,
        /// A paragraph has too many places for breaks.
        TooManyBreaks = sys::BOXGLUE_REFUSAL_TOO_MANY_BREAKS,
        /// A page is too large.
        HugePage = sys::BOXGLUE_REFUSAL_HUGE_PAGE,
        /// There are too many pages.
        TooManyPages = sys::BOXGLUE_REFUSAL_TOO_MANY_PAGES,
        /// Too much was shipped.
        TooMuchShipped = sys::BOXGLUE_REFUSAL_TOO_MUCH_SHIPPED,
        /// Lists are open at the end.
        ListsOpen = sys::BOXGLUE_REFUSAL_LISTS_OPEN,
        /// The file's bytes could not be kept.
        Device = sys::BOXGLUE_REFUSAL_DEVICE,
        /// The job is over.
        JobOver = sys::BOXGLUE_REFUSAL_JOB_OVER,
        /// A DVI file is bad.
        BadDvi = sys::BOXGLUE_REFUSAL_BAD_DVI,
        /// The register is void.
        VoidBox = sys::BOXGLUE_REFUSAL_VOID_BOX,
        /// Specials have too much text.
        TooMuchSpecial = sys::BOXGLUE_REFUSAL_TOO_MUCH_SPECIAL,
    }
}

/// An enum of names that texts have.
macro_rules! named {
    ($(#[$about:meta])* $kind:ident { $($(#[$doc:meta])* $name:ident,)* }) => {
        $(#[$about])*
        #[derive(Clone, Copy, Debug, PartialEq, Eq, Hash)]
        #[non_exhaustive]
        pub enum $kind {
            $($(#[$doc])* $name,)*
            /// One that this version does not know.
            Other,
        }

        impl $kind {
            /// The one of a name.
            pub(crate) fn of(name: &str) -> $kind {
                match name {
                    $(stringify!($name) => $kind::$name,)*
                    _ => $kind::Other,
                }
            }
        }

        impl Display for $kind {
            fn fmt(&self, out: &mut Formatter<'_>) -> Result {
                out.pad(match self {
                    $($kind::$name => stringify!($name),)*
                    $kind::Other => "other",
                })
            }
        }
    };
}

named! {
    /// What is wrong with a line of a script, a metric file or a DVI file (docs/FORMATS.md, sections 2, 9 and 7).
    Cause {
        /// A line: it has a byte that scripts do not have.
        Byte,
        /// A line: a word is none of those that may be there.
        Word,
        /// A line: it ends before a field that it needs.
        Missing,
        /// A line: a field comes after the end of the command.
        Extra,
        /// A line: a field is not a number in its range.
        Number,
        /// A line: a field is not a dimension that fits.
        Dimension,
        /// A line: a field is not the name of a font.
        Name,
        /// A metric file: it is too short.
        TooShort,
        /// A metric file: its numbers at the beginning are wrong.
        Counts,
        /// A metric file: its design size is wrong.
        DesignSize,
        /// A metric file: the data of a character are wrong.
        CharInfo,
        /// A metric file: a number is out of its range.
        FixWord,
        /// A metric file: a step for ligatures and kerns is wrong.
        LigKern,
        /// A DVI file: its end is wrong.
        Trailer,
        /// A DVI file: its version is another one.
        Version,
        /// A DVI file: an instruction is not allowed at its place.
        Opcode,
        /// A DVI file: a pointer is wrong.
        Pointer,
        /// A DVI file: the number of its pages is wrong.
        Count,
        /// A DVI file: its preamble is wrong.
        Preamble,
        /// A DVI file: an instruction is cut off.
        Truncated,
        /// A DVI file: pushes and pops do not match.
        Stack,
        /// A DVI file: a font is not defined as it is used.
        Font,
        /// A DVI file: the font lacks a character.
        Glyph,
        /// A DVI file: a place is out of range.
        Range,
    }
}

impl Cause {
    /// The rule of a DVI file that has this number.
    pub(crate) fn of_dvi(number: u32) -> Cause {
        match number {
            sys::BOXGLUE_DVI_TRAILER => Cause::Trailer,
            sys::BOXGLUE_DVI_VERSION => Cause::Version,
            sys::BOXGLUE_DVI_OPCODE => Cause::Opcode,
            sys::BOXGLUE_DVI_POINTER => Cause::Pointer,
            sys::BOXGLUE_DVI_COUNT => Cause::Count,
            sys::BOXGLUE_DVI_PREAMBLE => Cause::Preamble,
            sys::BOXGLUE_DVI_TRUNCATED => Cause::Truncated,
            sys::BOXGLUE_DVI_STACK => Cause::Stack,
            sys::BOXGLUE_DVI_FONT => Cause::Font,
            sys::BOXGLUE_DVI_GLYPH => Cause::Glyph,
            sys::BOXGLUE_DVI_RANGE => Cause::Range,
            _ => Cause::Other,
        }
    }

    /// The rule of a metric file that has this number.
    pub(crate) fn of_metrics(number: u32) -> Cause {
        match number {
            sys::BOXGLUE_TFM_TOO_SHORT => Cause::TooShort,
            sys::BOXGLUE_TFM_COUNTS => Cause::Counts,
            sys::BOXGLUE_TFM_DESIGN_SIZE => Cause::DesignSize,
            sys::BOXGLUE_TFM_CHAR_INFO => Cause::CharInfo,
            sys::BOXGLUE_TFM_FIX_WORD => Cause::FixWord,
            sys::BOXGLUE_TFM_LIG_KERN => Cause::LigKern,
            _ => Cause::Other,
        }
    }
}
