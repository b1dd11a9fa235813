//! The numbers that a table gives to its types, packages and members, each kind a type of its own.

use std::fmt::{self, Display, Formatter};

/// A number of a table, which prints as it stands in a line.
macro_rules! number {
    ($(#[$meaning:meta])* $name:ident) => {
        $(#[$meaning])*
        #[derive(Clone, Copy, Debug, PartialEq, Eq, PartialOrd, Ord, Hash)]
        pub struct $name(pub u16);

        impl Display for $name {
            fn fmt(&self, f: &mut Formatter) -> fmt::Result {
                self.0.fmt(f)
            }
        }

        impl From<u16> for $name {
            fn from(number: u16) -> $name {
                $name(number)
            }
        }

        impl From<$name> for usize {
            fn from(number: $name) -> usize {
                number.0.into()
            }
        }
    };
}

number! {
    /// The number of a type: the table's T lines count from 0.
    Type
}

number! {
    /// The number of a package: the table's P lines count from 0.
    Package
}

number! {
    /// The number of a field or method: the table's F and M lines count together from 0.
    Member
}
