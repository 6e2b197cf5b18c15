//! The errors by name. Tables in memory never fail, so none of them is ever made.

use std::fmt;

#[derive(Debug)]
pub enum Error {}

impl fmt::Display for Error {
    fn fmt(&self, _: &mut fmt::Formatter<'_>) -> fmt::Result {
        match *self {}
    }
}

impl std::error::Error for Error {}

macro_rules! never_made {
    ($($name:ident)*) => {$(
        #[derive(Debug)]
        pub enum $name {}

        impl fmt::Display for $name {
            fn fmt(&self, _: &mut fmt::Formatter<'_>) -> fmt::Result {
                match *self {}
            }
        }

        impl std::error::Error for $name {}

        impl From<$name> for Error {
            fn from(e: $name) -> Self {
                match e {}
            }
        }
    )*};
}

never_made!(DatabaseError TransactionError TableError StorageError CommitError SetDurabilityError);
