//! Stand-ins for aerodb's sql::decimal and sql::value: just the names that row.rs mentions.

pub mod decimal {
    use std::fmt;

    #[derive(Debug, Clone, Copy, PartialEq)]
    pub struct Decimal {
        mantissa: i128,
        scale: u8,
    }

    #[derive(Debug)]
    pub struct DecimalError;

    impl Decimal {
        /// The original's own limits are in a file that is not carried over;
        /// `ColumnType` in row.rs allows a scale of up to 38.
        pub fn new(mantissa: i128, scale: u8) -> Result<Self, DecimalError> {
            if scale > 38 {
                return Err(DecimalError);
            }
            Ok(Decimal { mantissa, scale })
        }

        pub fn mantissa(&self) -> i128 {
            self.mantissa
        }

        pub fn scale(&self) -> u8 {
            self.scale
        }
    }

    impl fmt::Display for Decimal {
        fn fmt(&self, f: &mut fmt::Formatter<'_>) -> fmt::Result {
            write!(f, "{}e-{}", self.mantissa, self.scale)
        }
    }
}

pub mod value {
    use crate::storage::row::{ColumnType, ColumnValue};

    pub enum Value {
        Text(String),
    }

    impl Value {
        pub fn to_column_value(&self, _: &ColumnType, _: &str) -> Result<ColumnValue, String> {
            unimplemented!("sql::value stand-in")
        }
    }
}
