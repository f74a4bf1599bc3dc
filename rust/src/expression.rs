//! Expressions of requests, and the values that they bind.

use std::fmt;
use std::ops::Not;

use crate::json::{texts, List, Text};
use crate::query::Query;
use crate::schema::{ColumnType, Type};

/// A value of SQL.
#[derive(Debug, Clone, PartialEq, Eq, Hash)]
pub enum Value {
    /// NULL, of any type that may be it
    Null,
    /// A whole number of any of the three sizes
    Number(i64),
    /// A text
    Text(String),
    /// Bytes
    Binary(Vec<u8>),
    /// A truth value
    Bool(bool),
    /// Values that are bound as one, as PostgreSQL binds a list.
    List(Vec<Value>),
}

impl fmt::Display for Value {
    /// The JSON of the value.
    fn fmt(&self, f: &mut fmt::Formatter<'_>) -> fmt::Result {
        match self {
            Value::Null => f.write_str("null"),
            Value::Number(number) => write!(f, "{number}"),
            Value::Text(text) => write!(f, "{}", Text(text)),
            Value::Binary(bytes) => {
                f.write_str("\"")?;
                bytes.iter().try_for_each(|byte| write!(f, "{byte:02x}"))?;
                f.write_str("\"")
            }
            Value::Bool(truth) => write!(f, "{truth}"),
            Value::List(values) => write!(f, "{}", List(values)),
        }
    }
}

/// A type of Rust whose values can be bound. `None` is NULL, so the type of an `Option` is nullable.
pub trait Bindable {
    /// The type that SQL has for it.
    const TYPE: ColumnType;

    /// The value.
    fn into_value(self) -> Value;
}

macro_rules! bindable {
    ($($rust:ty => $sql:ident, $value:expr;)*) => {$(
        impl Bindable for $rust {
            const TYPE: ColumnType = ColumnType { of: Type::$sql, nullable: false };

            fn into_value(self) -> Value {
                $value(self)
            }
        }
    )*};
}

bindable! {
    i16 => SmallInt, |number| Value::Number(i64::from(number));
    i32 => Integer, |number| Value::Number(i64::from(number));
    i64 => BigInt, Value::Number;
    &str => Text, |text: &str| Value::Text(text.to_owned());
    String => Text, Value::Text;
    &[u8] => Binary, |bytes: &[u8]| Value::Binary(bytes.to_owned());
    Vec<u8> => Binary, Value::Binary;
    bool => Bool, Value::Bool;
}

impl<T: Bindable> Bindable for Option<T> {
    const TYPE: ColumnType = ColumnType { of: T::TYPE.of, nullable: true };

    fn into_value(self) -> Value {
        self.map_or(Value::Null, T::into_value)
    }
}

/// An expression. A value that can be bound is one, too.
///
/// ```
/// use hardieflax::col;
///
/// let is_sean = col("users", "name").eq("Sean").or(col("users", "id").eq_any([1, 2]));
/// assert_eq!(
///     is_sean.to_string(),
///     r#"{"or":[{"eq":[{"col":["users","name"]},{"bind":["Text","Sean"]}]},"#.to_owned()
///         + r#"{"eq_any":[{"col":["users","id"]},{"list":["Integer",[1,2]]}]}]}"#
/// );
/// ```
#[derive(Debug, Clone)]
pub struct Expr(String);

/// A column of a table.
#[must_use]
pub fn col(table: &str, column: &str) -> Expr {
    Expr(format!("{{\"col\":{}}}", texts([table, column])))
}

/// A column of a table that has an alias.
#[must_use]
pub fn field(alias: &str, table: &str, column: &str) -> Expr {
    Expr(format!("{{\"field\":{}}}", texts([alias, table, column])))
}

/// `COUNT(*)`
#[must_use]
pub fn count_star() -> Expr {
    Expr("\"count_star\"".to_owned())
}

/// Whether a query has a row.
#[must_use]
pub fn exists(query: &Query) -> Expr {
    Expr(format!("{{\"exists\":{query}}}"))
}

/// The value of a query of one column and at most one row.
#[must_use]
pub fn single_value(query: &Query) -> Expr {
    Expr(format!("{{\"single_value\":{query}}}"))
}

impl<T: Bindable> From<T> for Expr {
    fn from(value: T) -> Self {
        Expr(format!("{{\"bind\":[\"{}\",{}]}}", T::TYPE, value.into_value()))
    }
}

macro_rules! binary {
    ($($(#[$page:meta])* $name:ident)*) => {$(
        $(#[$page])*
        #[must_use]
        pub fn $name(self, other: impl Into<Expr>) -> Expr {
            self.beside(stringify!($name), &other.into())
        }
    )*};
}

macro_rules! unary {
    ($($(#[$page:meta])* $name:ident)*) => {$(
        $(#[$page])*
        #[must_use]
        pub fn $name(self) -> Expr {
            self.under(stringify!($name))
        }
    )*};
}

impl Expr {
    binary! {
        /// `=`
        eq
        /// `!=`
        ne
        /// `>`
        gt
        /// `>=`
        ge
        /// `<`
        lt
        /// `<=`
        le
        /// `AND`
        and
        /// `OR`
        or
    }

    unary! {
        /// `IS NULL`
        is_null
        /// `IS NOT NULL`
        is_not_null
        /// The same, of a type that may be NULL.
        nullable
        /// `COUNT`
        count
        /// In an order: the least first.
        asc
        /// In an order: the greatest first.
        desc
    }

    /// Whether it is one of these values.
    #[must_use]
    pub fn eq_any<T: Bindable>(self, values: impl IntoIterator<Item = T>) -> Expr {
        self.beside("eq_any", &list(values))
    }

    /// Whether it is none of these values.
    #[must_use]
    pub fn ne_all<T: Bindable>(self, values: impl IntoIterator<Item = T>) -> Expr {
        self.beside("ne_all", &list(values))
    }

    /// Whether it is one of the values that a query answers.
    #[must_use]
    pub fn eq_any_of(self, query: &Query) -> Expr {
        self.beside("eq_any", query)
    }

    /// Whether it is none of the values that a query answers.
    #[must_use]
    pub fn ne_all_of(self, query: &Query) -> Expr {
        self.beside("ne_all", query)
    }

    fn beside(self, name: &str, other: &dyn fmt::Display) -> Expr {
        Expr(format!("{{\"{name}\":[{self},{other}]}}"))
    }

    fn under(self, name: &str) -> Expr {
        Expr(format!("{{\"{name}\":{self}}}"))
    }
}

/// The list of values to compare with.
fn list<T: Bindable>(values: impl IntoIterator<Item = T>) -> String {
    let values: Vec<Value> = values.into_iter().map(T::into_value).collect();
    format!("{{\"list\":[\"{}\",{}]}}", T::TYPE, List(&values))
}

impl Not for Expr {
    type Output = Expr;

    fn not(self) -> Expr {
        self.under("not")
    }
}

impl fmt::Display for Expr {
    /// The JSON of the expression.
    fn fmt(&self, f: &mut fmt::Formatter<'_>) -> fmt::Result {
        f.write_str(&self.0)
    }
}
