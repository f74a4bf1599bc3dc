//! Declarations of tables.

use std::fmt;

use crate::json::{texts, List, Text};

/// A type of SQL.
#[derive(Debug, Clone, Copy, PartialEq, Eq, Hash)]
pub enum Type {
    /// A whole number of 16 bits
    SmallInt,
    /// A whole number of 32 bits
    Integer,
    /// A whole number of 64 bits
    BigInt,
    /// A text
    Text,
    /// Bytes
    Binary,
    /// A truth value
    Bool,
}

impl Type {
    /// The type of a column that may be NULL.
    #[must_use]
    pub const fn nullable(self) -> ColumnType {
        ColumnType { of: self, nullable: true }
    }
}

/// The type of a column or of a value: `Type::Text`, or `Type::Text.nullable()` where it may be NULL.
#[derive(Debug, Clone, Copy, PartialEq, Eq, Hash)]
pub struct ColumnType {
    /// The type of what is not NULL.
    pub of: Type,
    /// Whether it may be NULL.
    pub nullable: bool,
}

impl From<Type> for ColumnType {
    fn from(of: Type) -> Self {
        ColumnType { of, nullable: false }
    }
}

impl fmt::Display for ColumnType {
    /// The name in a document, as `Text?`.
    fn fmt(&self, f: &mut fmt::Formatter<'_>) -> fmt::Result {
        write!(f, "{:?}{}", self.of, if self.nullable { "?" } else { "" })
    }
}

impl ColumnType {
    /// The type of this name.
    pub(crate) fn of_name(name: &str) -> Option<Self> {
        let (plain, nullable) = name.strip_suffix('?').map_or((name, false), |plain| (plain, true));
        let of = match plain {
            "SmallInt" => Type::SmallInt,
            "Integer" => Type::Integer,
            "BigInt" => Type::BigInt,
            "Text" => Type::Text,
            "Binary" => Type::Binary,
            "Bool" => Type::Bool,
            _ => return None,
        };
        Some(ColumnType { of, nullable })
    }
}

/// A declared table.
///
/// ```
/// use hardieflax::{Table, Type};
///
/// let users = Table::new("users").column("id", Type::Integer).column("name", Type::Text.nullable());
/// assert_eq!(
///     users.to_string(),
///     r#"{"name":"users","columns":[{"name":"id","type":"Integer"},{"name":"name","type":"Text?"}]}"#
/// );
/// ```
#[derive(Debug, Clone)]
pub struct Table {
    /// The members but for the columns, each with a comma after it.
    members: String,
    columns: Vec<String>,
}

impl Table {
    /// A table of this name, with no columns yet, whose key is `id`.
    #[must_use]
    pub fn new(name: &str) -> Self {
        Table { members: format!("\"name\":{},", Text(name)), columns: Vec::new() }
    }

    /// One more column, of the same name in SQL.
    #[must_use]
    pub fn column(mut self, name: &str, of: impl Into<ColumnType>) -> Self {
        self.columns.push(format!("{{\"name\":{},\"type\":\"{}\"}}", Text(name), of.into()));
        self
    }

    /// One more column, which SQL calls by another name.
    #[must_use]
    pub fn column_named(mut self, name: &str, sql_name: &str, of: impl Into<ColumnType>) -> Self {
        self.columns.push(format!("{{\"name\":{},\"sql_name\":{},\"type\":\"{}\"}}", Text(name), Text(sql_name), of.into()));
        self
    }

    /// What SQL calls the table, where that is not its name.
    #[must_use]
    pub fn sql_name(self, name: &str) -> Self {
        self.with("sql_name", &Text(name))
    }

    /// The schema of the database in which the table is.
    #[must_use]
    pub fn schema(self, name: &str) -> Self {
        self.with("schema", &Text(name))
    }

    /// The columns of the primary key.
    #[must_use]
    pub fn primary_key<N: AsRef<str>>(self, columns: impl IntoIterator<Item = N>) -> Self {
        self.with("primary_key", &texts(columns))
    }

    fn with(mut self, member: &str, value: &dyn fmt::Display) -> Self {
        self.members += &format!("\"{member}\":{value},");
        self
    }
}

impl fmt::Display for Table {
    /// The JSON of the table.
    fn fmt(&self, f: &mut fmt::Formatter<'_>) -> fmt::Result {
        write!(f, "{{{}\"columns\":{}}}", self.members, List(&self.columns))
    }
}

/// Tables, and which of them may be joined.
#[derive(Debug, Clone, Default)]
pub struct Schema {
    tables: Vec<Table>,
    joinable: Vec<String>,
    together: Vec<String>,
}

impl Schema {
    /// The schema of these tables, with no relation.
    #[must_use]
    pub fn new(tables: impl IntoIterator<Item = Table>) -> Self {
        Schema { tables: tables.into_iter().collect(), ..Schema::default() }
    }

    /// The column `key` of the table `child` refers to the primary key of `parent`, by which a join without ON joins them.
    #[must_use]
    pub fn joinable(mut self, child: &str, key: &str, parent: &str) -> Self {
        self.joinable.push(format!("{{\"child\":{},\"key\":{},\"parent\":{}}}", Text(child), Text(key), Text(parent)));
        self
    }

    /// Both tables may stand in one statement.
    #[must_use]
    pub fn together(mut self, left: &str, right: &str) -> Self {
        self.together.push(texts([left, right]));
        self
    }
}

impl fmt::Display for Schema {
    /// The JSON of the schema.
    fn fmt(&self, f: &mut fmt::Formatter<'_>) -> fmt::Result {
        write!(f, "{{\"tables\":{},\"joinable\":{},\"together\":{}}}", List(&self.tables), List(&self.joinable), List(&self.together))
    }
}
