//! Queries: what they select from, and the calls that are made on them.

use std::fmt;

use crate::expression::Expr;
use crate::json::{List, Text};

/// What a query selects from: a table by its name, an alias of one, or a join.
#[derive(Debug, Clone)]
pub struct Source(String);

impl From<&str> for Source {
    fn from(table: &str) -> Self {
        Source(format!("{{\"table\":{}}}", Text(table)))
    }
}

/// How PostgreSQL picks the rows of a sample.
#[derive(Debug, Clone, Copy, PartialEq, Eq, Hash)]
pub enum Sample {
    /// Each row for itself
    Bernoulli,
    /// Whole blocks of rows
    System,
}

/// A table without those that inherit from it, on PostgreSQL.
#[must_use]
pub fn only(table: &str) -> Source {
    Source(format!("{{\"table\":{},\"only\":true}}", Text(table)))
}

/// A sample of a table's rows, on PostgreSQL: a portion of them in percent, and the seed by which they are picked again.
#[must_use]
pub fn sampled(table: &str, sample: Sample, percent: i16, seed: Option<i32>) -> Source {
    let method = match sample {
        Sample::Bernoulli => "bernoulli",
        Sample::System => "system",
    };
    let seed = seed.map(|seed| format!(",{seed}")).unwrap_or_default();
    Source(format!("{{\"table\":{},\"sample\":[\"{method}\",{percent}{seed}]}}", Text(table)))
}

/// A table under another name.
#[must_use]
pub fn alias(alias: &str, table: &str) -> Source {
    Source(format!("{{\"alias\":{},\"of\":{}}}", Text(alias), Text(table)))
}

impl Source {
    /// The rows of both that fit, by the declared relation.
    #[must_use]
    pub fn inner_join(self, right: impl Into<Source>) -> Source {
        self.join("inner", &right.into(), None)
    }

    /// The rows of both for which the condition is true.
    #[must_use]
    pub fn inner_join_on(self, right: impl Into<Source>, on: &Expr) -> Source {
        self.join("inner", &right.into(), Some(on))
    }

    /// The same, and the rows of the left that fit none.
    #[must_use]
    pub fn left_join(self, right: impl Into<Source>) -> Source {
        self.join("left", &right.into(), None)
    }

    /// The same by a condition.
    #[must_use]
    pub fn left_join_on(self, right: impl Into<Source>, on: &Expr) -> Source {
        self.join("left", &right.into(), Some(on))
    }

    fn join(self, kind: &str, right: &Source, on: Option<&Expr>) -> Source {
        let on = on.map(|on| format!(",\"on\":{on}")).unwrap_or_default();
        Source(format!("{{\"join\":[\"{kind}\",{self},{right}]{on}}}"))
    }
}

impl fmt::Display for Source {
    /// The JSON of the source.
    fn fmt(&self, f: &mut fmt::Formatter<'_>) -> fmt::Result {
        f.write_str(&self.0)
    }
}

/// A query: what it starts from, and the calls that are made on it, in order. Each call is as diesel's of that name (`docs/USING.md`), and which
/// are allowed on what the library says (`docs/DOCUMENT.md`).
///
/// ```
/// use hardieflax::{col, Query};
///
/// let query = Query::from("posts")
///     .inner_join("users")
///     .filter(col("posts", "stars").ge(4_i16))
///     .select([col("posts", "title"), col("users", "name")])
///     .order_by([col("posts", "stars").desc()])
///     .limit(10);
/// assert!(query.to_string().starts_with(r#"{"from":{"table":"posts"},"calls":[["inner_join",{"table":"users"}],["filter","#));
/// ```
#[derive(Debug, Clone)]
pub struct Query {
    start: String,
    calls: Vec<String>,
}

macro_rules! plain_calls {
    ($($(#[$page:meta])* $name:ident)*) => {$(
        $(#[$page])*
        #[must_use]
        pub fn $name(self) -> Self {
            self.call(stringify!($name), &[])
        }
    )*};
}

macro_rules! calls {
    ($($(#[$page:meta])* $name:ident($argument:ident: $type:ty) => $json:expr;)*) => {$(
        $(#[$page])*
        #[must_use]
        pub fn $name(self, $argument: $type) -> Self {
            self.call(stringify!($name), &[&$json])
        }
    )*};
}

macro_rules! list_calls {
    ($($(#[$page:meta])* $name:ident)*) => {$(
        $(#[$page])*
        #[must_use]
        pub fn $name<E: Into<Expr>>(self, expressions: impl IntoIterator<Item = E>) -> Self {
            let expressions: Vec<Expr> = expressions.into_iter().map(Into::into).collect();
            self.call(stringify!($name), &[&List(&expressions)])
        }
    )*};
}

impl Query {
    /// All columns of a source.
    #[must_use]
    #[allow(clippy::should_implement_trait)] // the word of a document; a source alone is no query
    pub fn from(source: impl Into<Source>) -> Self {
        Query { start: format!("\"from\":{}", source.into()), calls: Vec::new() }
    }

    /// An expression over no table.
    #[must_use]
    pub fn of(expression: impl Into<Expr>) -> Self {
        Query { start: format!("\"select\":{}", expression.into()), calls: Vec::new() }
    }

    plain_calls! {
        /// `DISTINCT`
        distinct
        /// `COUNT(*)` in place of the columns
        count
        /// The same columns, of types that may be NULL
        nullable
        /// `FOR UPDATE`
        for_update
        /// `FOR NO KEY UPDATE`
        for_no_key_update
        /// `FOR SHARE`
        for_share
        /// `FOR KEY SHARE`
        for_key_share
        /// `SKIP LOCKED`
        skip_locked
        /// `NOWAIT`
        no_wait
        /// The same with its types erased, as diesel's boxed queries
        into_boxed
    }

    calls! {
        /// Rows for which this is true, too
        filter(condition: impl Into<Expr>) => condition.into();
        /// Rows for which this is true, besides those so far
        or_filter(condition: impl Into<Expr>) => condition.into();
        /// Groups for which this is true
        having(condition: impl Into<Expr>) => condition.into();
        /// `LIMIT`
        limit(rows: i64) => rows;
        /// `OFFSET`
        offset(rows: i64) => rows;
        /// The rows of both that fit, by the declared relation
        inner_join(right: impl Into<Source>) => right.into();
        /// The same, and the rows so far that fit none
        left_join(right: impl Into<Source>) => right.into();
        /// `UNION`
        union(other: &Query) => other;
        /// `UNION ALL`
        union_all(other: &Query) => other;
        /// `INTERSECT`
        intersect(other: &Query) => other;
        /// `INTERSECT ALL`
        intersect_all(other: &Query) => other;
        /// `EXCEPT`
        except(other: &Query) => other;
        /// `EXCEPT ALL`
        except_all(other: &Query) => other;
    }

    list_calls! {
        /// These columns in place of those so far
        select
        /// `DISTINCT ON`
        distinct_on
        /// `GROUP BY`
        group_by
        /// The row whose primary key has these values
        find
        /// In this order; `asc` and `desc` of an expression say which way
        order_by
        /// Then in this order
        then_order_by
    }

    /// The rows of both for which a condition is true.
    #[must_use]
    pub fn inner_join_on(self, right: impl Into<Source>, on: &Expr) -> Self {
        self.call("inner_join", &[&right.into(), on])
    }

    /// The same, and the rows so far that fit none.
    #[must_use]
    pub fn left_join_on(self, right: impl Into<Source>, on: &Expr) -> Self {
        self.call("left_join", &[&right.into(), on])
    }

    /// The rows of a combination, in the order of these columns, each counted from 1: a negative number stands for descending order.
    #[must_use]
    pub fn positional_order_by(self, columns: impl IntoIterator<Item = i64>) -> Self {
        let way = |column: i64| if column < 0 { format!("{{\"desc\":{}}}", column.unsigned_abs()) } else { column.to_string() };
        let columns: Vec<String> = columns.into_iter().map(way).collect();
        self.call("positional_order_by", &[&List(&columns)])
    }

    /// One more call, by its name and its arguments in JSON.
    fn call(mut self, name: &str, arguments: &[&dyn fmt::Display]) -> Self {
        let mut items = vec![Text(name).to_string()];
        items.extend(arguments.iter().map(ToString::to_string));
        self.calls.push(List(&items).to_string());
        self
    }
}

impl fmt::Display for Query {
    /// The JSON of the query.
    fn fmt(&self, f: &mut fmt::Formatter<'_>) -> fmt::Result {
        write!(f, "{{{},\"calls\":{}}}", self.start, List(&self.calls))
    }
}
