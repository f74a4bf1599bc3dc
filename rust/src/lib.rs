//! SELECT statements over a schema that you declare, for PostgreSQL, MySQL and SQLite, by the proved library of Hardieflax.
//!
//! A [`Session`] takes requests as values of Rust:
//!
//! ```
//! use hardieflax::{col, Dialect, Query, Schema, Session, Table, Type};
//!
//! # fn main() -> Result<(), Box<dyn std::error::Error>> {
//! let schema = Schema::new([
//!     Table::new("users").column("id", Type::Integer).column("name", Type::Text),
//!     Table::new("posts").column("id", Type::Integer).column("user_id", Type::Integer).column("title", Type::Text.nullable()),
//! ])
//! .joinable("posts", "user_id", "users")
//! .together("posts", "users");
//! let mut session = Session::open(&schema)?;
//!
//! let query = Query::from("users")
//!     .left_join("posts")
//!     .filter(col("users", "id").eq_any([1, 2]))
//!     .select([col("users", "name"), col("posts", "title").nullable()]);
//! let built = session.build(Dialect::Pg, &query)??;
//! assert!(built.sql.ends_with(r#"WHERE ("users"."id" = ANY($1))"#), "{}", built.sql);
//! assert_eq!(built.columns, [Type::Text.into(), Type::Text.nullable()]);
//! # Ok(())
//! # }
//! ```
//!
//! Where each `?` stands for an error of its own: the library did not answer all ([`HardieflaxError`]), or the request breaks a rule
//! ([`Refusal`]).
//!
//! [`Hardieflax`] has the calls themselves, over JSON in memory: documents, SQL to be read, texts to be audited. The functions of the library
//! are proved; this crate, which is plain Rust round them and has no other dependency, is tested. A call runs on the caller's stack: give a
//! thread that guards or reads what others send 8 MB.

#![warn(missing_docs)]

mod answer;
mod calls;
mod expression;
mod json;
mod query;
mod raw;
mod schema;
mod session;

pub use answer::{Answer, Bind, Built, Refusal};
pub use calls::{version, Dialect, Hardieflax, HardieflaxError, Lines};
pub use expression::{col, count_star, exists, field, single_value, Bindable, Expr, Value};
pub use query::{alias, only, sampled, Query, Sample, Source};
pub use schema::{ColumnType, Schema, Table, Type};
pub use session::{guard, Session};
