//! Requests as values of Rust, over a schema that is declared once.

use crate::answer::{answers_of, Answer};
use crate::calls::{Dialect, Hardieflax, HardieflaxError};
use crate::expression::Expr;
use crate::json::{List, Text};
use crate::query::Query;
use crate::schema::Schema;

/// Answers requests over a schema, and counts their ids.
///
/// ```
/// use hardieflax::{col, Dialect, Query, Schema, Session, Table, Type, Value};
///
/// # fn main() -> Result<(), Box<dyn std::error::Error>> {
/// let users = Table::new("users").column("id", Type::Integer).column("name", Type::Text);
/// let mut session = Session::open(&Schema::new([users]))?;
///
/// let query = Query::from("users").filter(col("users", "name").eq("Sean")).limit(10);
/// let built = session.build(Dialect::Pg, &query)??;
/// assert_eq!(built.sql, r#"SELECT "users"."id", "users"."name" FROM "users" WHERE ("users"."name" = $1) LIMIT $2"#);
/// assert_eq!(built.binds[0].value, Value::Text("Sean".to_owned()));
/// assert_eq!(built.columns, [Type::Integer.into(), Type::Text.into()]);
///
/// let elsewhere = Query::from("users").filter(col("posts", "id").is_null());
/// let refusal = session.build(Dialect::Pg, &elsewhere)?.expect_err("no table posts is declared");
/// assert_eq!(refusal.rule, "UnknownName");
/// # Ok(())
/// # }
/// ```
#[derive(Debug)]
pub struct Session {
    hardieflax: Hardieflax,
}

impl Session {
    /// A session over this schema. [`HardieflaxError::BadDocument`]: its declarations contradict each other (`docs/DOCUMENT.md`).
    pub fn open(schema: &Schema) -> Result<Self, HardieflaxError> {
        let mut hardieflax = Hardieflax::new();
        hardieflax.open(document(schema, "", &[]).as_bytes())?;
        Ok(Session { hardieflax })
    }

    /// The statement of a request, or the rule that it breaks.
    pub fn build(&mut self, dialect: Dialect, query: &Query) -> Result<Answer, HardieflaxError> {
        let mut answers = self.build_all(&[(dialect, query)])?;
        answers.pop().ok_or_else(|| HardieflaxError::Unreadable(String::new()))
    }

    /// An answer for each request, in order. Where a request nests too deep, those before it are answered, and [`HardieflaxError::NoMemory`]
    /// has their lines.
    pub fn build_all(&mut self, requests: &[(Dialect, &Query)]) -> Result<Vec<Answer>, HardieflaxError> {
        answers_of(self.hardieflax.next(document(&Schema::default(), "", requests).as_bytes())?)
    }
}

/// An answer for each request, over a schema, where each statement sees only those rows of one table for which the predicate is true
/// (`docs/GUARD.md`).
///
/// ```
/// use hardieflax::{col, guard, Dialect, Query, Schema, Table, Type};
///
/// # fn main() -> Result<(), Box<dyn std::error::Error>> {
/// let posts = Table::new("posts").column("id", Type::Integer).column("tenant", Type::Integer);
/// let query = Query::from("posts").select([col("posts", "id")]);
/// let answers = guard(&Schema::new([posts]), "posts", &col("posts", "tenant").eq(7), &[(Dialect::Sqlite, &query)])?;
/// let built = answers[0].as_ref().expect("it breaks no rule");
/// assert_eq!(built.sql, "SELECT `posts`.`id` FROM `posts` WHERE (`posts`.`tenant` = ?)");
/// # Ok(())
/// # }
/// ```
pub fn guard(schema: &Schema, table: &str, predicate: &Expr, requests: &[(Dialect, &Query)]) -> Result<Vec<Answer>, HardieflaxError> {
    let tenant = format!(",\"guard\":{{\"table\":{},\"predicate\":{predicate}}}", Text(table));
    answers_of(Hardieflax::new().guard(document(schema, &tenant, requests).as_bytes())?)
}

/// The document of these requests; `more` is a member after them, with a comma before it.
fn document(schema: &Schema, more: &str, requests: &[(Dialect, &Query)]) -> String {
    let requests: Vec<String> = requests.iter().map(|(dialect, query)| format!("{{\"dialect\":\"{dialect}\",\"query\":{query}}}")).collect();
    format!("{{\"schema\":{schema},\"requests\":{}{more}}}", List(&requests))
}
