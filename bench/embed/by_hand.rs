//! Formats by hand the texts of `bench/requests.py`, as a program without a query builder would, and prints how many seconds that took.
//!
//! by_hand COUNT TEXTS: TEXTS is where the texts go, one on a line. It knows which requests are refused, and gives no text for them. It
//! reads no request and checks nothing: it is told what to format by a number.

use std::fmt::Write as _;
use std::io::Write as _;
use std::time::Instant;
use std::{env, error::Error, fs, hint};

#[derive(Clone, Copy, PartialEq)]
enum Dialect {
    Pg,
    Mysql,
    Sqlite,
}

use Dialect::{Mysql, Pg, Sqlite};

struct Names {
    users: &'static str,
    id: &'static str,
    name: &'static str,
    posts: &'static str,
    user_id: &'static str,
    title: &'static str,
}

const NAMES: Names = Names { users: "users", id: "id", name: "name", posts: "posts", user_id: "user_id", title: "title" };

/// Writes `a`.`b` in the dialect's quotes.
fn path(text: &mut String, dialect: Dialect, table: &str, column: &str) {
    let quote = if dialect == Pg { '"' } else { '`' };
    let _ = write!(text, "{quote}{table}{quote}.{quote}{column}{quote}");
}

fn table(text: &mut String, dialect: Dialect, name: &str) {
    let quote = if dialect == Pg { '"' } else { '`' };
    let _ = write!(text, "{quote}{name}{quote}");
}

fn placeholder(text: &mut String, dialect: Dialect, number: usize) {
    if dialect == Pg {
        let _ = write!(text, "${number}");
    } else {
        text.push('?');
    }
}

/// SELECT id, name FROM users
fn all_users(text: &mut String, dialect: Dialect) {
    text.push_str("SELECT ");
    path(text, dialect, NAMES.users, NAMES.id);
    text.push_str(", ");
    path(text, dialect, NAMES.users, NAMES.name);
    text.push_str(" FROM ");
    table(text, dialect, NAMES.users);
}

/// The text of the request with this number, if it is accepted.
fn text_of(text: &mut String, number: usize) -> bool {
    let dialect = [Pg, Mysql, Sqlite][number % 3];
    match number / 3 % 8 {
        0 => {
            all_users(text, dialect);
            text.push_str(" WHERE (");
            path(text, dialect, NAMES.users, NAMES.id);
            text.push_str(" = ");
            placeholder(text, dialect, 1);
            text.push(')');
        }
        1 => {
            text.push_str("SELECT ");
            path(text, dialect, NAMES.users, NAMES.name);
            text.push_str(", ");
            path(text, dialect, NAMES.posts, NAMES.title);
            text.push_str(" FROM (");
            table(text, dialect, NAMES.users);
            text.push_str(" INNER JOIN ");
            table(text, dialect, NAMES.posts);
            text.push_str(" ON (");
            path(text, dialect, NAMES.posts, NAMES.user_id);
            text.push_str(" = ");
            path(text, dialect, NAMES.users, NAMES.id);
            text.push_str(")) LIMIT ");
            placeholder(text, dialect, 1);
        }
        3 => {
            let (open, close) = if dialect == Sqlite { ("SELECT * FROM (", ")") } else { ("(", ")") };
            for joint in ["", " UNION "] {
                text.push_str(joint);
                text.push_str(open);
                text.push_str("SELECT ");
                path(text, dialect, NAMES.users, NAMES.id);
                text.push_str(" FROM ");
                table(text, dialect, NAMES.users);
                text.push_str(close);
            }
        }
        4 => {
            all_users(text, dialect);
            text.push_str(" WHERE ");
            let count = number % 4;
            if dialect == Pg {
                text.push('(');
                path(text, dialect, NAMES.users, NAMES.id);
                text.push_str(" = ANY($1))");
            } else if count == 0 {
                text.push_str("(0=1)");
            } else {
                text.push('(');
                path(text, dialect, NAMES.users, NAMES.id);
                text.push_str(" IN (");
                for item in 1..=count {
                    text.push_str(if item > 1 { ", " } else { "" });
                    placeholder(text, dialect, item);
                }
                text.push_str("))");
            }
        }
        5 => {
            all_users(text, dialect);
            text.push_str(match dialect {
                Pg => " OFFSET ",
                Mysql => " LIMIT 18446744073709551615  OFFSET ",
                Sqlite => " LIMIT -1  OFFSET ",
            });
            placeholder(text, dialect, 1);
        }
        6 if dialect == Pg => {
            all_users(text, dialect);
            text.push_str(" FOR KEY SHARE");
        }
        7 => {
            all_users(text, dialect);
            text.push_str(" WHERE EXISTS (SELECT ");
            path(text, dialect, NAMES.posts, NAMES.id);
            text.push_str(", ");
            path(text, dialect, NAMES.posts, NAMES.user_id);
            text.push_str(", ");
            path(text, dialect, NAMES.posts, NAMES.title);
            text.push_str(" FROM ");
            table(text, dialect, NAMES.posts);
            text.push_str(" WHERE (");
            path(text, dialect, NAMES.posts, NAMES.user_id);
            text.push_str(" = ");
            path(text, dialect, NAMES.users, NAMES.id);
            text.push_str("))");
        }
        // The rules refuse a nullable column that is not declared so, and locks that the dialect lacks.
        _ => return false,
    }
    true
}

fn main() -> Result<(), Box<dyn Error>> {
    let mut arguments = env::args().skip(1);
    let count: usize = arguments.next().ok_or("usage: by_hand COUNT TEXTS")?.parse()?;
    let mut out = std::io::BufWriter::new(fs::File::create(arguments.next().ok_or("usage: by_hand COUNT TEXTS")?)?);
    let mut seconds = 0.0;
    for number in 0..count {
        let began = Instant::now();
        let mut text = String::new();
        let is_text = hint::black_box(text_of(&mut text, hint::black_box(number)));
        seconds += began.elapsed().as_secs_f64();
        if is_text {
            writeln!(out, "{text}")?;
        }
    }
    out.flush()?;
    println!("{seconds:.4}");
    Ok(())
}
