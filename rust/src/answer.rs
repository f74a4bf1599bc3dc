//! Answers to requests.

use std::fmt;

use crate::calls::HardieflaxError;
use crate::expression::Value;
use crate::json::Json;
use crate::schema::{ColumnType, Type};

/// A value beside a text, with its type.
#[derive(Debug, Clone, PartialEq, Eq, Hash)]
pub struct Bind {
    /// Its type.
    pub of: ColumnType,
    /// The value.
    pub value: Value,
}

/// A statement: its text, and what goes with it.
#[derive(Debug, Clone, PartialEq, Eq)]
pub struct Built {
    /// The text, in the dialect of the request.
    pub sql: String,
    /// The values, in the order of their placeholders.
    pub binds: Vec<Bind>,
    /// The type of each column of the result.
    pub columns: Vec<ColumnType>,
    /// Which accepted request, counted from 1, was the first of this dialect and shape. Requests of one id have one text.
    pub id: Option<u64>,
    /// Whether the text may be prepared once and used with other values.
    pub safe: bool,
}

/// A request that is refused: the name of the first rule that it breaks (`docs/RULES.md`).
#[derive(Debug, Clone, PartialEq, Eq, Hash)]
pub struct Refusal {
    /// The name of the rule, as `NotInScope`.
    pub rule: String,
}

impl fmt::Display for Refusal {
    fn fmt(&self, f: &mut fmt::Formatter<'_>) -> fmt::Result {
        write!(f, "the request breaks the rule {}", self.rule)
    }
}

impl std::error::Error for Refusal {}

/// What a request gets.
pub type Answer = Result<Built, Refusal>;

/// The answer of each line.
pub fn answers_of(lines: &str) -> Result<Vec<Answer>, HardieflaxError> {
    let answer = |line: &str| Json::of(line).and_then(|line| answer_of(&line)).ok_or_else(|| HardieflaxError::Unreadable(line.to_owned()));
    lines.lines().map(answer).collect()
}

fn answer_of(line: &Json) -> Option<Answer> {
    if let Some(rule) = line.member("refused") {
        return Some(Err(Refusal { rule: rule.as_text()?.to_owned() }));
    }
    Some(Ok(Built {
        sql: line.member("sql")?.as_text()?.to_owned(),
        binds: line.member("binds")?.as_list()?.iter().map(bind_of).collect::<Option<_>>()?,
        columns: line.member("columns")?.as_list()?.iter().map(type_of).collect::<Option<_>>()?,
        id: match line.member("id")? {
            Json::Null => None,
            Json::Number(id) => Some(u64::try_from(*id).ok()?),
            _ => return None,
        },
        safe: match line.member("safe")? {
            Json::Bool(safe) => *safe,
            _ => return None,
        },
    }))
}

fn type_of(name: &Json) -> Option<ColumnType> {
    ColumnType::of_name(name.as_text()?)
}

fn bind_of(bind: &Json) -> Option<Bind> {
    let [name, value] = bind.as_list()? else {
        return None;
    };
    let of = type_of(name)?;
    Some(Bind { of, value: value_of(of.of, value)? })
}

fn value_of(of: Type, value: &Json) -> Option<Value> {
    Some(match value {
        Json::Null => Value::Null,
        Json::Bool(truth) => Value::Bool(*truth),
        Json::Number(number) => Value::Number(*number),
        Json::Text(digits) if of == Type::Binary => Value::Binary(bytes_of(digits)?),
        Json::Text(text) => Value::Text(text.clone()),
        Json::List(values) => Value::List(values.iter().map(|value| value_of(of, value)).collect::<Option<_>>()?),
        Json::Object(_) => return None,
    })
}

/// The bytes of which these are the hexadecimal digits.
fn bytes_of(digits: &str) -> Option<Vec<u8>> {
    if digits.len() % 2 != 0 || !digits.bytes().all(|digit| digit.is_ascii_hexdigit()) {
        return None;
    }
    (0..digits.len()).step_by(2).map(|at| u8::from_str_radix(&digits[at..at + 2], 16).ok()).collect()
}

#[cfg(test)]
mod tests {
    use super::{answers_of, Bind, Built, Refusal};
    use crate::calls::HardieflaxError;
    use crate::expression::Value;
    use crate::schema::Type;

    #[test]
    fn lines_are_read() {
        let lines = concat!(
            r#"{"binds":[["Binary","00ff"],["Text?",null],["Bool",true],["Integer",[1,2]]],"#,
            r#""columns":["Text?"],"id":null,"safe":false,"sql":"é"}"#,
            "\n",
            r#"{"refused":"NotInScope"}"#,
            "\n"
        );
        let bind = |of, value| Bind { of, value };
        let built = Built {
            sql: "é".to_owned(),
            binds: vec![
                bind(Type::Binary.into(), Value::Binary(vec![0, 255])),
                bind(Type::Text.nullable(), Value::Null),
                bind(Type::Bool.into(), Value::Bool(true)),
                bind(Type::Integer.into(), Value::List(vec![Value::Number(1), Value::Number(2)])),
            ],
            columns: vec![Type::Text.nullable()],
            id: None,
            safe: false,
        };
        assert_eq!(answers_of(lines), Ok(vec![Ok(built), Err(Refusal { rule: "NotInScope".to_owned() })]));
        assert_eq!(answers_of(""), Ok(Vec::new()));
    }

    #[test]
    fn other_lines_are_unreadable() {
        for line in ["{", "{}", r#"{"refused":1}"#, r#"{"binds":[["Int",1]],"columns":[],"id":1,"safe":true,"sql":""}"#] {
            assert_eq!(answers_of(line), Err(HardieflaxError::Unreadable(line.to_owned())));
        }
    }
}
