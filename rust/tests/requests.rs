//! Each call that makes a request, over the library: the statement that it is meant to be.

use hardieflax::{alias, col, count_star, exists, field, guard, single_value, Bindable, Dialect, Expr, HardieflaxError, Query, Schema, Session};
use hardieflax::{only, sampled, Sample, Source, Table, Type, Value};

fn schema() -> Schema {
    let users = Table::new("users").column("id", Type::Integer).column("name", Type::Text).column_named("born", "date", Type::BigInt.nullable());
    let posts = Table::new("posts").sql_name("articles").schema("blog").column("id", Type::Integer).column("user_id", Type::Integer);
    let kinds = Table::new("kinds").column("a", Type::SmallInt).column("b", Type::Binary).column("c", Type::Bool).primary_key(["a", "c"]);
    Schema::new([users, posts, kinds]).joinable("posts", "user_id", "users").together("users", "posts")
}

fn id() -> Expr {
    col("users", "id")
}

fn users() -> Query {
    Query::from("users").select([id()])
}

/// The text of a query that breaks no rule, without its quotes.
fn sql_on(dialect: Dialect, query: &Query) -> String {
    let mut session = Session::open(&schema()).expect("the schema is one");
    let answer = session.build(dialect, query).unwrap_or_else(|error| panic!("{error}: {query}"));
    answer.unwrap_or_else(|refusal| panic!("{refusal}: {query}")).sql.replace('"', "")
}

/// The end of the text of a query of users, in Pg.
fn after_users(query: &Query) -> String {
    let sql = sql_on(Dialect::Pg, query);
    let end = sql.strip_prefix("SELECT users.id FROM users");
    end.unwrap_or_else(|| panic!("{sql}")).trim_start().to_owned()
}

fn condition(condition: impl Into<Expr>) -> String {
    let end = after_users(&users().filter(condition));
    let inside = end.strip_prefix("WHERE ").unwrap_or_else(|| panic!("{end}"));
    inside.to_owned()
}

#[test]
fn conditions() {
    assert_eq!(condition(id().eq(1)), "(users.id = $1)");
    assert_eq!(condition(id().ne(1)), "(users.id != $1)");
    assert_eq!(condition(id().gt(1)), "(users.id > $1)");
    assert_eq!(condition(id().ge(1)), "(users.id >= $1)");
    assert_eq!(condition(id().lt(1)), "(users.id < $1)");
    assert_eq!(condition(id().le(id())), "(users.id <= users.id)");
    assert_eq!(condition(id().eq(1).and(id().ne(2))), "((users.id = $1) AND (users.id != $2))");
    assert_eq!(condition(id().eq(1).or(id().ne(2))), "((users.id = $1) OR (users.id != $2))");
    assert_eq!(condition(!id().eq(1)), "NOT ((users.id = $1))");
    assert_eq!(condition(col("users", "born").is_null()), "(users.date IS NULL)");
    assert_eq!(condition(col("users", "born").is_not_null()), "(users.date IS NOT NULL)");
    assert_eq!(condition(id().eq_any([1, 2])), "(users.id = ANY($1))");
    assert_eq!(condition(id().ne_all([1, 2])), "(users.id != ALL($1))");
    let authors = Query::from("posts").select([col("posts", "user_id")]);
    let written = "SELECT blog.articles.user_id FROM blog.articles";
    assert_eq!(condition(id().eq_any_of(&authors)), format!("(users.id = ANY({written}))"));
    assert_eq!(condition(id().ne_all_of(&authors)), format!("(users.id != ALL({written}))"));
    assert_eq!(condition(exists(&authors)), format!("EXISTS ({written})"));
    assert_eq!(condition(id().nullable().eq(single_value(&authors.limit(1)))), format!("(users.id = ({written} LIMIT $1))"));
}

#[test]
fn clauses() {
    let query = users();
    assert_eq!(after_users(&query.clone().order_by([id().desc()]).then_order_by([id().asc()])), "ORDER BY users.id DESC, users.id ASC");
    assert_eq!(after_users(&query.clone().limit(2).offset(1)), "LIMIT $1 OFFSET $2");
    assert_eq!(after_users(&query.clone().filter(id().eq(1)).or_filter(id().eq(2))), "WHERE ((users.id = $1) OR (users.id = $2))");
    assert_eq!(after_users(&query.clone().find([7])), "WHERE (users.id = $1)");
    assert_eq!(after_users(&query.clone().for_update().skip_locked()), "FOR UPDATE SKIP LOCKED");
    assert_eq!(after_users(&query.clone().for_no_key_update().no_wait()), "FOR NO KEY UPDATE NOWAIT");
    assert_eq!(after_users(&query.clone().for_share()), "FOR SHARE");
    assert_eq!(after_users(&query.clone().for_key_share()), "FOR KEY SHARE");
    assert_eq!(after_users(&query.clone().into_boxed().limit(1)), "LIMIT $1");
    assert_eq!(after_users(&query.clone().nullable()), "");
    assert_eq!(sql_on(Dialect::Pg, &query.clone().distinct()), "SELECT DISTINCT users.id FROM users");
    assert_eq!(sql_on(Dialect::Pg, &query.distinct_on([id()])), "SELECT DISTINCT ON (users.id) users.id FROM users");
    assert_eq!(sql_on(Dialect::Pg, &Query::from("users").count()), "SELECT COUNT(*) FROM users");
    let grouped = Query::from("users").group_by([id()]).having(count_star().gt(1_i64)).select([id(), id().count()]);
    assert_eq!(sql_on(Dialect::Pg, &grouped), "SELECT users.id, COUNT(users.id) FROM users GROUP BY users.id HAVING (COUNT(*) > $1)");
}

#[test]
fn joins() {
    let on = col("posts", "user_id").eq(id());
    let joined = "SELECT users.id FROM (users INNER JOIN blog.articles ON (blog.articles.user_id = users.id))";
    let left = joined.replace("INNER", "LEFT OUTER");
    assert_eq!(sql_on(Dialect::Pg, &Query::from("users").inner_join("posts").select([id()])), joined);
    assert_eq!(sql_on(Dialect::Pg, &Query::from("users").inner_join_on("posts", &on).select([id()])), joined);
    assert_eq!(sql_on(Dialect::Pg, &Query::from("users").left_join("posts").select([id()])), left);
    assert_eq!(sql_on(Dialect::Pg, &Query::from("users").left_join_on("posts", &on).select([id()])), left);
    let users = || Source::from("users");
    assert_eq!(sql_on(Dialect::Pg, &Query::from(users().inner_join("posts")).select([id()])), joined);
    assert_eq!(sql_on(Dialect::Pg, &Query::from(users().inner_join_on("posts", &on)).select([id()])), joined);
    assert_eq!(sql_on(Dialect::Pg, &Query::from(users().left_join("posts")).select([id()])), left);
    assert_eq!(sql_on(Dialect::Pg, &Query::from(users().left_join_on("posts", &on)).select([id()])), left);
    let other = Query::from(alias("u", "users")).select([field("u", "users", "name")]);
    assert_eq!(sql_on(Dialect::Pg, &other), "SELECT u.name FROM users AS u");
    assert_eq!(sql_on(Dialect::Pg, &Query::from(only("users")).select([id()])), "SELECT users.id FROM  ONLY users");
    let sample = |sample, seed| sql_on(Dialect::Pg, &Query::from(sampled("users", sample, 10, seed)).select([id()]));
    assert_eq!(sample(Sample::Bernoulli, None), "SELECT users.id FROM users TABLESAMPLE BERNOULLI($1)");
    assert_eq!(sample(Sample::System, Some(7)), "SELECT users.id FROM users TABLESAMPLE SYSTEM($1) REPEATABLE($2)");
}

#[test]
fn combinations() {
    let other = users();
    for (query, words) in [
        (users().union(&other), "UNION"),
        (users().union_all(&other), "UNION ALL"),
        (users().intersect(&other), "INTERSECT"),
        (users().intersect_all(&other), "INTERSECT ALL"),
        (users().except(&other), "EXCEPT"),
        (users().except_all(&other), "EXCEPT ALL"),
    ] {
        let sql = sql_on(Dialect::Pg, &query.positional_order_by([1, -1]));
        assert_eq!(sql, format!("(SELECT users.id FROM users) {words} (SELECT users.id FROM users) ORDER BY 1, 1 DESC"));
    }
}

#[test]
fn values_come_back() {
    let mut session = Session::open(&schema()).expect("the schema is one");
    let mut comes_back = |expression: Expr, of, value| {
        let built = session.build(Dialect::Pg, &Query::of(expression)).expect("it is a document").expect("it breaks no rule");
        assert_eq!((built.binds[0].of, &built.binds[0].value), (of, &value));
    };
    fn given<T: Bindable + Clone>(value: T) -> (Expr, hardieflax::ColumnType, Value) {
        (value.clone().into(), T::TYPE, value.into_value())
    }
    for (expression, of, value) in [
        given(-7_i16),
        given(i32::MAX),
        given(i64::MIN),
        given("it's \"\\\n\u{0}é\u{1f600}"),
        given("x".to_owned()),
        given(&[0_u8, 255][..]),
        given(vec![1_u8]),
        given(true),
        given(Some("x")),
        given(None::<i64>),
    ] {
        comes_back(expression, of, value);
    }
    let listed = Query::from("users").filter(id().eq_any([1, 2]));
    let built = session.build(Dialect::Pg, &listed).expect("it is a document").expect("it breaks no rule");
    assert_eq!(built.binds[0].value, Value::List(vec![Value::Number(1), Value::Number(2)]));
}

#[test]
fn requests_of_one_session_share_ids() {
    let mut session = Session::open(&schema()).expect("the schema is one");
    let (one, two) = (users().find([1]), users().find([2]));
    let answers = session.build_all(&[(Dialect::Pg, &one), (Dialect::Mysql, &one), (Dialect::Pg, &two)]).expect("it is a document");
    let ids: Vec<_> = answers.into_iter().map(|answer| answer.expect("it breaks no rule").id).collect();
    assert_eq!(ids, [Some(1), Some(2), Some(1)]);
    assert_eq!(session.build(Dialect::Pg, &two).expect("it is a document").expect("it breaks no rule").id, Some(1));
}

#[test]
fn what_is_refused() {
    let twice = Schema::new([Table::new("t").column("id", Type::Integer), Table::new("t").column("id", Type::Integer)]);
    assert_eq!(Session::open(&twice).err(), Some(HardieflaxError::BadDocument));
    let mut session = Session::open(&schema()).expect("the schema is one");
    let refusal = session.build(Dialect::Pg, &users().filter(id().eq("x"))).expect("it is a document").expect_err("types differ");
    assert_eq!((refusal.rule.as_str(), refusal.to_string().as_str()), ("TypeMismatch", "the request breaks the rule TypeMismatch"));
    let pair = Query::from("kinds").find([Expr::from(1_i16), true.into()]).select([col("kinds", "b")]);
    assert_eq!(sql_on(Dialect::Sqlite, &pair), "SELECT `kinds`.`b` FROM `kinds` WHERE ((`kinds`.`a` = ?) AND (`kinds`.`c` = ?))");
    let answers = guard(&schema(), "users", &id().eq(7), &[(Dialect::Pg, &users()), (Dialect::Pg, &Query::from("users").count())]);
    let rules: Vec<_> = answers.expect("it is a document").into_iter().map(|answer| answer.err().map(|refusal| refusal.rule)).collect();
    assert_eq!(rules[0], None);
    assert!(rules[1].is_some());
}
