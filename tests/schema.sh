#!/bin/sh
# Checks docs/document.schema.json, docs/answer.schema.json and docs/reading.schema.json: documents, answers and lines of texts are valid,
# and what is none is not, but for what a schema cannot refuse. Needs python3 and its module jsonschema. Ends with 'N passed, M failed'.
#   tests/schema.sh [crates/sql_tool/out/sql_tool]
# Given the program, it also checks that the program takes the small documents below, and refuses what is none.
# With ROWS=DIR in the environment it also checks the files NAME.in.json of that folder. NAME.args has the words of the command, by
# default `build`, NAME.status its status, by default 0, and NAME.out its output. A file of another command than `build`, `guard`, `tenant`
# and `audit D` is passed over.
command -v python3 >/dev/null || { echo "skipped: no python3"; exit 0; }
python3 -c 'from jsonschema import Draft202012Validator' 2>/dev/null || { echo "skipped: no jsonschema of draft 2020-12"; exit 0; }
top=$(cd "$(dirname "$0")/.." && pwd) || exit 1
export PYTHONUTF8=1
exec python3 - "$top" "${1:-}" "${ROWS:-}" <<'END'
import json, pathlib, subprocess, sys
from jsonschema import Draft202012Validator

top, program, rows = pathlib.Path(sys.argv[1]), sys.argv[2], sys.argv[3]
passed = failed = 0


def schema_of(name):
    schema = json.loads((top / "docs" / name).read_text())
    Draft202012Validator.check_schema(schema)
    return Draft202012Validator(schema)


is_document, is_answer = schema_of("document.schema.json"), schema_of("answer.schema.json")
is_reading = schema_of("reading.schema.json")
# what `guard`, `tenant` and `audit` read and write
is_guarded, is_guarded_answer = (each.evolve(schema=each.schema["$defs"]["GUARDED"]) for each in (is_document, is_answer))
is_policed, is_policed_answer = (each.evolve(schema=each.schema["$defs"]["POLICED"]) for each in (is_document, is_answer))
is_opening = is_document.evolve(schema=is_document.schema["$defs"]["OPENING"])
is_audited, is_audited_answer = (each.evolve(schema=each.schema["$defs"]["AUDITED"]) for each in (is_document, is_answer))


def parsed(text):
    """Whether a text, or the bytes of a file, are JSON in UTF-8, and the value."""
    try:
        return True, json.loads(text.decode() if isinstance(text, bytes) else text)
    except ValueError:
        return False, None


def valid(schema, text):
    is_json, value = parsed(text)
    return is_json and schema.is_valid(value)


def expect(name, got, wanted):
    global passed, failed
    if got == wanted:
        passed += 1
    else:
        failed += 1
        print(f"FAILED {name}: {got}, wanted {wanted}")


# ---- small documents, as texts

TABLES = """[{"name":"t","columns":[{"name":"id","type":"Integer"},{"name":"x","type":"Text?"}]},
             {"name":"u","columns":[{"name":"id","type":"Integer"},{"name":"t_id","type":"Integer"}]}]"""


def schema(text):
    return f'{{"schema":{text},"requests":[]}}'


def tables(text):
    return schema(f'{{"tables":[{text}]}}')


def column(text):
    return tables(f'{{"name":"a","columns":[{{"name":"id","type":"Integer"}},{text}]}}')


def related(text):
    return schema(f'{{"tables":{TABLES},{text}}}')


def request(text):
    return f'{{"schema":{{"tables":{TABLES}}},"requests":[{text}]}}'


def query(text):
    return request(f'{{"dialect":"Pg","query":{text}}}')


def source(text):
    return query(f'{{"from":{text}}}')


def calls(text):
    return query(f'{{"from":{{"table":"t"}},"calls":[{text}]}}')


def expr(text):
    return calls(f'["filter",{text}]')


def bind(text):
    return expr(f'{{"bind":{text}}}')


def among(text):
    return expr(f'{{"eq_any":[{ID},{{"list":{text}}}]}}')


T = '{"from":{"table":"t"}}'
ID = '{"col":["t","id"]}'
ONE = '{"bind":["Integer",1]}'

# Of each type values that fit it, and values that do not.
VALUES = {
    "SmallInt": (["-32768", "32767"], ["-32769", "32768", "1.5", '"1"', "true"]),
    "Integer": (["-2147483648", "2147483647"], ["-2147483649", "2147483648", "1.5", '"1"', "true"]),
    "BigInt": (["-9223372036854775808", "9223372036854775807"], ["-9223372036854775809", "9223372036854775808", '"1"', "true"]),
    "Text": (['""', '"\\u0000\\n"'], ["1", "true", "{}"]),
    "Binary": (['""', '"00ff"'], ['"0"', '"AB"', '"0x00"', '"00 "', '"00\\n"', "0"]),
    "Bool": (["true", "false"], ["0", '"true"']),
}
FIT = [(base + mark, value) for base, (fit, _) in VALUES.items() for mark in ("", "?") for value in fit]
MISFIT = [(base + mark, value) for base, (_, misfit) in VALUES.items() for mark in ("", "?") for value in misfit]
TYPES = [base + mark for base in VALUES for mark in ("", "?")]

# Calls by their arguments, and operations by their operands.
ALONE = "distinct count nullable for_update for_no_key_update for_share for_key_share skip_locked no_wait into_boxed".split()
WITH_EXPR = "select filter or_filter having distinct_on group_by".split()
WITH_SOURCE = "inner_join left_outer_join left_join".split()
WITH_LIST = "find order order_by then_order_by".split()
WITH_NUMBER = "limit offset".split()
WITH_QUERY = "union union_all intersect intersect_all except except_all".split()
WITH_ARGUMENT = WITH_EXPR + WITH_SOURCE + WITH_LIST + WITH_NUMBER + WITH_QUERY
BINARY = "eq ne gt ge lt le and or".split()
UNARY = "not is_null is_not_null nullable count".split()
OF_QUERY = "exists single_value".split()
MEMBERSHIP = "eq_any ne_all".split()

DOCUMENTS = [
    ("no tables and no requests", schema('{"tables":[]}')),
    ("ignored members", '{"$schema":"x","schema":{"tables":[],"x":null},"requests":[],"x":[null,{"y":"z"}]}'),
    ("numbers in ignored members", '{"schema":{"tables":[]},"requests":[],"x":[18446744073709551615,-9223372036854775808]}'),
    ("a table with all its members", tables(
        '{"name":"a","sql_name":"b","schema":"c","primary_key":["x"],"columns":[{"name":"x","sql_name":"y","type":"Bool?"}]}')),
    ("an ignored member of a table", tables('{"name":"a","columns":[{"name":"id","type":"Integer","max_length":"x"}],"x":{}}')),
    ("a key that names a column twice", tables('{"name":"a","primary_key":["x","x"],"columns":[{"name":"x","type":"Text"}]}')),
    ("empty names", tables('{"name":"","sql_name":"","schema":"","columns":[{"name":"id","sql_name":"","type":"Integer"}]}')),
    *[("the type " + t, column(f'{{"name":"x","type":"{t}"}}')) for t in TYPES],
    ("a relation and two pairs", related(
        '"joinable":[{"child":"u","key":"t_id","parent":"t","x":1}],"together":[["t","u"],["t","t"]]')),
    ("no relations and no pairs", related('"joinable":[],"together":[]')),
    *[("the dialect " + d, request(f'{{"dialect":"{d}","query":{T}}}')) for d in ("Pg", "Mysql", "Sqlite", "Bracket")],
    ("an ignored member of a request", request(f'{{"dialect":"Pg","query":{T},"x":1}}')),
    ("a table that the schema lacks", source('{"table":"nobody"}')),
    ("a query without a source", query('{"select":[]}')),
    ("no calls", calls("")),
    ("an ignored member of a query", query('{"from":{"table":"t"},"call":5}')),
    ("a sample", source('{"table":"t","only":true,"sample":["bernoulli",-32768]}')),
    ("a sample with a seed", source('{"table":"t","only":false,"sample":["system",32767,-2147483648]}')),
    ("an alias", source('{"alias":"a","of":"t"}')),
    ("a join", source('{"join":["inner",{"table":"t"},{"table":"u"}]}')),
    ("a join with a condition", source(f'{{"join":["left",{{"table":"t"}},{{"alias":"a","of":"u"}}],"on":{ID}}}')),
    ("a join of joins", source(
        '{"join":["inner",{"join":["inner",{"table":"t"},{"table":"u"}]},{"join":["left",{"table":"t"},{"table":"u"}]}]}')),
    ("members of another source", source('{"alias":"a","of":"t","only":1,"sample":null,"on":5}')),
    ("a condition beside a table", source('{"table":"t","of":1,"on":5}')),
    ("a column", expr(ID)),
    ("a field", expr('{"field":["a","t","id"]}')),
    ("the empty list", expr("[]")),
    ("lists in a list", expr(f'[{ID},[],[{ID},"count_star"]]')),
    *[(op, expr(f'{{"{op}":[{ID},{ONE}]}}')) for op in BINARY],
    *[(op, expr(f'{{"{op}":{ID}}}')) for op in UNARY],
    *[(op, expr(f'{{"{op}":{T}}}')) for op in OF_QUERY],
    *[(op + " of values", expr(f'{{"{op}":[{ID},{{"list":["Integer",[1,null,-1]]}}]}}')) for op in MEMBERSHIP],
    *[(op + " of a query", expr(f'{{"{op}":[{ID},{T}]}}')) for op in MEMBERSHIP],
    ("a list of no values", among('["Binary?",[]]')),
    ("calls beside a list", expr(f'{{"eq_any":[{ID},{{"list":["Bool",[true]],"calls":5}}]}}')),
    *[(f"the {t} {v}", bind(f'["{t}",{v}]')) for t, v in FIT],
    *[("null for " + t, bind(f'["{t}",null]')) for t in TYPES],
    *[(f"a list of {t}, {v}", among(f'["{t}",[null,{v}]]')) for t, v in FIT],
    ("a member that stands twice, and its last value fits", bind('["Integer",1.5],"bind":["Integer",1]')),
    *[(n, calls(f'["{n}"]')) for n in ALONE],
    *[(n, calls(f'["{n}",{ID}]')) for n in WITH_EXPR],
    *[(n, calls(f'["{n}",{{"table":"u"}}],["{n}",{{"table":"u"}},{ID}]')) for n in WITH_SOURCE],
    *[(n, calls(f'["{n}",[]],["{n}",[{ID},"count_star"]]')) for n in WITH_LIST],
    ("items of an order", calls(f'["order",[{{"asc":{ID}}},{{"desc":[{ID}]}},[]]]')),
    *[(n, calls(f'["{n}",-9223372036854775808],["{n}",9223372036854775807]')) for n in WITH_NUMBER],
    ("boxed for another dialect", calls('["into_boxed","Sqlite"]')),
    ("boxed for Bracket", calls('["into_boxed","Bracket"]')),
    ("calls on a boxed statement", calls(f'["for_update"],["into_boxed"],["filter",{ID}],["distinct"],["order",[]],["limit",1]')),
    *[(n, calls(f'["{n}",{T}],["limit",1],["positional_order_by",[]],["{n}",{T}]')) for n in WITH_QUERY],
    ("places", calls(f'["into_boxed"],["union",{T}],["positional_order_by",[0,4294967295,{{"asc":1}},{{"desc":1}}]]')),
]

NO_DOCUMENTS = [
    ("no JSON", "{"),
    ("nothing", ""),
    ("two values", schema('{"tables":[]}') * 2),
    ("an array", "[]"),
    ("no schema", '{"requests":[]}'),
    ("no requests", '{"schema":{"tables":[]}}'),
    ("requests that are null", '{"schema":{"tables":[]},"requests":null}'),
    ("requests that are an object", '{"schema":{"tables":[]},"requests":{}}'),
    ("a fraction in an ignored member", '{"schema":{"tables":[]},"requests":[],"x":{"y":[1.5]}}'),
    ("a number past 64 bits in an ignored member", '{"schema":{"tables":[]},"requests":[],"x":18446744073709551616}'),
    ("a negative number past 64 bits in an ignored member", '{"schema":{"tables":[]},"requests":[],"x":-9223372036854775809}'),
    ("no tables", schema("{}")),
    ("a table without a name", tables('{"columns":[{"name":"id","type":"Integer"}]}')),
    ("a table's name that is a number", tables('{"name":1,"columns":[{"name":"id","type":"Integer"}]}')),
    ("a table without the member columns", tables('{"name":"a"}')),
    ("a table without columns", tables('{"name":"a","primary_key":["id"],"columns":[]}')),
    ("a schema's name that is null", tables('{"name":"a","schema":null,"columns":[{"name":"id","type":"Integer"}]}')),
    ("an SQL name that is null", tables('{"name":"a","sql_name":null,"columns":[{"name":"id","type":"Integer"}]}')),
    ("a key of a number", tables('{"name":"a","primary_key":[1],"columns":[{"name":"id","type":"Integer"}]}')),
    ("a key that is a text", tables('{"name":"a","primary_key":"id","columns":[{"name":"id","type":"Integer"}]}')),
    ("an empty key", tables('{"name":"a","primary_key":[],"columns":[{"name":"id","type":"Integer"}]}')),
    ("no key and no column id", tables('{"name":"a","columns":[{"name":"x","type":"Integer"}]}')),
    ("a column without a name", column('{"type":"Text"}')),
    ("a column without a type", column('{"name":"x"}')),
    ("a column's SQL name that is null", column('{"name":"x","sql_name":null,"type":"Text"}')),
    ("an unknown type", column('{"name":"x","type":"Float"}')),
    ("a type in lower case", column('{"name":"x","type":"integer"}')),
    ("a type with two marks", column('{"name":"x","type":"Integer??"}')),
    ("a column's name that is a number", column('{"name":1,"type":"Text"}')),
    ("a relation without a parent", related('"joinable":[{"child":"u","key":"t_id"}]')),
    ("a relation without a key", related('"joinable":[{"child":"u","parent":"t"}]')),
    ("a relation without a child", related('"joinable":[{"key":"t_id","parent":"t"}]')),
    ("a child that is a number", related('"joinable":[{"child":1,"key":"t_id","parent":"t"}]')),
    ("a relation's key that is a number", related('"joinable":[{"child":"u","key":1,"parent":"t"}]')),
    ("a parent that is a number", related('"joinable":[{"child":"u","key":"t_id","parent":1}]')),
    ("relations that are null", related('"joinable":null')),
    ("pairs that are an object", related('"together":{}')),
    ("a pair of a number", related('"together":[["t",1]]')),
    ("a pair of one", related('"together":[["t"]]')),
    ("a pair of three", related('"together":[["t","u","t"]]')),
    ("no dialect", request(f'{{"query":{T}}}')),
    ("an unknown dialect", request(f'{{"dialect":"Oracle","query":{T}}}')),
    ("a dialect in lower case", request(f'{{"dialect":"pg","query":{T}}}')),
    ("no query", request('{"dialect":"Pg"}')),
    ("a query of neither", query('{"calls":[]}')),
    ("a query of both", query(f'{{"from":{{"table":"t"}},"select":{ID}}}')),
    ("a query with a null selection beside its source", query('{"from":{"table":"t"},"select":null}')),
    ("calls that are null", query('{"from":{"table":"t"},"calls":null}')),
    ("a selection that is null", query('{"select":null}')),
    ("a source that is a text", source('"t"')),
    ("a table's name that is null", source('{"table":null}')),
    ("an alias that is a number", source('{"alias":1,"of":"t"}')),
    ("an alias of a number", source('{"alias":"a","of":1}')),
    ("a source of nothing", source('{"only":true}')),
    ("a source of two", source('{"table":"t","alias":"a","of":"t"}')),
    ("an alias of nothing", source('{"alias":"a"}')),
    ("`only` that is null", source('{"table":"t","only":null}')),
    ("`only` that is a number", source('{"table":"t","only":1}')),
    ("a sample without a portion", source('{"table":"t","sample":["system"]}')),
    ("an unknown method", source('{"table":"t","sample":["SYSTEM",1]}')),
    ("a portion of 17 bits", source('{"table":"t","sample":["system",32768]}')),
    ("a negative portion of 17 bits", source('{"table":"t","sample":["system",-32769]}')),
    ("a portion that is a text", source('{"table":"t","sample":["system","1"]}')),
    ("a seed of 33 bits", source('{"table":"t","sample":["system",1,2147483648]}')),
    ("a negative seed of 33 bits", source('{"table":"t","sample":["system",1,-2147483649]}')),
    ("a seed that is null", source('{"table":"t","sample":["system",1,null]}')),
    ("a sample of four", source('{"table":"t","sample":["system",1,2,3]}')),
    ("an unknown join", source('{"join":["right",{"table":"t"},{"table":"u"}]}')),
    ("a join of a text and a table", source('{"join":["inner","t",{"table":"u"}]}')),
    ("a join of a table and a text", source('{"join":["inner",{"table":"t"},"u"]}')),
    ("a join of one side", source('{"join":["inner",{"table":"t"}]}')),
    ("a join of three sides", source('{"join":["inner",{"table":"t"},{"table":"u"},{"table":"u"}]}')),
    ("a condition that is null", source('{"join":["inner",{"table":"t"},{"table":"u"}],"on":null}')),
    ("an expression that is null", expr("null")),
    ("an expression that is a number", expr("1")),
    ("an expression that is a truth value", expr("true")),
    ("an unknown text", expr('"count"')),
    ("an expression without a member", expr("{}")),
    ("an expression of two members", expr(f'{{"not":{ID},"is_null":{ID}}}')),
    ("an unknown operation", expr(f'{{"like":[{ID},{ONE}]}}')),
    ("a column of one name", expr('{"col":["id"]}')),
    ("a column of three names", expr('{"col":["s","t","id"]}')),
    ("a field of two names", expr('{"field":["t","id"]}')),
    ("a field of four names", expr('{"field":["a","s","t","id"]}')),
    ("a column of no texts", expr('{"col":["t",1]}')),
    ("a field of no texts", expr('{"field":["a",1,"id"]}')),
    *[(f"{op} of {operands}", expr(f'{{"{op}":{operands}}}')) for op in BINARY for operands in
      (ID, f"[{ID}]", f"[true,{ID}]", f"[{ID},true]", f"[{ID},{ID},{ID}]")],
    *[(f"{op} of {operand}", expr(f'{{"{op}":{operand}}}')) for op in UNARY for operand in ("true", "[true]", T)],
    *[(f"{op} of {operand}", expr(f'{{"{op}":{operand}}}')) for op in OF_QUERY for operand in ("true", "{}", ID)],
    *[(f"{op} of {operands}", expr(f'{{"{op}":{operands}}}')) for op in MEMBERSHIP for operands in
      (T, f"[{ID}]", f"[true,{T}]", f"[{ID},true]", f"[{ID},{{}}]", f"[{ID},[1]]", f"[{ID},{ID}]", f"[{ID},{T},{T}]")],
    ("a membership in both", expr(f'{{"eq_any":[{ID},{{"list":["Integer",[1]],"from":{{"table":"t"}}}}]}}')),
    ("a membership in a list and null", expr(f'{{"ne_all":[{ID},{{"list":["Integer",[1]],"select":null}}]}}')),
    ("a list of an unknown type", among('["Int",[1]]')),
    ("a list of a list", among('["Integer",[[1]]]')),
    ("a list that is null", among('["Integer",null]')),
    ("a list without values", among('["Integer"]')),
    ("a list with a member more", among('["Integer",[1],2]')),
    ("a bind without a value", bind('["Integer"]')),
    ("a bind of two values", bind('["Integer",1,2]')),
    ("a bind of an unknown type", bind('["Int",1]')),
    ("a bind of a list", bind('["Integer",[1]]')),
    *[(f"the {t} {v}", bind(f'["{t}",{v}]')) for t, v in MISFIT],
    *[(f"a list of {t}, {v}", among(f'["{t}",[null,{v}]]')) for t, v in MISFIT],
    ("a call that is a text", calls('"distinct"')),
    ("a call that is empty", calls("[]")),
    ("an unknown call", calls('["where",[]]')),
    ("a call in upper case", calls('["DISTINCT"]')),
    *[(n + " with an argument", calls(f'["{n}",null]')) for n in ALONE],
    *[(n + " without an argument", calls(f'["{n}"]')) for n in WITH_ARGUMENT],
    *[(n + " with another argument", calls(f'["{n}",true]')) for n in WITH_ARGUMENT],
    *[(n + " with one argument more", calls(f'["{n}",{ID},{ID}]')) for n in WITH_EXPR],
    *[(f"{n} with {more}", calls(f'["{n}",{{"table":"u"}},{more}]')) for n in WITH_SOURCE for more in ("null", f"{ID},{ID}")],
    *[(f"{n} with {arguments}", calls(f'["{n}",{arguments}]')) for n in WITH_LIST for arguments in (ID, "[true]", "[],[]")],
    *[(f"{n} with {arguments}", calls(f'["{n}",{arguments}]')) for n in WITH_NUMBER for arguments in
      ("null", "1.5", '"1"', "9223372036854775808", "-9223372036854775809", "1,1")],
    *[(f"{n} with {arguments}", calls(f'["{n}",{arguments}]')) for n in WITH_QUERY for arguments in (ID, "{}", f"{T},{T}")],
    *[(f"places {arguments}", calls(f'["union",{T}],["positional_order_by"{arguments}]')) for arguments in
      ("", ",1", ",[true]", ",[-1]", ",[4294967296]", ",[1],[1]", ",[{}]", ',[{"asc":-1}]', ',[{"desc":4294967296}]',
       ',[{"asc":"1"}]', ',[{"asc":1,"desc":1}]', ',[{"asc":1,"x":1}]', ',["count_star"]')],
    ("an item of two directions", calls(f'["order",[{{"asc":{ID},"desc":{ID}}}]]')),
    ("an item with a member more", calls(f'["order",[{{"asc":{ID},"nulls":"first"}}]]')),
    ("a direction in a direction", calls(f'["order",[{{"asc":{{"desc":{ID}}}}}]]')),
    ("a descending truth value", calls('["order",[{"desc":true}]]')),
    ("a direction outside an order", expr(f'{{"asc":{ID}}}')),
    ("a boxing for an unknown dialect", calls('["into_boxed","Oracle"]')),
    ("a boxing for two dialects", calls('["into_boxed","Pg","Pg"]')),
    ("two boxings", calls('["into_boxed"],["into_boxed"]')),
    ("places on a select statement", calls('["positional_order_by",[1]]')),
    ("a fault in a query inside a query", expr(f'{{"exists":{{"from":{{"table":"t"}},"calls":[["limit"]]}}}}')),
]

# No documents, and valid: what the description of the schema lists.
NOT_FOR_A_SCHEMA = [
    ("a whole number with a fraction", bind('["Integer",1.0]')),
    ("a whole number with an exponent", bind('["Integer",1e2]')),
    ("zero with a sign", bind('["Integer",-0]')),
    ("half of a surrogate pair", bind('["Text","\\ud800"]')),
    ("a lock on a boxed statement", calls('["into_boxed"],["for_update"]')),
    ("a filter on a combination", calls(f'["union",{T}],["filter",{ID}]')),
    ("places before the combination", calls(f'["positional_order_by",[1]],["union",{T}]')),
    ("boxing of a combination", calls(f'["union",{T}],["into_boxed"]')),
    ("two tables of one name", tables(
        '{"name":"a","columns":[{"name":"id","type":"Text"}]},'
        '{"name":"a","sql_name":"b","columns":[{"name":"id","type":"Text"}]}')),
    ("two tables of one SQL name", tables(
        '{"name":"a","columns":[{"name":"id","type":"Text"}]},'
        '{"name":"b","sql_name":"a","columns":[{"name":"id","type":"Text"}]}')),
    ("two columns of one name", column('{"name":"id","sql_name":"x","type":"Text"}')),
    ("two columns of one SQL name", column('{"name":"x","sql_name":"id","type":"Text"}')),
    ("a key that names no column", tables('{"name":"a","primary_key":["x"],"columns":[{"name":"id","type":"Text"}]}')),
    ("a relation of no table", related('"joinable":[{"child":"u","key":"t_id","parent":"nobody"}]')),
    ("a relation of a table to itself", related('"joinable":[{"child":"t","key":"id","parent":"t"}]')),
    ("a relation by a column of another type", related('"joinable":[{"child":"t","key":"x","parent":"u"}]')),
    ("two relations of two tables", related(
        '"joinable":[{"child":"u","key":"t_id","parent":"t"},{"child":"t","key":"id","parent":"u"}]')),
    ("a pair with no table", related('"together":[["t","nobody"]]')),
    ("values that nest 128 deep", expr('{"not":' * 120 + ID + "}" * 120)),
]



def guarded_by(text):
    return f'{{"schema":{{"tables":{TABLES}}},"requests":[{{"dialect":"Pg","query":{T}}}],"guard":{text}}}'


GUARDS = [
    ("a guard", guarded_by(f'{{"table":"t","predicate":{{"eq":[{ID},{ONE}]}}}}')),
    ("a guard by no condition", guarded_by(f'{{"table":"t","predicate":{ONE}}}')),
    ("a guard with a member more", guarded_by(f'{{"table":"t","predicate":{ID},"x":1}}')),
]
NO_GUARDS = [
    ("a document without a guard", request(f'{{"dialect":"Pg","query":{T}}}')),
    ("a guard that is null", guarded_by("null")),
    ("a guard without a table", guarded_by(f'{{"predicate":{ID}}}')),
    ("a guard without a predicate", guarded_by('{"table":"t"}')),
    ("a guard whose table is a number", guarded_by(f'{{"table":1,"predicate":{ID}}}')),
    ("a guard whose predicate is null", guarded_by('{"table":"t","predicate":null}')),
    ("a guard of no document", '{"requests":[],"guard":{"table":"t","predicate":"count_star"}}'),
]


def policed_by(text):
    return f'{{"schema":{{"tables":{TABLES}}},"requests":[{{"dialect":"Pg","query":{T}}}],"tenant":{text}}}'


POLICIES = [
    ("a policy", policed_by(f'[{{"table":"t","predicate":{{"eq":[{ID},{ONE}]}}}}]')),
    ("a policy without a predicate", policed_by('[{"table":"t"}]')),
    ("two policies of a table", policed_by(f'[{{"table":"t"}},{{"table":"t","predicate":{{"eq":[{ID},{ONE}]}}}}]')),
    ("a policy by no condition", policed_by(f'[{{"table":"t","predicate":{ONE}}}]')),
    ("a policy with a member more", policed_by('[{"table":"t","x":1}]')),
    ("no policy", policed_by("[]")),
]
NO_POLICIES = [
    ("a document without policies", request(f'{{"dialect":"Pg","query":{T}}}')),
    ("policies that are null", policed_by("null")),
    ("policies that are one policy", policed_by('{"table":"t"}')),
    ("a policy that is a name", policed_by('["t"]')),
    ("a policy without a table", policed_by(f'[{{"predicate":{ID}}}]')),
    ("a policy whose table is a number", policed_by('[{"table":1}]')),
    ("a policy whose predicate is null", policed_by('[{"table":"t","predicate":null}]')),
    ("policies of no document", '{"requests":[],"tenant":[]}'),
]



def audited(texts):
    return f'{{"schema":{{"tables":{TABLES}}},"texts":{texts}}}'


AUDITS = [
    ("no texts", audited("[]")),
    ("texts of no statement", audited('["","x","SELECT \\u0000"]')),
    ("a text over no table", '{"schema":{"tables":[]},"texts":["SELECT $1"]}'),
    ("an audit with a member more", audited('["SELECT $1"],"requests":null,"x":[{"y":18446744073709551615}]')),
    ("an audit over relations", f'{{"schema":{{"tables":{TABLES},"joinable":[{{"child":"u","key":"t_id","parent":"t"}}]}},"texts":[]}}'),
]
NO_AUDITS = [
    ("an audit that is no JSON", '{"schema":{"tables":[]},"texts":['),
    ("an audit that is an array", '[{"schema":{"tables":[]},"texts":[]}]'),
    ("an audit without a schema", '{"texts":[]}'),
    ("an audit without texts", '{"schema":{"tables":[]}}'),
    ("an audit of requests", request(f'{{"dialect":"Pg","query":{T}}}')),
    ("texts that are null", audited("null")),
    ("texts that are a text", audited('"SELECT $1"')),
    ("texts that are an object", audited("{}")),
    ("a text that is null", audited('["SELECT $1",null]')),
    ("a text that is a number", audited("[1]")),
    ("a text that is a list", audited('[["SELECT $1"]]')),
    ("an audit whose schema is null", '{"schema":null,"texts":[]}'),
    ("an audit whose schema has no tables", '{"schema":{},"texts":[]}'),
    ("an audit over a table without columns", '{"schema":{"tables":[{"name":"a","columns":[]}]},"texts":[]}'),
    ("a fraction in an ignored member of an audit", audited('[],"x":[1.5]')),
    ("a number past 64 bits in an ignored member of an audit", audited('[],"x":18446744073709551616')),
]
# No audit, and valid, as of documents.
AUDITS_NOT_FOR_A_SCHEMA = [
    ("an audit over two tables of one name", '{"schema":{"tables":[{"name":"a","columns":[{"name":"id","type":"Text"}]},'
     '{"name":"a","sql_name":"b","columns":[{"name":"id","type":"Text"}]}]},"texts":[]}'),
    ("an audit over a key that names no column",
     '{"schema":{"tables":[{"name":"a","primary_key":["x"],"columns":[{"name":"id","type":"Text"}]}]},"texts":[]}'),
    ("half of a surrogate pair in a text", audited('["\\ud800"]')),
    ("a whole number with a fraction in an ignored member of an audit", audited('[],"x":1.0')),
]

for name, text in DOCUMENTS:
    expect(name, valid(is_document, text), True)
for name, text in NO_DOCUMENTS:
    expect(name, valid(is_document, text), False)
for name, text in NOT_FOR_A_SCHEMA:
    expect(name, valid(is_document, text), True)
for name, text in GUARDS:
    expect(name, valid(is_guarded, text), True)
for name, text in NO_GUARDS:
    expect(name, valid(is_guarded, text), False)
for name, text in POLICIES:
    expect(name, valid(is_policed, text), True)
for name, text in NO_POLICIES:
    expect(name, valid(is_policed, text), False)
# what opens a session: a document without policies, one with them, and with places in them, as docs/GUARD.md shows
for name, text in [("the least document", schema('{"tables":[]}')), *POLICIES]:
    expect(f"{name} opens a session", valid(is_opening, text), True)
for number, text in enumerate((top / "docs/GUARD.md").read_text().split("```json\n")[1:], 1):
    expect(f"docs/GUARD.md, document {number}", valid(is_opening, text.split("```")[0]), True)
expect("policies that are a place", valid(is_opening, '{"schema":{"tables":[]},"tenant":{"value":"all"},"requests":[]}'), False)
for name, text in [*AUDITS, *AUDITS_NOT_FOR_A_SCHEMA]:
    expect(name, valid(is_audited, text), True)
for name, text in NO_AUDITS:
    expect(name, valid(is_audited, text), False)
if program:
    for status, table in ((0, AUDITS), (3, NO_AUDITS), (3, AUDITS_NOT_FOR_A_SCHEMA)):
        for name, text in table:
            run = subprocess.run([program, "audit", "Pg"], input=text.encode(), stdout=subprocess.PIPE, stderr=subprocess.DEVNULL)
            expect(f"audit on {name}", run.returncode, status)
            for line in run.stdout.decode().split("\n")[:-1]:
                expect(f"the line {line} of audit on {name}", valid(is_audited_answer, line), True)
    for word, status, table in (("guard", 0, GUARDS), ("guard", 3, NO_GUARDS), ("tenant", 0, POLICIES), ("tenant", 3, NO_POLICIES)):
        for name, text in table:
            run = subprocess.run([program, word], input=text.encode(), stdout=subprocess.DEVNULL, stderr=subprocess.DEVNULL)
            expect(f"{word} on {name}", run.returncode, status)
    for status, table in ((0, DOCUMENTS), (3, NO_DOCUMENTS), (3, NOT_FOR_A_SCHEMA)):
        for name, text in table:
            run = subprocess.run([program, "build"], input=text.encode(), stdout=subprocess.DEVNULL, stderr=subprocess.DEVNULL)
            expect(f"the program on {name}", run.returncode, status)

# ---- small answers


def built(binds="", columns='"Integer"', id="1", safe="true"):
    return f'{{"binds":[{binds}],"columns":[{columns}],"id":{id},"safe":{safe},"sql":"SELECT"}}'


RULES = """UnknownName Incompatible EmptyList NoRelation Ambiguous NotTogether NameClash NotInScope TypeMismatch NeedsNullable
           Grouping InvalidDistinctOrder Unsupported TooManyBinds"""
ANSWERS = [
    built(), built(id="null"), built(id="null", safe="false"), built('["Integer",[]]'), built('["Integer",1],["Text","x"]'),
    *[built(columns=f'"{t}","{t}"') for t in TYPES],
    *[built(f'["{t}",{v}]') for t, v in FIT],
    *[built(f'["{t}",[{v},{v}]]') for t, v in FIT],
    *[built(f'["{base}?",null],["{base}?",[null]]') for base in VALUES],
    *[f'{{"refused":"{rule}"}}' for rule in RULES.split()],
]
NO_ANSWERS = [
    "null", "[]", "{}", '{"refused":null}', '{"refused":"Nothing"}', '{"refused":"EmptyList","id":1}',
    *[json.dumps({name: value for name, value in json.loads(built(id="null")).items() if name != left_out})
      for left_out in ("binds", "columns", "id", "safe", "sql")],
    built().replace('"sql"', '"x":1,"sql"'), built().replace('"SELECT"', "null"), built().replace("[]", "{}"),
    built(columns=""), built(columns='"Int"'), built().replace('["Integer"]', '"Integer"'),
    built(id="0"), built(id='"1"'), built(id="1.5"), built(safe="1"), built(safe="false"),
    built("1"), built('["Integer"]'), built('["Integer",1,2]'), built('["Int",1]'), built('["Integer",[[1]]]'),
    *[built(f'["{t}",{v}]') for t, v in MISFIT],
    *[built(f'["{t}",[{v}]]') for t, v in MISFIT],
    *[built(f'["{base}",{v}]') for base in VALUES for v in ("null", "[null]")],
]
for text in ANSWERS:
    expect(text, valid(is_answer, text), True)
for text in NO_ANSWERS:
    expect(text, valid(is_answer, text), False)

# ---- small lines of audit


def report(columns="", sources="", tables=""):
    return f'{{"columns":[{columns}],"sources":[{sources}],"tables":[{tables}]}}'


REPORTS = [
    report(), report(tables='"t","t"'), report('["t","id"]', "0", '"t"'), report('["t","id"],["u",""]', "1,0", '"u","t"'),
    *[f'{{"refused":"{name}"}}' for name in ("NotInGrammar", "UnknownTable", "NotInScope", "Ambiguous")],
]
NO_REPORTS = [
    "null", "[]", "{}", '{"refused":null}', '{"refused":"NoMemory"}', '{"refused":"UnknownName"}', '{"refused":"NotInGrammar","tables":[]}',
    *[json.dumps({name: value for name, value in json.loads(report()).items() if name != left_out})
      for left_out in ("columns", "sources", "tables")],
    report().replace('"tables"', '"x":1,"tables"'), report().replace("[]", "{}"), report().replace("[]", "null"),
    report('"id"'), report('["id"]'), report('["s","t","id"]'), report('["t",1]'), report("[null,null]"),
    report(sources="-1"), report(sources="1.5"), report(sources='"0"'), report(tables="1"), report(tables="null"), report(tables='["s","t"]'),
    built(),
]
for text in REPORTS:
    expect(text, valid(is_audited_answer, text), True)
    expect(f"{text}, as an answer", valid(is_answer, text), json.loads(text).get("refused") in RULES.split())
for text in NO_REPORTS:
    expect(text, valid(is_audited_answer, text), False)

# ---- what stands in files


def expect_answers(path, schema=is_answer):
    for number, line in enumerate(filter(None, path.read_text().split("\n")), 1):
        expect(f"{path.name}, line {number}", valid(schema, line), True)


documents = [path for path in sorted((top / "examples").glob("*.json")) if path.name not in ("audit.json", "guard.json", "tenant.json")]
for name, form, line_form in (("guard", is_guarded, is_guarded_answer), ("tenant", is_policed, is_policed_answer),
                              ("audit", is_audited, is_audited_answer)):
    example = top / "examples" / f"{name}.json"
    expect(example.name, valid(form, example.read_bytes()), True)
    expect_answers(example.with_suffix(".jsonl"), line_form)
    expect(f"{example.name} of another command", valid(is_guarded if name != "guard" else is_policed, example.read_bytes()), False)
for path in [*documents, top / "crates/sql_tool/stdin"]:
    expect(path.name, valid(is_document, path.read_text()), True)
# an example's lines are answers to its document, or of the text that is read
for path in sorted((top / "examples").glob("*.sql")):
    for number, line in enumerate(path.with_suffix(".jsonl").read_text().splitlines(), 1):
        expect(f"{path.name}, line {number}", valid(is_reading, line), True)
        expect(f"{path.name}, line {number}, as an answer", valid(is_answer, line), False)
answers = [path.with_suffix(".jsonl") for path in documents]
for path in [*answers, top / "crates/sql_tool/stdout"]:
    expect_answers(path)

DIALECTS = is_document.schema["$defs"]["DIALECT"]["enum"]


def beside(path, ending, default):
    path = path.with_name(path.name.replace(".in.json", ending))
    return path.read_text() if path.exists() else default


# Of each command what it reads and writes.
FORMS = {"build": (is_document, is_answer), "guard": (is_guarded, is_guarded_answer), "tenant": (is_policed, is_policed_answer),
         **{f"audit {dialect}": (is_audited, is_audited_answer) for dialect in DIALECTS}}


def names_an_unknown_dialect(value):
    return any(each["dialect"] not in DIALECTS for each in value.get("requests", []))


for path in sorted(pathlib.Path(rows).glob("*.in.json")) if rows else []:
    data = path.read_bytes()
    words = " ".join(beside(path, ".args", "build").split())
    status = int(beside(path, ".status", "0"))
    if words not in FORMS:
        print(f"passed over, of another command: {path.name}")
        continue
    form, line_form = FORMS[words]
    if status == 0 and names_an_unknown_dialect(parsed(data)[1]):
        print(f"passed over, of a dialect that the schema lacks: {path.name}")
    elif status == 3 and valid(form, data):
        print(f"no document, and valid: {path.name}")
    else:
        expect(path.name, valid(form, data), status == 0)
        if status == 0:
            expect_answers(path.with_name(path.name.replace(".in.json", ".out")), line_form)

print(f"{passed} passed, {failed} failed")
sys.exit(failed != 0)
END
