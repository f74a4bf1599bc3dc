"""Prints a document of so many requests: `python3 bench/requests.py 1000 > document.json`.

The requests take turns among the dialects and eight forms: users by id; an inner join with a limit; a left join; a union of a
statement with itself; a value list of some length; a boxed statement with an offset; a lock; a subselect that is asked for rows.
Some of them break a rule.
"""
import json
import sys

SCHEMA = {
    "tables": [
        {"name": "users", "columns": [{"name": "id", "type": "Integer"}, {"name": "name", "type": "Text"}]},
        {"name": "posts", "columns": [{"name": "id", "type": "Integer"}, {"name": "user_id", "type": "Integer"}, {"name": "title", "type": "Text"}]},
    ],
    "joinable": [{"child": "posts", "key": "user_id", "parent": "users"}],
    "together": [["users", "posts"]],
}


def column(table, name):
    return {"col": [table, name]}


def integer(number):
    return {"bind": ["Integer", number]}


def query(form, number):
    users = {"table": "users"}
    posts = {"table": "posts"}
    identity = column("users", "id")
    if form == 0:
        return {"from": users, "calls": [["filter", {"eq": [identity, integer(number)]}]]}
    if form == 1:
        selection = [column("users", "name"), column("posts", "title")]
        return {"from": users, "calls": [["inner_join", posts], ["select", selection], ["limit", number]]}
    if form == 2:
        return {"from": users, "calls": [["left_join", posts], ["select", column("posts", "title")]]}
    if form == 3:
        same = {"from": users, "calls": [["select", identity]]}
        return {"from": users, "calls": [["select", identity], ["union", same]]}
    if form == 4:
        return {"from": users, "calls": [["filter", {"eq_any": [identity, {"list": ["Integer", list(range(number % 4))]}]}]]}
    if form == 5:
        return {"from": users, "calls": [["into_boxed"], ["offset", number]]}
    if form == 6:
        return {"from": users, "calls": [["for_key_share"]]}
    inside = {"from": posts, "calls": [["filter", {"eq": [column("posts", "user_id"), identity]}]]}
    return {"from": users, "calls": [["filter", {"exists": inside}]]}


def request(number):
    return {"dialect": ["Pg", "Mysql", "Sqlite"][number % 3], "query": query(number // 3 % 8, number)}


def main():
    requests = [request(number) for number in range(int(sys.argv[1]))]
    json.dump({"schema": SCHEMA, "requests": requests}, sys.stdout, separators=(",", ":"))


main()
