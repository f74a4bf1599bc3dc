#!/usr/bin/env python3
"""Writes the pages as a site: static HTML with a search, which needs no server and loads nothing from elsewhere.

    packaging/site.py FOLDER

The pages are README.md, docs/*.md, those of python/, bench/README.md, CONTRIBUTING.md and CHANGELOG.md. A page's name in backticks becomes a link
to it. Needs Python's `markdown` (Debian: python3-markdown). Ends with 1 and says so where that is missing or a link leads nowhere.
"""
from __future__ import annotations

import html
import json
import pathlib
import re
import sys

try:
    import markdown
except ImportError:
    sys.exit("site.py: Python's markdown is missing (Debian: python3-markdown)")

TOP = pathlib.Path(__file__).resolve().parent.parent
GROUPS = (
    ("Users", ("README.md", "docs/DOCUMENT.md", "docs/USING.md", "docs/RULES.md", "docs/GUARD.md", "docs/TEXTS.md", "docs/EMBEDDING.md",
               "python/README.md", "python/LIMITS.md", "docs/SERVERS.md")),
    ("Believers", ("docs/TRUST.md", "docs/PROMISES.md", "docs/MEANING.md", "docs/GRAMMAR.md")),
    ("Builders", ("CONTRIBUTING.md", "docs/ARCHITECTURE.md", "docs/DECISIONS.md", "bench/README.md", "CHANGELOG.md")),
)
PAGES = tuple(page for _, pages in GROUPS for page in pages)
# Files that pages name by links of Markdown, and that the site holds as they are.
SCHEMAS = ("docs/document.schema.json", "docs/answer.schema.json", "docs/reading.schema.json")


def file_of(page: str) -> str:
    """The page's name in the site."""
    if page == "README.md":
        return "index.html"
    return page.removeprefix("docs/").replace("/", "-").removesuffix(".md").lower() + ".html"


def title_of(text: str) -> str:
    heading = re.match(r"# (.+)\n", text)
    if heading is None:
        raise ValueError("a page begins with its title")
    return heading[1].replace("`", "")


def anchor_of(heading: str) -> str:
    return re.sub(r"[^a-z0-9]+", "-", heading.lower()).strip("-")


def linked(body: str) -> str:
    """The HTML with a link at each name of a page that stands as code."""
    names = {**{page: file_of(page) for page in PAGES}, **{page.removeprefix("docs/"): file_of(page) for page in PAGES if page.startswith("docs/")},
             **{schema: schema.removeprefix("docs/") for schema in SCHEMAS}}
    return re.sub(r"<code>([\w/.]+)((?:#[^<]*)?)</code>",
                  lambda found: f'<a href="{names[found[1]]}">{found[0]}</a>' if found[1] in names else found[0], body)


def body_of(text: str) -> str:
    body = markdown.markdown(text, extensions=["tables", "fenced_code", "sane_lists"])
    body = re.sub(r"<h([23])>(.*?)</h\1>",
                  lambda found: f'<h{found[1]} id="{anchor_of(re.sub("<[^>]*>", "", html.unescape(found[2])))}">{found[2]}</h{found[1]}>', body)
    # a wide table or a long line scrolls by itself, and the page does not
    body = re.sub(r"<table>(.*?)</table>", r'<div class="wide"><table>\1</table></div>', body, flags=re.S)
    return linked(body)


def sections(page: str, text: str) -> list[dict[str, str]]:
    """What the search knows of a page: the text under each heading."""
    found = []
    for part in re.split(r"^(?=#{1,3} )", re.sub(r"^```.*?^```$", lambda code: code[0].replace("#", " "), text, flags=re.S | re.M), flags=re.M):
        heading = re.match(r"(#+) (.+)\n", part)
        if heading is None:
            continue
        name = heading[2].replace("`", "")
        where = file_of(page) + ("" if heading[1] == "#" else f"#{anchor_of(name)}")
        found.append({"at": where, "name": name, "page": title_of(text), "text": " ".join(re.sub(r"[`*|]", " ", part[heading.end():]).split())})
    return found


def menu(current: str, titles: dict[str, str]) -> str:
    out = []
    for group, pages in GROUPS:
        out.append(f"<h2>{group}</h2>\n<ul>")
        for page in pages:
            here = ' aria-current="page"' if page == current else ""
            out.append(f'<li><a href="{file_of(page)}"{here}>{html.escape(titles[page])}</a></li>')
        out.append("</ul>")
    return "\n".join(out)


def whole(current: str, titles: dict[str, str], body: str) -> str:
    title = titles[current] if current == "README.md" else f"{titles[current]} · Hardieflax"
    return f"""<!DOCTYPE html>
<html lang="en">
<head>
<meta charset="utf-8">
<meta name="viewport" content="width=device-width, initial-scale=1">
<title>{html.escape(title)}</title>
<link rel="stylesheet" href="site.css">
</head>
<body>
<a class="skip" href="#page">To the page</a>
<nav aria-label="Pages">
<a class="home" href="index.html">Hardieflax</a>
<label for="asked">Search</label>
<input id="asked" type="search" autocomplete="off">
<ol id="found" aria-live="polite"></ol>
<details open>
<summary>Pages</summary>
{menu(current, titles)}
</details>
</nav>
<main id="page">
{body}
</main>
<script src="index.js"></script>
<script src="search.js"></script>
</body>
</html>
"""


def broken_links(folder: pathlib.Path) -> list[str]:
    """The links between pages that lead nowhere."""
    texts = {path.name: path.read_text() for path in folder.glob("*.html")}
    broken = []
    for name, text in texts.items():
        for link in re.findall(r'href="([^":]+)"', text):
            target, _, anchor = link.partition("#")
            there = texts.get(target or name)
            if there is None and not (folder / target).exists() or anchor and there is not None and f'id="{anchor}"' not in there:
                broken.append(f"{name}: {link}")
    return broken


def main() -> None:
    if len(sys.argv) != 2:
        sys.exit(__doc__)
    folder = pathlib.Path(sys.argv[1])
    folder.mkdir(parents=True, exist_ok=True)
    texts = {page: (TOP / page).read_text() for page in PAGES}
    titles = {page: title_of(text) for page, text in texts.items()}
    for page, text in texts.items():
        (folder / file_of(page)).write_text(whole(page, titles, body_of(text)))
    known = [section for page, text in texts.items() for section in sections(page, text)]
    (folder / "index.js").write_text(f"const SECTIONS = {json.dumps(known, ensure_ascii=False)};\n")
    for name in ("site.css", "search.js"):
        (folder / name).write_text((TOP / "packaging/site" / name).read_text())
    for schema in SCHEMAS:
        (folder / schema.removeprefix("docs/")).write_text((TOP / schema).read_text())
    broken = broken_links(folder)
    if broken:
        sys.exit("\n".join(["site.py: links that lead nowhere:", *broken]))


if __name__ == "__main__":
    main()
