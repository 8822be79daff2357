#!/usr/bin/env python3
"""dossier.py [COMMAND..]: runs `crpd dossier`, or another command that is to do the same, and reads its pages with Python's parser of HTML:
that each is well made and needs nothing else, and that every figure in it is the one that the other commands tell of the same table. Then
folders of tables, some of them refused, unreadable or oddly named. One line for each case; the last line is `N passed, M failed`."""
import hashlib
import html.parser
import os
import random
import re
import sys
import tempfile

from cases.asking import BEYOND, HOPELESS, LATER, REFUSED, fine, tasks, unwanted
from cases.builds import ODD
from common import METHODS, ROOT, build, contents, examples, must, obeying_modes, printed, run, same, spelled, status_of, tell, write

VOID = {"meta"}  # elements of HTML that have no end
MADE_OF = {  # all that a page may be made of
    "html", "head", "meta", "title", "style", "body", "main", "header", "section", "article", "h1", "h2", "h3", "p", "dl", "dt", "dd", "pre", "span", "code",
    "div", "table", "thead", "tbody", "tfoot", "tr", "th", "td", "ul", "li", "figure", "figcaption",
}
DRAWN_OF = {"svg", "title", "rect", "defs", "pattern", "line", "text", "use"}
SECTIONS = [
    "1 The table as it was read", "2 The report", "3 Each task under combined", "4 How much growth is left", "5 The equations",
    "6 What is proved, and what is assumed",
]


# pages


class Element:
    """An element, with what stands in it: texts and elements."""

    def __init__(self, tag, attributes=()):
        self.tag, self.attributes, self.inside = tag, dict(attributes), []

    def all(self, tag=None, **attributes):
        """The elements below it of a tag, with these attributes, in the order of the page."""
        for one in self.inside:
            if isinstance(one, Element):
                if tag in (None, one.tag) and all(one.attributes.get(name.rstrip("_")) == value for name, value in attributes.items()):
                    yield one
                yield from one.all(tag, **attributes)

    def one(self, tag, **attributes):
        found = list(self.all(tag, **attributes))
        must(len(found) == 1, "%d elements %s %s", len(found), tag, attributes)
        return found[0]

    def text(self):
        return "".join(one if isinstance(one, str) else one.text() for one in self.inside)

    def words(self):
        """Its text on one line."""
        return " ".join(self.text().split())

    def rows(self):
        """The cells of each row of a table, as words."""
        return [[cell.words() for cell in row.inside if isinstance(cell, Element)] for row in self.all("tr")]


class Reader(html.parser.HTMLParser):
    """Reads a page into elements. What a browser would have to mend is wrong."""

    def __init__(self):
        super().__init__()
        self.open, self.declared = [Element("")], []

    def handle_decl(self, decl):
        self.declared.append(decl)

    def handle_starttag(self, tag, attrs):
        must(len(dict(attrs)) == len(attrs), "%s has an attribute twice: %s", tag, attrs)
        element = Element(tag, attrs)
        self.open[-1].inside.append(element)
        if tag not in VOID:
            self.open.append(element)

    def handle_startendtag(self, tag, attrs):
        self.open[-1].inside.append(Element(tag, attrs))

    def handle_endtag(self, tag):
        must(self.open[-1].tag == tag, "%s ends where %s is open", tag, self.open[-1].tag)
        self.open.pop()

    def handle_data(self, data):
        self.open[-1].inside.append(data)

    def handle_comment(self, data):
        must(False, "there is a comment: %.80r", data)

    def handle_pi(self, data):
        must(False, "there is an instruction: %.80r", data)


def read(page):
    reader = Reader()
    reader.feed(page.decode("utf-8"))
    reader.close()
    must(len(reader.open) == 1, "%s is never ended", reader.open[-1].tag)
    same("what is declared", reader.declared, ["DOCTYPE html"])
    return reader.open[0]


def dossier(text):
    ended = run("dossier", "-o", "-", text=text)
    fine(ended, ended.out, status_of(printed(text)))
    return ended.out


def section(page, heading):
    return next(one for one in page.all("section") if one.one("h2").words() == heading)


# tables


def random_table(pick):
    """A table of any size, of which many tasks are late."""
    sets, ways = pick.choice((4, 8, 64, 256)), pick.choice((0, 0, 1, 8))
    digit = lambda: pick.choice("0000" + "12345678"[:ways]) if ways else pick.choice("0123456789abcdef")
    useful = lambda: "".join(digit() for _ in range(sets if ways else sets // 4))
    evicting = lambda: "".join(pick.choice("0137f") for _ in range(sets // 4))
    count = pick.choice((1, 2, 5, 12, 32))
    lines = ["K\t%d\t%d" % (sets, pick.choice((0, 1, 20))) + ("\t%d" % ways if ways else "")]
    for n in range(count):
        period = pick.randrange(50, 5000) * (n + 1)
        deadline = pick.randrange(period // 2, period + 1)
        fields = pick.randrange(1, 1 + max(1, period // count)), period, deadline, pick.choice((0, 0, deadline // 3))
        lines.append("T\t%s\t%s\t0\t%s\t%s" % ("t%d" % n, "\t".join(map(str, fields)), useful(), evicting()))
    for _ in range(pick.choice((0, 0, 3)) if count > 1 else 0):
        low = pick.randrange(1, count)
        lines.append("A\tt%d\tt%d\t%d\t%s" % (low, pick.randrange(low), pick.randrange(1, 60), useful()))
    return "".join(line + "\n" for line in lines).encode()


def tables():
    pick = random.Random(7)
    known = {os.path.basename(path): text for path, text in examples().items()}
    made = {"a made-up table %d" % n: random_table(pick) for n in range(16)}
    return {**known, "later": LATER, "beyond": BEYOND, "hopeless": HOPELESS, **made}


# what a page is


def well_made(text):
    """Made of what it may be made of, headed in order, and with no address in it."""
    raw = dossier(text)
    page = read(raw)
    html_, = (one for one in page.inside if isinstance(one, Element))
    same("the language", html_.attributes, {"lang": "en"})
    same("the encoding", [one.attributes["charset"] for one in page.all("meta") if "charset" in one.attributes], ["utf-8"])
    must(list(page.all("meta", name="viewport")), "no word on how wide the page is")
    digest = hashlib.sha256(text).hexdigest()
    same("the title", page.one("head").one("title").text(), "Worst-case response times of table " + digest[:12])
    drawn = {id(one) for picture in page.all("svg") for one in [picture, *picture.all()]}
    same("elements", {one.tag for one in page.all() if id(one) not in drawn} - MADE_OF, set())
    same("elements of the picture", {one.tag for one in page.all() if id(one) in drawn} - DRAWN_OF, set())
    for one in page.all():
        must(not any(name.startswith("on") or name == "src" for name in one.attributes), "%s has %s", one.tag, one.attributes)
        must(one.attributes.get("href", "#").startswith("#"), "%s leads to %s", one.tag, one.attributes)
    same("addresses", re.findall(rb"//|@import|url\((?!#)", raw.replace(b"<!DOCTYPE", b"")), [])
    must(not re.search(rb"[\x00-\x08\x0b-\x1f\x7f]", raw), "there are control characters")
    ids = [one.attributes["id"] for one in page.all() if "id" in one.attributes]
    same("names in the page", sorted(ids), sorted(set(ids)))
    same("what uses lead to", {one.attributes["href"][1:] for one in page.all("use")} - set(ids), set())
    same("headings", [one.words() for one in page.all("h1")], ["Worst-case response times"])
    same("headings", [one.words() for one in page.all("h2")], SECTIONS)
    for one in page.all("th"):
        must(one.attributes.get("scope") in ("row", "col"), "a heading of neither row nor column: %s", one.words())
    for table in page.all("table"):
        widths = {sum(int(cell.attributes.get("colspan", 1)) for cell in row.inside if isinstance(cell, Element)) for row in table.all("tr")}
        must(len(widths) == 1, "rows of %s cells", widths)


def as_read(text):
    page = read(dossier(text))
    same("the table", section(page, SECTIONS[0]).one("pre").text().encode(), text)
    terms = dict(zip([one.words() for one in page.one("header").all("dt")], [one.words() for one in page.one("header").all("dd")]))
    first = text.split(b"\n")[0].decode().split("\t")
    same("the digest", terms["SHA-256 of the table"], hashlib.sha256(text).hexdigest())
    same("the cache sets, the ways", (terms["Cache sets"], terms.get("Ways")), (first[1], first[3] if len(first) > 3 else None))
    same("a reload", terms["Reload of a block"], "%s tick%s" % (first[2], "" if first[2] == "1" else "s"))
    same("the accesses", terms.get("Accesses", "0"), str(text.count(b"\nA\t")))
    verdicts = dict(zip(METHODS, printed(text).decode().splitlines()[-1].split("\t")[1:]))
    for term, verdict in ("Methods that pass", "yes"), ("Methods that do not", "no"):
        same(term, terms.get(term, ""), ", ".join(method for method in METHODS if verdicts[method] == verdict))
    lead = page.one("header").one("p").words()
    must(lead.startswith("%d task%s on" % (len(tasks(text)), "s" * (len(tasks(text)) > 1))), "it begins %r", lead)
    told = "every task has a response." if verdicts["combined"] == "yes" else "some task has no response."
    must(lead.endswith("Under the method combined " + told), "it begins %r", lead)


def as_reported(text):
    """The report's figures, and the picture of `crpd plot`."""
    raw = dossier(text)
    part = section(read(raw), SECTIONS[1])
    head, *rows = part.one("table").rows()
    same("the heads", head, ["task", "limit", *METHODS])
    report = [line.split("\t") for line in printed(text).decode().splitlines()]
    same("the figures", rows, [line[1:] for line in report[:-1]] + [["passes", "", *report[-1][1:]]])
    plotted = run("plot", "-o", "-", text=text).out.decode()
    plotted = plotted.replace("standard input", "table " + hashlib.sha256(text).hexdigest()[:12])
    expected = plotted.replace('<svg xmlns="http://www.w3.org/2000/svg"', '<svg id="picture"')
    must(raw.decode().count(expected) == 1, "it has not the picture of crpd plot")
    pieces = list(part.all("svg", class_="piece"))
    same("pieces of the picture", len(pieces), len(tasks(text)))
    places = [list(map(int, one.attributes["viewbox"].split())) for one in pieces]
    whole = list(map(int, part.one("svg", id="picture").attributes["viewbox"].split()))
    same("where the first begins", places[0][:2], [0, 0])
    same("how wide they are", {place[2] for place in places}, {whole[2]})
    must(len({place[3] for place in places[1:]}) < 2, "pieces of tasks are %s high", places)
    for (_, top, _, height), (_, after, _, _) in zip(places, places[1:]):
        same("where one ends and the next begins", top + height, after)
    must(0 <= whole[3] - places[-1][1] - places[-1][3] < 30, "the last ends at %s of %d", places[-1], whole[3])


def explained(text, method, position):
    """What `crpd explain --words` tells: its sentences, and the lines of its sum."""
    told = run("explain", "--words", METHODS[method], "#%d" % position, text=text).out.decode()
    sentences, _, added = told.partition("\n\n")
    return sentences.splitlines(), added.splitlines()


def sum_rows(lines, names):
    """The rows of a sum that is told in columns: name, words, ticks."""
    rows = []
    for line in lines:
        ticks = line.split()[-1]
        if set(ticks) == {"-"}:
            continue
        rest = line[: -len(ticks)].strip()
        name = next((name for name in [*names, "together"] if line.startswith("  %s " % name)), "")
        rows.append([name, rest[len(name) :].strip().replace(" x ", " × "), ticks])
    return rows


def as_explained(text):
    """Each task under combined, word by word, and what it needs under each method that leaves it no response."""
    part = section(read(dossier(text)), SECTIONS[2])
    names = [task.name for task in tasks(text)]
    same("the tasks", [one.words() for one in part.all("h3")], names)
    report = [line.split("\t") for line in printed(text).decode().splitlines()]
    for position, article in enumerate(part.all("article")):
        sentences, lines = explained(text, 5, position)
        same("the words", " ".join(one.words() for one in article.all("p")), " ".join(sentences))
        expected = sum_rows(lines, names)
        if not expected:
            same("sums", len(list(article.all("table"))), 0)
        else:
            head, *rows, last = article.one("table").rows()
            same("the heads of the sum", head, ["task", "what is asked for", "ticks"])
            same("the sum", [*rows, [last[0], "", last[1]]], expected)
            same("what the parts come to", sum(int(row[2]) for row in rows), int(last[1]))
        missing = [method for method in range(5) if report[position][3 + method] == "-"]
        same("what it needs", [one.words() for one in article.all("li")], [explained(text, method, position)[0][0] for method in missing])


def as_grown(text):
    part = section(read(dossier(text)), SECTIONS[3])
    same("the numbers that are told of", re.findall(r"\d+", part.one("p").text()), ["4000", "1000"])
    head, *rows = part.one("table").rows()
    same("the heads", head, ["method", "growth", "which says"])
    same("the methods", [row[0] for row in rows], METHODS)
    for method, growth, words in rows:
        same("the growth under " + method, growth, run("growth", method, text=text).out.decode().strip())
        said = "%d.%03d" % divmod(int(growth), 1000)
        kind = {0: "no shrinking helps", 1000: "passes as it is", 4000: "four times as much"}.get(int(growth), said)
        must(kind in words, "of %s it says %r", growth, words)
        must(("shrink" in words) == (int(growth) < 1000), "of %s it says %r", growth, words)


def by_number(text):
    """The numbers of the equations are those of docs/RULES.md; a table with ways, or with accesses, is told what they do."""
    part = section(read(dossier(text)), SECTIONS[4])
    head, *rows = part.one("table").rows()
    same("the heads", head, ["method", "equation", "block reloads of an activation"])
    rules = contents(os.path.join(ROOT, "docs", "RULES.md")).decode()
    numbers = re.findall(r"^\| [0-5] [\w-]+ \| .* \| (\(\d+\)) \|$", rules, re.M)
    same("the equations", [row[:2] for row in rows], [list(pair) for pair in zip(METHODS, numbers)])
    must(all(row[2] for row in rows), "an equation has no words")
    same("whether ways are told of", "digit of a UCB" in part.text(), text.split(b"\n")[0].count(b"\t") > 2)
    same("whether accesses are told of", "(17) and (18)" in part.text(), b"\nA\t" in text)


def proved():
    """The paragraph that README.md has, and the version."""
    page = read(dossier(LATER))
    part = section(page, SECTIONS[5])
    paragraph = part.one("p", id="proved").words()
    readme = contents(os.path.join(ROOT, "README.md")).decode()
    must(paragraph in " ".join(readme.split()), "README.md has not this paragraph: %s", paragraph)
    first, second = run("--version").out.decode().splitlines()
    same("with what it is proved", [one.words() for one in part.all("dd")], [first, second[len("proved with ") :]])


# where it is written


def same_bytes():
    """From a file of any name, from standard input and in a folder, and again."""
    for name, text in list(tables().items())[:12]:
        page = dossier(text)
        with tempfile.TemporaryDirectory() as folder:
            file = write(os.path.join(folder, "some name & <b>.table"), text)
            other = write(os.path.join(folder, "-o"), text)
            out = os.path.join(folder, "out.html")
            for args in (file,), (file,), ("--", other), ("--", "-o"):
                fine(run("dossier", "-o", out, *args, cwd=folder), b"", status_of(printed(text)))
                same("the page of %s" % name, contents(out), page)
                os.remove(out)
            fine(run("dossier", "-", "-o", "-", text=text), page, status_of(printed(text)))
            run("dossier", folder)
            same("the page in a folder", contents(file[: -len("table")] + "html"), page)


def refused():
    """Nothing is written, and standard error tells why; what stood there stays."""
    with tempfile.TemporaryDirectory() as folder:
        out = os.path.join(folder, "x.html")
        for text in REFUSED, b"", b"x" * 20000, b"K\t4\t1\nT\t<script>\t1\t2\t2\t0\t0\t0\tf\n", b"\xff\x00\n":
            unwanted(run("dossier", "-o", out, text=text), 2)
            same("files", os.listdir(folder), [])
        write(out, b"old")
        unwanted(run("dossier", "-o", out, text=REFUSED), 2)
        same("what is there", contents(out), b"old")


def wrong_uses():
    with tempfile.TemporaryDirectory() as folder:
        table = write(os.path.join(folder, "x.table"), LATER)
        page = write(os.path.join(folder, "x.html"), LATER)
        for args in (table,), (), (folder, "-o", page), (folder, "-o", "-"), (table, "-o", table), (page, "-o", page), (table, table, "-o", page), (table, "-o", ""):
            unwanted(run("dossier", *args, text=LATER), 3)
        same("files", {name: contents(os.path.join(folder, name)) for name in os.listdir(folder)}, {"x.table": LATER, "x.html": LATER})


def failures():
    with tempfile.TemporaryDirectory() as folder:
        table = write(os.path.join(folder, "x.table"), LATER)
        for args in (os.path.join(folder, "y.table"), "-o", "-"), (table, "-o", os.path.join(folder, "no", "x.html")), (table, "-o", folder), (b"\xff", "-o", "-"):
            unwanted(run("dossier", *args), 4)
        ended = run("dossier", table, "-o", "/dev/full")
        same("the status on a full device", ended.status, 4)
        same("files", os.listdir(folder), ["x.table"])


# folders


def page_of(name):
    return name[: -len(b"table")] + b"html"


def below(folder):
    start = os.fsencode(folder)
    return {os.path.relpath(os.path.join(path, name), start) for path, _, names in os.walk(start) for name in names}


def folders():
    """Tables of odd names, deep down, some refused: the pages, the list of `crpd reports`, and nothing else."""
    texts = [*tables().values(), REFUSED, b"", b"x" * 20000, b"K\t4\t1\nT\t<b>&\t1\t2\t2\t0\t0\t0\tf\n"]
    names = [*ODD, "<b>&amp;.table".encode(), b"deep/er/x.table", b"-o/x.table", b"late.table", b"long.table", b"bad.table", b"empty.table", b"marked.table"]
    names += [b"plain-%d.table" % n for n in range(len(texts) - len(names))]
    made = dict(zip(names, reversed(texts)))
    with tempfile.TemporaryDirectory() as folder:
        for name, text in made.items():
            path = os.path.join(os.fsencode(folder), name)
            os.makedirs(os.path.dirname(path), exist_ok=True)
            write(path, text)
        write(os.path.join(folder, "late.html"), b"of an earlier table")
        reports = {name: printed(text) for name, text in made.items()}
        expected = b"".join(sorted(b"%s\t%s\n" % (spelled(name), reports[name].splitlines()[-1]) for name in made))
        for _ in range(2):
            ended = run("dossier", folder)
            same("the list", ended.out, expected)
            same("the status", ended.status, max(map(status_of, reports.values())))
            same("the files", below(folder), {*made, *map(page_of, made)})
            for name, text in made.items():
                page = contents(os.path.join(os.fsencode(folder), page_of(name)))
                if reports[name].startswith(b"E"):
                    refusal(page, text, ended.err, name)
                else:
                    same("the page of %r" % name, page, dossier(text))
        for name in made:
            os.remove(os.path.join(os.fsencode(folder), page_of(name)))
        same("the list of the reports", run("reports", folder).out, expected)


def refusal(raw, text, err, name):
    """The page of a refused table: why it is, and no figures."""
    page = read(raw)
    same("the heading", [one.words() for one in page.all("h1")], ["The table is refused"])
    same("elements", {one.tag for one in page.all()} - MADE_OF, set())
    same("tables", list(page.all("table")), [])
    told = run("dossier", "-o", "-", text=text).err.decode()
    words = page.one("p", class_="answer").text() + "".join("\n" + line.text() for line in page.all("pre"))
    same("why", words, told.replace("crpd: standard input:", "this table:", 1).rstrip("\n"))
    must(b"crpd: " in err, "standard error tells nothing of %r", name)


def unreadable():
    """A pipe, a table that may not be read, a name that is no UTF-8, and a page that cannot be written: the rest is done."""
    with tempfile.TemporaryDirectory() as folder:
        start = os.fsencode(folder)
        os.mkfifo(os.path.join(start, b"pipe.table"))
        os.chmod(write(os.path.join(start, b"closed.table"), LATER), 0)
        write(os.path.join(start, b"\xff.table"), LATER)
        write(os.path.join(start, b"taken.table"), LATER)
        os.mkdir(os.path.join(start, b"taken.html"))
        write(os.path.join(start, b"good.table"), LATER)
        ended = run("dossier", folder, before=obeying_modes())
        last = printed(LATER).splitlines()[-1]
        lines = [b"\\xff.table\tF\tread", b"closed.table\tF\tread", b"good.table\t" + last, b"pipe.table\tF\tread", b"taken.table\tF\twrite"]
        same("the list", ended.out.splitlines(), lines)
        same("the status", ended.status, 4)
        same("what could not be done", ended.err.count(b"cannot be"), 4)
        same("the page", contents(os.path.join(start, b"good.html")), dossier(LATER))
        same("other files", below(folder), {b"pipe.table", b"closed.table", b"\xff.table", b"taken.table", b"good.table", b"good.html"})


def no_folders():
    with tempfile.TemporaryDirectory() as folder:
        fine(run("dossier", folder), b"", 0)
        same("files", os.listdir(folder), [])
        unwanted(run("dossier", os.path.join(folder, "none"), "-o", "-"), 4)
        link = os.path.join(folder, "link")
        os.mkdir(os.path.join(folder, "real"))
        os.symlink("real", link)
        write(os.path.join(folder, "real", "x.table"), LATER)
        same("the status behind a link", run("dossier", link).status, 1)
        same("files", below(folder), {b"real/x.table", b"real/x.html"})


PARTS = [
    ("the page is well made and needs nothing else", well_made), ("the table as it was read", as_read), ("the report and its picture", as_reported),
    ("each task is explained", as_explained), ("how much growth is left", as_grown), ("the equations by number", by_number),
]
OTHERS = [
    ("what is proved is said as README.md says it", proved), ("the same bytes, from anywhere", same_bytes), ("refused texts", refused), ("wrong uses", wrong_uses),
    ("what cannot be read or written", failures), ("folders of tables", folders), ("tables in folders that cannot be read", unreadable),
    ("empty folders, no folders and links", no_folders),
]


def main():
    build()
    every = [("%s: %s" % (name, what), lambda case=case, text=text: case(text)) for name, text in tables().items() for what, case in PARTS]
    return tell(every + OTHERS)


if __name__ == "__main__":
    sys.exit(main())
