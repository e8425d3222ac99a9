#!/usr/bin/env python3
"""Holds what `rig --json` prints to the shapes that docs/JSON.md gives.

json_shape.py DOCUMENT CASES: reads the tables of the document and the lines of CASES, each of which is a shape, an exit
status and a shell command, with tabs between them. It runs each command in the folder where it is called itself, and
checks that

  - the command exits with that status, and prints one line, which is one JSON object with no name in it twice,
  - each field of the object stands in the table of its shape, and has the type that stands there,
  - each field that the table says is always there is there, and one that is there if another field has some value is
    there exactly then.

At the end it checks that the document says no more than the commands do: each field, and each value and type that a
field may have, was seen, and a field that is not always there was missing at least once. Then each row of each table is
left out, and given another type, to see that this is noticed. The last line is 'N passed, M failed'.

json_shape.py --one SHAPE DOCUMENT: holds the one line of standard input to a shape. Says what is wrong, and exits with 1
then."""
import json
import re
import subprocess
import sys

TYPES = {
    "number": lambda value: type(value) is int and 0 <= value < 2**64,
    "signed number": lambda value: type(value) is int and -(2**64) < value < 2**64,
    "text": lambda value: type(value) is str,
    "flag": lambda value: type(value) is bool,
    "null": lambda value: value is None,
    "object": lambda value: type(value) is dict,
    "list of objects": lambda value: type(value) is list and all(type(item) is dict for item in value),
}


class Row:
    """One row of a table: a field, its types, and when it is there."""

    def __init__(self, shape, cells):
        if len(cells) != 4 or not re.fullmatch(r"`[a-z_]+(\.[a-z_]+)*`", cells[0]):
            raise ValueError(f"the table of '{shape}' has a row that is none: {cells}")
        self.path = cells[0].strip("`")
        self.types = [kind.strip() for kind in re.split(r",| or ", cells[1])]
        self.always = cells[2] == "always"
        self.condition = None
        condition = re.match(r"if `([a-z_]+)` is (.+)$", cells[2])
        if condition:
            self.condition = (condition[1], [json.loads(value) for value in re.findall(r"`([^`]+)`", condition[2])])
        elif not self.always and not cells[2].startswith("where "):
            raise ValueError(f"the table of '{shape}' does not say when {self.path} is there: {cells[2]}")
        self.seen_types = set()
        self.was_missing = False


def read_document(path):
    """Returns the rows of each shape, by the heading of the section in which its table stands."""
    shapes, heading = {}, None
    for line in open(path, encoding="utf-8"):
        if line.startswith("#"):
            heading = line.lstrip("#").strip()
        cells = [cell.strip() for cell in line.strip().strip("|").split("|")]
        if line.startswith("|") and cells[0] != "field" and not cells[0].startswith("---"):
            shapes.setdefault(heading, []).append(Row(heading, cells))
    for shape, rows in shapes.items():
        for row in rows:
            for kind in row.types:
                if not (kind in TYPES or kind.startswith('`"') or kind.startswith("[")):
                    raise ValueError(f"the table of '{shape}' has no such type: {kind}")
                if kind.startswith("[") and re.match(r"\[(.+)\]\(#.+\)$", kind)[1] not in shapes:
                    raise ValueError(f"the table of '{shape}' names a shape that is not there: {kind}")
        paths = [row.path for row in rows]
        for path in paths:
            if paths.count(path) > 1 or ("." in path and path.rpartition(".")[0] not in paths):
                raise ValueError(f"the table of '{shape}' has {path} twice, or not what it stands in")
    return shapes


def mistakes_in(shapes, shape, value, prefix="", where=""):
    """Says what is wrong with an object that should have a shape, or the part of it that the prefix names."""
    mistakes = []
    rows = {row.path[len(prefix):]: row for row in shapes.get(shape, [])
            if row.path.startswith(prefix) and "." not in row.path[len(prefix):]}
    for name in value:
        if name not in rows:
            mistakes.append(f"{where}{name} is not in the table of '{shape}'")
    for name, row in rows.items():
        if name not in value:
            row.was_missing = True
        wanted = row.always
        if row.condition:
            wanted = value.get(row.condition[0]) in row.condition[1]
        if wanted and name not in value:
            mistakes.append(f"{where}{name} is missing, which the table of '{shape}' has")
        if row.condition and not wanted and name in value:
            mistakes.append(f"{where}{name} is there, and the table of '{shape}' says that it is not")
        if name in value:
            mistakes += mistakes_in_field(shapes, shape, row, value[name], f"{where}{name}")
    return mistakes


def mistakes_in_field(shapes, shape, row, value, where):
    """Says what is wrong with the value of a field."""
    for kind in row.types:
        constant = re.fullmatch(r'`(".*")`', kind)
        link = re.match(r"\[(.+)\]\(#", kind)
        if constant:
            fits = value == json.loads(constant[1]) and type(value) is str
        else:
            fits = TYPES["object" if link else kind](value)
        if not fits:
            continue
        row.seen_types.add(kind)
        if link:
            return mistakes_in(shapes, link[1], value, "", where + ".")
        if kind == "object":
            return mistakes_in(shapes, shape, value, row.path + ".", where + ".")
        if kind == "list of objects":
            return [mistake for number, item in enumerate(value)
                    for mistake in mistakes_in(shapes, shape, item, row.path + ".", f"{where}[{number}].")]
        return []
    return [f"{where} is {json.dumps(value)}, and the table of '{shape}' wants {' or '.join(row.types)}"]


def never_seen(shapes):
    """Says what the document says and no command showed."""
    said = []
    for shape, rows in shapes.items():
        for row in rows:
            for kind in row.types:
                if kind not in row.seen_types:
                    said.append(f"{row.path} of '{shape}' was never seen as {kind}")
            if not row.always and not row.was_missing:
                said.append(f"{row.path} of '{shape}' was always there")
    return said


def without_doubles(pairs):
    names = [name for name, _ in pairs]
    if len(set(names)) < len(names):
        raise ValueError(f"a name stands there twice: {names}")
    return dict(pairs)


def refuse_number(digits):
    raise ValueError(f"{digits} is no whole number")


def parse(printed):
    """Returns the object that stands on the only line."""
    line = printed.decode("utf-8")
    if line.count("\n") != 1 or not line.endswith("\n"):
        raise ValueError("it is not one line")
    value = json.loads(line, object_pairs_hook=without_doubles, parse_float=refuse_number, parse_constant=refuse_number)
    if type(value) is not dict:
        raise ValueError("it is no object")
    return value


def run(command, status):
    """Runs a command, and returns what it says and what is wrong with it before its shape is looked at."""
    ran = subprocess.run(["bash", "-c", command], stdin=subprocess.DEVNULL, stdout=subprocess.PIPE, stderr=subprocess.PIPE)
    try:
        value = parse(ran.stdout)
    except ValueError as why:
        return None, [f"{why}: {ran.stdout[:200]!r} {ran.stderr[:200]!r}"]
    if ran.returncode != status or value.get("status") != status:
        return value, [f"the exit status is {ran.returncode}, and the object says {value.get('status')}"]
    return value, []


def is_noticed(shapes, shape, objects):
    """Returns whether anything is wrong, once the table of a shape has been edited. Objects of that shape are looked at first."""
    objects = sorted(objects, key=lambda named: named[0] != shape)
    return any(mistakes_in(shapes, named, value) for named, value in objects) or bool(never_seen(shapes))


def edits_that_pass(path, objects):
    """Leaves out each row, and gives each row another type. Returns the edits that nobody notices, and how many there are."""
    unnoticed, count = [], 0
    for shape, rows in read_document(path).items():
        for number, row in enumerate(rows):
            edited = read_document(path)
            edited[shape] = [other for other in edited[shape] if not (other.path + ".").startswith(row.path + ".")]
            retyped = read_document(path)
            retyped[shape][number].types = ["flag" if row.types != ["flag"] else "number"]
            for what, shapes in (("left out", edited), ("of another type", retyped)):
                count += 1
                if not is_noticed(shapes, shape, objects):
                    unnoticed.append(f"nobody notices that {row.path} of '{shape}' is {what}")
    return unnoticed, count


def hold_one(shape, path):
    try:
        mistakes = mistakes_in(read_document(path), shape, parse(sys.stdin.buffer.read()))
    except ValueError as why:
        mistakes = [str(why)]
    print("".join(f"json: {mistake}\n" for mistake in mistakes), end="")
    sys.exit(1 if mistakes else 0)


def main():
    if sys.argv[1] == "--one":
        hold_one(*sys.argv[2:])
    path, cases = sys.argv[1:]
    shapes = read_document(path)
    objects, faults, tried = [], [], 0
    for line in open(cases, encoding="utf-8"):
        shape, status, command = line.rstrip("\n").split("\t")
        tried += 1
        value, mistakes = run(command, int(status))
        if shape not in shapes:
            mistakes.append(f"there is no table of '{shape}'")
        if value is not None:
            objects.append((shape, value))
            mistakes += mistakes_in(shapes, shape, value)
        if mistakes:
            faults.append(f"{command[:160]}: {'; '.join(mistakes)}")
    fields = sum(len(rows) for rows in shapes.values())
    unseen = never_seen(shapes)
    unnoticed, edits = edits_that_pass(path, objects)
    faults += unseen + unnoticed
    for fault in faults:
        print(f"json: {fault}")
    print(f"{max(tried + fields + edits - len(faults), 0)} passed, {len(faults)} failed")
    sys.exit(1 if faults or tried == 0 else 0)


if __name__ == "__main__":
    main()
