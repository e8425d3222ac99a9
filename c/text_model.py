#!/usr/bin/env python3
"""c/text_model.py RIG TAMPERED FOLDER: compares what the technician's program says about texts, and about bytes, with a
model of its own. The model follows docs/RULES.md and the program's help, line by line and not byte by byte, and shares no
code with it. TAMPERED is the program over tampered calls. FOLDER takes the files of the cases. The last line is 'N passed, M
failed'."""
import itertools
import json
import math
import os
import random
import re
import resource
import subprocess
import sys

RIG, TAMPERED, FOLDER = sys.argv[1:]
LARGEST, END = 2**42 - 1, 2**40
MOST_ROWS, MOST_SERVERS, MOST_PENDING = 64, 8, 256
UNTOLD, BYTES, TEXT = [], ["--bytes"], ["--text"]


# ---- numbers as bytes (rules 2.1 to 2.8)

class BadByte(Exception):
    def __init__(self, place, says):
        super().__init__(says)
        self.place, self.says = place, says


def spelled(value):
    groups = []
    while True:
        value, group = divmod(value, 128)
        groups.append(group + (128 if value else 0))
        if not value:
            return bytes(groups)


def number_at(data, at):
    """Returns the number that starts at this place, and the place after it."""
    end = next((i for i in range(at, min(at + 6, len(data))) if data[i] < 128), None)
    if end is None and at + 6 <= len(data):
        raise BadByte(at + 5, f"the byte {data[at + 5]:02X} is a sixth group that asks for more")
    if end is None:
        raise BadByte(len(data), "the bytes end there, " + ("inside a number" if at < len(data) else "where a number should stand"))
    if data[end] == 0 and end > at:
        raise BadByte(end, "the byte 00 is a superfluous zero group")
    return sum((data[i] & 127) << 7 * (i - at) for i in range(at, end + 1)), end + 1


def numbers_of(data):
    """The numbers of bytes that are well spelled."""
    at, numbers = 0, []
    while at < len(data):
        number, at = number_at(data, at)
        numbers.append(number)
    return numbers


# ---- texts: words with their lines and columns, and the bytes that they stand for

class Mistake(Exception):
    """A text is no table or no script, for what is wrong at a line and column."""
    def __init__(self, where, says):
        super().__init__(says)
        self.where, self.says = where, says


NO_WORD = "is no number: a text has decimal numbers, lines 'server a b' after the rows of a table, and comments that start with #"
NO_TIMER = ("a table starts with s and p of its timer: put them on a line in front of the row count, '0 1' where the rig has no "
            "timer")


class Words:
    """The words of a text, each a number or 'server', with its line and column. Both are counted from 1."""
    def __init__(self, data):
        lines = re.split("\r\n|\r|\n", data.decode().removeprefix("\ufeff"))
        self.end = len(lines), len(lines[-1]) + 1
        self.words, self.where = [], []
        for line, content in enumerate(lines, 1):
            for found in re.finditer("[^ \t\v\f]+", content.split("#")[0]):
                self.where.append((line, found.start() + 1))
                self.words.append(self.read(found.group()))

    def read(self, word):
        line, column = self.where[-1]
        digits = re.match("[0-9]*", word).group()
        if word == "server":
            return word
        if digits and int(digits) > LARGEST:
            raise Mistake((line, column), "a number is above 2^42 - 1, the largest that can be spelled")
        if digits and word[len(digits):].startswith(","):
            raise Mistake((line, column + len(digits)), "a number is written without separators, 4096 and not 4,096, "
                          "and white space stands between numbers")
        if digits != word:
            raise Mistake((line, column), f"'{self.shortened(word)}' {NO_WORD}")
        return int(digits)

    def shortened(self, word):
        """The characters that start in the first 24 bytes of a word."""
        end = next((i for i in range(len(word)) if len(word[:i].encode()) >= 24), len(word))
        return word if end == len(word) else word[:end] + ".."

    def at(self, word):
        return self.where[word] if word < len(self.where) else self.end

    def by_line(self, first, last):
        """The indices of the words from first to last, in a list for each line."""
        return [list(group) for _, group in itertools.groupby(range(first, last), lambda word: self.where[word][0])]


def some(count, name):
    return f"{count:,} {name}{'' if count == 1 else 's'}"


def in_lines(text, front):
    """Whether the numbers after the row count start a line, and some stand together on one."""
    line = [where[0] for where in text.where[:front]]
    return front > 3 and line[3] != line[2] and len(set(line[3:])) < len(line[3:])


def expect_head(text, front):
    """Finds s and p, or a row count, that was left out: the lines tell."""
    line = [where[0] for where in text.where[:front]]
    if front >= 3 and line[0] != line[1] == line[2]:
        raise Mistake(text.at(0), NO_TIMER)
    if front > 3 and line[1] != line[2] == line[3]:
        raise Mistake(text.at(2), "the row count is missing: it stands on a line of its own, before the rows")


def count_rows(text, front):
    """How many rows stand on whole lines."""
    rows = 0
    for on_line in text.by_line(3, front):
        if len(on_line) % 4:
            raise Mistake(text.at(on_line[0]), f"row {rows:,} has {some(len(on_line), 'number')}; a row has four, x, y, d and c, "
                          "and a server is a line 'server a b'")
        rows += len(on_line) // 4
    return rows


def expect_row_count(text, front):
    """Finds what is wrong where so many numbers are not s, p, the row count and four for each row."""
    words, line = text.words, [where[0] for where in text.where]
    if front == 1 + 4 * words[0] and (front < 3 or line[2] == line[0]):
        raise Mistake(text.at(0), NO_TIMER)
    if front < 3:
        raise Mistake(text.at(front), "a table starts with s and p of its timer and its row count, and only "
                      f"{some(front, 'number')} stand{'s' if front == 1 else ''} there")
    if front > 3 and line[3] == line[2]:
        raise Mistake(text.at(2), f"the row count is {words[2]:,}, so {4 * words[2]:,} numbers should follow it, and {front - 3:,} do")
    rows = count_rows(text, front)
    raise Mistake(text.at(2), f"the row count is {words[2]:,}, but {some(rows, 'row')} follow{'s' if rows == 1 else ''} it")


def spell_table(text):
    """Returns the numbers of a table's text, each with its line and column."""
    words = text.words
    front = words.index("server") if "server" in words else len(words)
    numbers = list(zip(words, text.where))
    if front == 0 and words:
        raise Mistake(text.at(0), "a server stands after the last row of a table: before it come s and p, the row count, and four "
                      "numbers for each row")
    expect_head(text, front)
    if front == len(words) and front > 3 and front > 3 + 4 * words[2]:
        count_at = 3 + 4 * words[2]
        servers, line = words[count_at:], text.where[count_at][0]
        alone = [where[0] for where in text.where].count(line) == 1
        if len(servers) == 1 + 2 * servers[0] and (alone or not in_lines(text, front)):
            if in_lines(text, front):
                count_rows(text, count_at)
            return numbers
    if front < 3 or front != 3 + 4 * words[2]:
        if front == 0:
            raise Mistake(text.at(0), "a table starts with s and p of its timer and its row count, and only 0 numbers stand there")
        expect_row_count(text, front)
    if in_lines(text, front):
        count_rows(text, front)
    for server in range(front, len(words), 3):
        a_server = [type(word) for word in words[server:server + 3]] == [str, int, int]
        if not a_server or (server + 3 < len(words) and words[server + 3] != "server"):
            raise Mistake(text.at(server), "a server has two numbers, a and b, and nothing but other servers may follow it")
    where = text.where[front] if front < len(words) else None
    return numbers[:front] + [((len(words) - front) // 3, where)] + [number for number in numbers[front:] if number[0] != "server"]


def spell_script(text):
    if "server" in text.words:
        raise Mistake(text.at(text.words.index("server")),
                      "a script has no servers: each release is three numbers, its gap, row number and cost")
    lines = text.by_line(0, len(text.words))
    by_lines = len(text.words) % 3 or any(len(on_line) > 1 for on_line in lines)
    for on_line in lines if by_lines else []:
        if len(on_line) % 3:
            raise Mistake(text.at(on_line[0]),
                          f"this line has {some(len(on_line), 'number')}; a release has three, its gap, row number and cost")
    return list(zip(text.words, text.where))


def spell_text(kind, data):
    """Returns the bytes of a text, and the line and column of the number that starts at each place."""
    numbers = spell_table(Words(data)) if kind == "table" else spell_script(Words(data))
    content, where = b"", {}
    for value, position in numbers:
        where[len(content)] = position
        content += spelled(value)
    return content, where


def length_of_text(data):
    """How many bytes at the start could be a text: characters that can be seen, and white space."""
    try:
        chars = data.decode()
    except UnicodeDecodeError as error:
        chars = data[:error.start].decode()
    return len(re.match("[\t\n\v\f\r\x20-\x7e\xa0-\U0010ffff]*", chars).group().encode())


def is_text(data):
    return data != b"" and length_of_text(data) == len(data)


# ---- tables (rules 3.1 to 3.20 and 5.1 to 5.19)

class Refusal(Exception):
    def __init__(self, number, place, says, of=None, which=0, cause=None, **named):
        super().__init__(says)
        self.number, self.place, self.named = number, place, named
        self.cause = place if cause is None else cause # The number that has to be changed starts here.
        self.of = {of: which} if of in ("row", "server", "release") else {}
        self.says = ("the timer: " if of == "timer" else f"{of} {which:,}: " if of else "") + says


def out_of_range(place, name, value, least, most, of=None, which=0, number=3, why=""):
    the = "" if of else "the "
    return Refusal(number, place, f"{the}{name} is {value:,}; it must be {least:,} to {most:,}{why}", of, which, name=name,
                   value=value, least=least, most=most)


class Table:
    """A table that is read from its bytes. It is refused as the rules say, or it is accepted."""
    def __init__(self, data):
        self.data, self.at = data, 0
        self.lengths = [] # These are the y and b, with their places.
        self.timer()
        row_count = self.count("row count", MOST_ROWS)
        self.rows = [self.row(i) for i in range(row_count)]
        if self.at == len(data):
            raise Refusal(1, self.at, "the bytes end there, where the server count should stand, 00 if there is no server")
        server_count = self.count("server count", MOST_SERVERS)
        self.servers = [self.server(i) for i in range(server_count)]
        if self.at < len(data):
            raise Refusal(4, self.at, "there are bytes after the last server, or after a server count of 0")
        self.period = self.p
        for place, of, which, name, length in self.lengths:
            self.period = math.lcm(self.period, length)
            if self.period > 1048576:
                raise Refusal(5, len(data), f"with its {name}, H, the least common multiple of p, all y and all b, is at least {self.period:,}; it "
                              "must be 1 to 1,048,576", of, which, cause=place, name="H", value=self.period, least=1, most=1048576)

    def number(self):
        place = self.at
        try:
            value, self.at = number_at(self.data, place)
        except BadByte as bad:
            raise Refusal(1, bad.place, bad.says) from None
        return place, value

    def timer(self):
        _, self.s = self.number()
        place, self.p = self.number()
        if not 1 <= self.p <= 4096:
            raise out_of_range(place, "p", self.p, 1, 4096, "timer")
        if self.s >= self.p:
            raise Refusal(3, 0, f"s is {self.s:,}; it must be below p, which is {self.p:,}", "timer", name="s", value=self.s, least=0,
                          most=self.p - 1)

    def count(self, name, most):
        place, count = self.number()
        if count > most:
            raise out_of_range(place, name, count, 0, most, number=2)
        return count

    def row(self, which):
        row = []
        for name, most in ("x", 64), ("y", 4096), ("d", 16384), ("c", 4096):
            place, value = self.number()
            if not 1 <= value <= most:
                raise out_of_range(place, name, value, 1, most, "row", which)
            row.append(value)
            self.lengths += [(place, "row", which, "y", value)] * (name == "y")
        if row[3] > row[2]:
            raise Refusal(16, place, f"c is {row[3]:,}; it must be 1 to {row[2]:,}, which is its d: no processor can give {row[3]:,} "
                          f"units within {some(row[2], 'tick')}", "row", which, name="c", value=row[3], least=1, most=row[2])
        return row

    def server(self, which):
        place, a = self.number()
        if not 1 <= a <= 4096:
            raise out_of_range(place, "a", a, 1, 4096, "server", which)
        place, b = self.number()
        if not a <= b <= 4096:
            raise out_of_range(place, "b", b, a, 4096, "server", which, why=", and not be below its a")
        self.lengths.append((place, "server", which, "b", b))
        return a, b

    def taken(self, length):
        return length // self.p * self.s + min(self.s, length % self.p)

    def odd(self, length):
        return sum(a * length // b for a, b in self.servers)

    def demand(self, length):
        return self.taken(length) + self.odd(length) + sum(((length - d) // y + 1) * x * c for x, y, d, c in self.rows if length >= d)

    def witness(self):
        """The smallest length whose demand is above it, or None where there is none (5.7 to 5.9)."""
        period, largest = self.period, max((row[2] for row in self.rows), default=0)
        asked = sum(x * c * period // y for x, y, d, c in self.rows) + sum(a * period // b for a, b in self.servers)
        bound = period + largest if asked + self.s * period // self.p <= period else (largest + 1) * period + largest
        return next((length for length in range(1, bound + 1) if self.demand(length) > length), None)

    def most_cost(self, row):
        return self.rows[row][3] if row < len(self.rows) else 4096


# ---- replay (rules 4.1 to 4.9, 6.5 to 6.15 and 8.1 to 8.7)

class Replay:
    """Replays a script on a table. The releases before a refusal are kept, with their times and due times."""
    def __init__(self, table, script):
        self.table, self.script = table, script
        self.clock, self.pending, self.log, self.releases, self.accepted = 0, [], [], [], []
        self.dues = [[] for _ in table.rows + table.servers]
        self.refusal = None
        try:
            self.run()
        except Refusal as refusal:
            self.refusal = refusal

    def run(self):
        at = time = 0
        while at < len(self.script):
            start, count = at, len(self.releases)
            gap, at = self.number(at)
            time += gap
            if time > END:
                raise Refusal(10, start, "its time is above 2^40", "release", count)
            place = at
            row, at = self.number(at)
            used = len(self.dues)
            if row >= used > 0:
                raise out_of_release(6, place, "row number", row, 0, used - 1, count)
            if row >= used:
                raise Refusal(6, place, f"the row number is {row:,}, and the table has no row and no server", "release", count)
            place = at
            cost, at = self.number(at)
            most = self.table.most_cost(row)
            if not 1 <= cost <= most:
                odd = row >= len(self.table.rows)
                raise out_of_release(7, place, "cost", cost, 1, most, count, " for an odd job" if odd else f", the c of row {row:,}")
            self.tick_to(time)
            if len(self.pending) == MOST_PENDING:
                raise Refusal(8, start, f"{MOST_PENDING} jobs are pending, and there is no place for another", "release", count)
            due = self.due(row, cost)
            if due > END:
                raise Refusal(9, start, "the due time would be above 2^40", "release", count)
            self.dues[row].append(due)
            self.pending.append([due, count, row, cost])
            self.releases.append((time, due))
            self.accepted.append((gap, row, cost))
        self.tick_to(END)
        if self.pending:
            raise Refusal(10, len(self.script), "a job is pending at 2^40 after the last release")

    def number(self, at):
        try:
            return number_at(self.script, at)
        except BadByte as bad:
            raise Refusal(14, bad.place, bad.says) from None

    def due(self, row, cost):
        before = self.dues[row]
        if row >= len(self.table.rows):
            a, b = self.table.servers[row - len(self.table.rows)]
            return max(self.clock, before[-1] if before else 0) - -cost * b // a
        x, y, d, _ = self.table.rows[row]
        return max(self.clock + d, before[-x] + y) if len(before) >= x else self.clock + d

    def tick_to(self, time):
        while self.clock < time and self.pending:
            taken = self.clock % self.table.p < self.table.s
            self.clock += 1
            if not taken:
                job = min(self.pending)
                job[3] -= 1
                if job[3] == 0:
                    self.pending.remove(job)
                    self.log.append((job[1], job[2], self.releases[job[1]][0], job[0], self.clock))
        if not self.pending:
            self.clock = time

    def late(self):
        return sum(finish > due for _, _, _, due, finish in self.log)


def out_of_release(number, place, name, value, least, most, count, why=""):
    return Refusal(number, place, f"the {name} is {value:,}; it must be {least:,} to {most:,}{why}", "release", count, name=name,
                   value=value, least=least, most=most)


# ---- what the program says

class Stop(Exception):
    def __init__(self, status, says):
        super().__init__(says)
        self.status, self.says = status, says


class Said:
    """What a command is to say: its exit status, its words on both streams, and its JSON object."""
    last = None # This was begun last. Where the program is to stop, it has the notes of before that.

    def __init__(self, *words):
        Said.last = self
        self.words, self.notes, self.out, self.status = words, "", "", None
        self.json = {"command": words[0]}


class File:
    """A table or script as it is read from a file, in the form that is told or else taken."""
    def __init__(self, said, kind, path, told, accepted=None):
        self.path, self.kind = path, kind
        with open(path, "rb") as file:
            data = file.read()
        text = told == TEXT or (told == UNTOLD and is_text(data))
        if told == UNTOLD and text and accepted is not None and accepted(data):
            raise Stop(64, f"{path} could be a text, and would be accepted as bytes too: say --text or --bytes before its name")
        if told == UNTOLD:
            length = length_of_text(data)
            wrong = "" if text or length < 4 or data[:1] not in b"#0123456789" else \
                f", since its byte {length:,} is {data[length]:02X}, which is no text in UTF-8: say --text if it is a text"
            said.notes += f"rig: {path} is read as {'text' if text else 'bytes'}{wrong}\n"
        self.form, self.data, self.where = "text" if text else "bytes", data, {}
        try:
            if text:
                self.data, self.where = spell_text(kind, data)
        except Mistake as mistake:
            raise Stop(65, f"{path}:{mistake.where[0]}:{mistake.where[1]}: {mistake.says}") from None
        said.json[kind] = {"file": path, "form": self.form}

    def refused(self, said, refusal):
        """Says a refusal at a place in this file."""
        said.status = said.json["status"] = refusal.number
        said.json.update(answer="refused", refusal=self.json_of(refusal))
        where = self.where.get(refusal.cause)
        number = f"(refusal {refusal.number} at byte {refusal.place:,} of the {self.kind})\n"
        if where:
            said.out = f"{self.path}:{where[0]}:{where[1]}: {refusal.says} {number}"
        elif self.form == "text":
            said.out = f"{self.path}: {refusal.says} {number}"
        else:
            said.out = f"refused {refusal.number} at byte {refusal.place:,} of the {self.kind}: {refusal.says}\n"
            if is_text(self.data):
                said.notes += f"rig: {self.path} could be text: leave out --bytes, or say --text\n"

    def json_of(self, refusal):
        where = self.where.get(refusal.cause)
        at = {"line": where[0], "column": where[1]} if where else {}
        return {"number": refusal.number, "file": self.kind, "byte": refusal.place, **at, **refusal.of, **refusal.named,
                "message": refusal.says}


def verdict(path, told):
    said = Said("verdict", *told, path)
    file = File(said, "table", path, told)
    try:
        table = Table(file.data)
    except Refusal as refusal:
        file.refused(said, refusal)
        return said
    length = table.witness()
    said.status = said.json["status"] = 20 if length is None else 21
    said.json["answer"] = "feasible" if length is None else "overloaded"
    said.out = "feasible 20: no length of time has more demand than length\n"
    if not table.rows and not table.servers:
        said.out += "the table has no row and no server, so that it has no jobs\n"
    if length is not None:
        taken, odd = table.taken(length), table.odd(length)
        shares = [f"the timer takes {taken:,}"] * (taken > 0)
        shares += [f"the {'server asks' if len(table.servers) == 1 else 'servers ask'} for {odd:,}"] * (odd > 0)
        said.json["witness"] = {"length": length, "demand": table.demand(length)}
        said.out = f"overloaded 21: the demand in {some(length, 'tick')} is {table.demand(length):,} units"
        said.out += ", of which " * (shares != []) + " and ".join(shares) + "\n"
    return said


def is_played(table):
    """Returns whether a script would be replayed on this table to its end."""
    def played(script):
        try:
            return Replay(Table(table), script).refusal is None
        except Refusal:
            return False
    return played


def summary(table, log):
    """Returns what is said about each row and server, in columns and in JSON."""
    lines, rows = [["row", "jobs", "late", "least slack", "worst response"]], []
    for row in range(len(table.rows + table.servers)):
        jobs = [job for job in log if job[1] == row]
        late = sum(job[4] > job[3] for job in jobs)
        is_server = row >= len(table.rows)
        name = f"server {row - len(table.rows)}" if is_server else str(row)
        cells, said = ["-", "-"], {"row": row, "jobs": len(jobs), "late": late}
        if is_server:
            said["server"] = row - len(table.rows)
        if jobs:
            slack, response = min(job[3] - job[4] for job in jobs), max(job[4] - job[2] for job in jobs)
            said.update(least_slack=slack, worst_response=response)
            cells = [f"late by {-slack:,}" if late else f"{slack:,}", f"{response:,}"]
        lines.append([name, f"{len(jobs):,}", f"{late:,}", *cells])
        rows.append(said)
    widths = [max(len(line[column]) for line in lines) for column in range(5)]
    return "".join("  ".join(cell.rjust(width) for cell, width in zip(line, widths)) + "\n" for line in lines), rows


def replay(table_path, table_told, script_path, script_told, log_path=None):
    words = [*table_told, table_path, *script_told, script_path] + [log_path] * (log_path is not None)
    said = Said("replay", *words)
    said.log = None
    table = File(said, "table", table_path, table_told)
    script = File(said, "script", script_path, script_told or table_told, is_played(table.data))
    said.json["log"] = None
    try:
        accepted = Table(table.data)
    except Refusal as refusal:
        table.refused(said, refusal)
        return not_logged(said, log_path)
    played = Replay(accepted, script.data)
    if played.refusal:
        script.refused(said, played.refusal)
        return not_logged(said, log_path)
    if not played.log:
        said.status = said.json["status"] = 61
        said.json["answer"] = "nothing played"
        said.out = "nothing was played 61: the script releases no job\n"
        return not_logged(said, log_path)
    late, jobs = played.late(), len(played.log)
    said.log, said.json["log"] = b"".join(spelled(number) for job in played.log for number in job), log_path
    said.status = said.json["status"] = 23 if late else 22
    in_columns, rows = summary(accepted, played.log)
    said.json.update(answer="late" if late else "in time", jobs=jobs, late=late, rows=rows)
    said.out = f"replayed {said.status}: {some(jobs, 'job')}, {f'{late:,} late' if late else 'all in time'}\n{in_columns}"
    return said


def not_logged(said, log_path):
    said.out += "the log is not written\n" * (log_path is not None)
    return said


def show_table(path, told):
    """Shows a table whose numbers can be read, whatever they are."""
    said = Said("show", "table", *told, path)
    file = File(said, "table", path, told)
    s, p, count, *rest = numbers_of(file.data)
    rows, servers = [rest[4 * i:4 * i + 4] for i in range(count)], rest[4 * count + 1:]
    servers = [servers[i:i + 2] for i in range(0, len(servers), 2)]
    said.status = said.json["status"] = 60
    said.json.update(kind="table", timer={"s": s, "p": p}, rows=[dict(zip("xydc", row)) for row in rows],
                     servers=[dict(zip("ab", server)) for server in servers])
    taken = ": no tick is taken" if s == 0 < p else "" if s >= p else f": the first tick of every {p:,} is taken" if s == 1 else \
        f": the first {s:,} ticks of every {p:,} are taken"
    said.out = f"{s} {p}  # s and p of the timer{taken}\n{count}  # the row count\n"
    lines = [list("xydc")] + [[str(number) for number in row] for row in rows]
    widths = [max(len(line[i]) for line in lines) for i in range(4)]
    for i, line in enumerate(lines if rows else []):
        said.out += ("#" if i == 0 else " ") + "".join("  " + cell.rjust(width) for cell, width in zip(line, widths))
        said.out += f"  # row {i - 1:,}\n" if i else "\n"
    for i, (a, b) in enumerate(servers):
        gives = f": {some(a, 'unit')} in {some(b, 'tick')}" if 1 <= a <= b else ""
        said.out += f"server {a} {b}  # row {count + i:,}, server {i:,}{gives}\n"
    said.out += f"# {some(count, 'row')}, {some(len(servers), 'server')}\n"
    return said


def could_be_releases(data):
    """Returns whether some table could accept these bytes as a script."""
    try:
        numbers = numbers_of(data)
    except BadByte:
        return False
    return len(numbers) % 3 == 0 and all(row < MOST_ROWS + MOST_SERVERS for row in numbers[1::3])


def could_be_bytes_alone(data):
    """As could_be_releases, for a script without a table. Where its text is good and has releases, it is taken for text."""
    try:
        return could_be_releases(data) and spell_text("script", data)[0] == b""
    except Mistake:
        return True


def counts_of(data):
    """How many rows and servers a table has, whatever its values are."""
    numbers = numbers_of(data)
    return numbers[2], numbers[3 + 4 * numbers[2]]


def show_script(path, told, table_path=None, table_told=UNTOLD):
    """Shows a script whose numbers can be read, alone or beside a table whose numbers can be read."""
    said = Said("show", "script", *told, path, *table_told, *[table_path] * (table_path is not None))
    table = File(said, "table", table_path, table_told or told) if table_path else None
    rows, servers = counts_of(table.data) if table else (0, 0)
    refusal, played, dues = None, None, []
    try:
        accepted = Table(table.data) if table else None
    except Refusal as refused:
        refusal, accepted = table.json_of(refused), None
        refused_in = "table", refused
    script = File(said, "script", path, told, is_played(table.data) if accepted else could_be_bytes_alone)
    if accepted:
        played = Replay(accepted, script.data)
        dues = known_dues(played)
        if played.refusal:
            refusal, refused_in = script.json_of(played.refusal), ("script", played.refusal)
    said.status = said.json["status"] = 60
    said.json.update(kind="script", releases=[])
    lines, at, time = [["gap", "row", "cost"]], 0, 0
    ends = []
    while at < len(script.data):
        start, cells = at, []
        for _ in range(3):
            number, at = number_at(script.data, at)
            cells.append(number)
        time += cells[0]
        release = dict(zip(lines[0], cells), time=time, byte=start)
        end = f"  # time {time:,}"
        if len(ends) < len(dues):
            release["due"] = dues[len(ends)]
            end += f", due {release['due']:,}"
        end += f", byte {start:,}"
        if table and cells[1] >= rows:
            server = cells[1] - rows
            end += f", server {server:,}" if server < servers else ", no such row"
            if server < servers:
                release["server"] = server
        said.json["releases"].append(release)
        lines.append([str(cell) for cell in cells])
        ends.append(end)
    widths = [max(len(line[i]) for line in lines) for i in range(3)]
    for line, end in zip(lines, [""] + ends):
        said.out += ("   " if end else "#  ") + "  ".join(cell.rjust(width) for cell, width in zip(line, widths)) + end + "\n"
    said.out += f"# {some(len(ends), 'release')}, as far as the file goes\n"
    if refusal:
        kind, refused = refused_in
        said.json["refusal"] = refusal
        said.out += f"# replay refuses this {kind}, {refused.number} at byte {refused.place:,}: {refused.says}\n"
    return said


def known_dues(played):
    """The due times of the releases that are accepted. They are not known where jobs of these are pending at 2^40."""
    data = b"".join(spelled(number) for release in played.accepted for number in release)
    return [] if Replay(played.table, data).refusal else [due for _, due in played.releases]


def show_log(path, log, table):
    """Shows a log that was written by replay, beside its table and script where the table is given."""
    said = Said("show", "log", path, *([table[0], table[1]] if table else []))
    said.status = said.json["status"] = 60
    jobs = []
    for job in log:
        shown = dict(zip(("serial", "row", "release", "due", "finish"), job), late=job[4] > job[3])
        if table and job[1] >= len(table[2].rows):
            shown["server"] = job[1] - len(table[2].rows)
        jobs.append(shown)
    said.json.update(kind="log", log=path, jobs=jobs, late=sum(job["late"] for job in jobs))
    for kind, file in zip(("table", "script"), table or ()):
        with open(file, "rb") as content:
            said.json[kind] = {"file": file, "form": "text" if is_text(content.read()) else "bytes"}
    if table:
        said.json["whole"] = True
    return said


# ---- comparisons

passed = failed = 0
statuses = set() # The model said these.


def check(what, good, *seen):
    global passed, failed
    passed, failed = passed + bool(good), failed + (not good)
    if not good:
        print(f"{what}:", *seen, sep="\n  ")


def run(*words, **more):
    return subprocess.run([RIG, *words], capture_output=True, check=False, **more)


def pairs_once(pairs):
    """An object of JSON in which no name stands twice."""
    if len(dict(pairs)) < len(pairs):
        raise ValueError(f"a name stands twice in {pairs}")
    return dict(pairs)


def parsed(out):
    """Reads one JSON object, which stands on one line."""
    try:
        return json.loads(out.decode(), object_pairs_hook=pairs_once) if out.count(b"\n") == 1 else f"not one line: {out}"
    except ValueError as error:
        return f"no JSON, {error}: {out}"


def expect(what, command, *arguments, words=True, in_json=True):
    """Compares all that the program says, as words and as JSON, with what the model of the command says."""
    stopped = ""
    try:
        said = command(*arguments)
    except Stop as stop:
        said, stopped = Said.last, f"rig: {stop.says}\n"
        said.status, said.out = stop.status, ""
        said.json = {"status": stop.status, "answer": "error", "message": stop.says}
    statuses.add(said.status)
    if words:
        got = run(*said.words)
        check(f"{what}: rig {' '.join(said.words)}",
              (got.returncode, got.stdout, got.stderr) == (said.status, said.out.encode(), (said.notes + stopped).encode()),
              f"wanted {said.status}\n{said.out}{said.notes}{stopped}",
              f"got {got.returncode}\n{got.stdout.decode(errors='replace')}{got.stderr.decode(errors='replace')}")
    if in_json:
        got = run(said.words[0], "--json", *said.words[1:])
        check(f"{what}: rig {said.words[0]} --json {' '.join(said.words[1:])}",
              (got.returncode, parsed(got.stdout), got.stderr) == (said.status, said.json, stopped.encode()),
              f"wanted {said.status} {said.json}", f"got {got.returncode} {parsed(got.stdout)}", got.stderr.decode(errors="replace"))
    return said


def write(name, content):
    path = os.path.join(FOLDER, name)
    with open(path, "wb") as file:
        file.write(content if isinstance(content, bytes) else content.encode())
    return path


def expect_round_trip(kind, path, told, content, *table):
    """What show says goes through spell to the same bytes."""
    shown = run("show", kind, *told, path, *table)
    again = subprocess.run([RIG, "spell", "-", "-"], input=shown.stdout, capture_output=True, check=False)
    check(f"the {kind} {content.hex(' ')} is shown and spelled", (shown.returncode, again.returncode, again.stdout) == (60, 60, content),
          shown, again)


# ---- random tables, scripts and layouts

LENGTHS = [1, 2, 3, 4, 5, 6, 8, 10, 12, 20, 24, 30, 60]


def random_table(rng):
    """Returns the lines of a table's text, each a list of numbers and words."""
    p = rng.choice(LENGTHS[:9])
    lines = [[rng.choice([0, rng.randrange(p)]), p], []]
    for _ in range(rng.choice([0, 1, 1, 2, 2, 3, 5])):
        d = rng.choice([rng.randint(1, 9), rng.randint(1, 60)])
        lines.append([rng.choice([1, 1, 1, 2, 3]), rng.choice(LENGTHS), d, rng.randint(1, min(d, 6))])
    lines[1] = [len(lines) - 2]
    for _ in range(rng.choice([0, 0, 0, 1, 2, 8])):
        b = rng.choice(LENGTHS)
        lines.append(["server", rng.randint(1, b), b])
    return lines


def large_table(rng):
    """As random_table, with numbers above a thousand."""
    lines = [[rng.choice([0, 1]), rng.choice([1024, 4096])], []]
    for _ in range(rng.choice([1, 2])):
        d = rng.choice([999, 1000, 4096, 16384])
        lines.append([rng.choice([1, 64]), rng.choice([1024, 4096]), d, rng.choice([1, 31, 999, min(d, 4096)])])
    lines[1] = [len(lines) - 2]
    lines += [["server", rng.choice([1, 999, 1024]), 1024]] * rng.choice([0, 1])
    return lines


STRAY = ["sample", "servers", "server1", "serv", "SERVER", "x", "-3", "0x10", "1.5", "+1", ";", "ä", "サーバ", "4,096", "1,", ",",
         "12a", "1,000,000", "4398046511104", "99999999999999999999", "4398046511104,", "99999999999999x"]


def with_mistake(rng, lines):
    """Returns the lines with one thing wrong, mostly."""
    lines = [list(line) for line in lines]
    of_rows = [line for line in lines if line[0] != "server" and line]
    line, kind = rng.choice(lines), rng.randrange(8)
    if kind <= 2:
        numbers = [i for i, word in enumerate(line) if word != "server"]
        line[rng.choice(numbers)] = rng.choice([0, 65, 4096, 4097, 5000, 16384, 16385, LARGEST, END])
    elif kind == 3:
        del line[rng.randrange(len(line))]
    elif kind == 4:
        line.insert(rng.randint(0, len(line)), rng.choice([0, 1, 7, "server"]))
    elif kind == 5:
        line.insert(rng.randint(0, len(line)), rng.choice(STRAY))
    elif kind == 6 and len(lines) > 1 and lines[1]:
        lines[1] = [max(0, lines[1][0] + rng.choice([-1, 1, 2, 1000]))]
    else:
        del lines[rng.randrange(len(lines))]
    return lines if of_rows else [["server"]]


COMMENTS = ["", "", "", "#", " # a comment", "# 1 2 3 server", "# Prüfstand", "#日本語 4,096", "# \U0001F600\tx"]
SPACES = [" ", " ", "  ", "\t", " \t", "\v", "\f "]


def laid_out(rng, lines):
    """Writes lines as a text, in the plain layout or in an odd one."""
    layout = rng.choice(["plain", "plain", "odd", "odd", "one line", "each", "ends"])
    zeros = [0, 0, 9] if layout == "odd" else [0]
    words = [[str(word).zfill(rng.choice(zeros)) if isinstance(word, int) else word for word in line] for line in lines]
    end = rng.choice(["\r", "\r\n"]) if layout == "ends" else "\n"
    if layout == "one line":
        return " ".join(" ".join(line) for line in words)
    if layout == "each":
        return "\n".join("\n".join(line) for line in words)
    if layout != "odd":
        return "".join(" ".join(line) + end for line in words)
    text = rng.choice(["", "", "\ufeff"])
    for line in words:
        for _ in range(rng.choice([0, 0, 1])):
            text += rng.choice(COMMENTS + [" ", "\t"]) + rng.choice(["\n", "\r", "\r\n"])
        text += rng.choice(["", " ", "\t"]) + "".join(word + rng.choice(SPACES) for word in line) + rng.choice(COMMENTS)
        text += rng.choice(["\n", "\n", "\r", "\r\n"])
    return text + rng.choice(["", "# the end", " "])


def random_script(rng, table):
    """Returns the lines of a script for a table."""
    lines = []
    used = len(table.rows + table.servers)
    for _ in range(rng.choice([0, 1, 2, 5, 12, 20]) if used else 0):
        row = rng.randrange(used)
        lines.append([rng.choice([0, 0, 1, 3, rng.randint(0, 20)]), row, rng.randint(1, min(6, table.most_cost(row)))])
    if lines and rng.randrange(8) == 0:
        lines[rng.randrange(len(lines))][0] = rng.choice([1000, 4096, 1048576, END - 40])
    return lines


def script_with_mistake(rng, lines, table):
    lines = [list(line) for line in lines]
    line, kind = rng.choice(lines), rng.randrange(6)
    if kind == 0:
        line[1] = len(table.rows + table.servers) + rng.choice([0, 1, 2**32])
    elif kind == 1:
        line[2] = rng.choice([0, table.most_cost(line[1]) + 1, 2**41])
    elif kind == 2:
        line[0] = rng.choice([END, END + 1, LARGEST, END - 1])
    elif kind == 3:
        del line[rng.randrange(3)]
    elif kind == 4:
        line.insert(rng.randint(0, 3), rng.choice(STRAY + ["server", 5]))
    else:
        del lines[-1][2]
    return lines


def spelled_lines(lines):
    return b"".join(spelled(number) for line in lines for number in line if isinstance(number, int))


def table_bytes(lines):
    """Spells the lines of a table that has no mistake in its form."""
    servers = [line for line in lines if line[0] == "server"]
    return spelled_lines([line for line in lines if line[0] != "server"]) + spelled(len(servers)) + spelled_lines(servers)


def damaged(rng, data):
    """Changes a byte, takes one out or puts one in."""
    at = rng.randrange(len(data) + 1)
    return data[:at] + bytes(rng.choice([[], [0], [0x80], [0xFF], [0x80, 0], [rng.randrange(256)]])) + data[at + rng.choice([0, 1]):]


def try_tables(rng, count):
    for i in range(count):
        lines = large_table(rng) if i % 16 == 0 else random_table(rng)
        good = rng.random() < 0.4
        text = laid_out(rng, lines if good else with_mistake(rng, lines))
        path, told = write("table.txt", text), rng.choice([UNTOLD, TEXT])
        expect(f"the table {text!r}", verdict, path, told)
        if good or rng.randrange(4) == 0:
            try:
                content, _ = spell_text("table", text.encode())
            except Mistake:
                continue
            expect(f"the table {text!r}", show_table, path, told, words=rng.random() < 0.4)
            if content != b"":
                expect_round_trip("table", path, TEXT, content)
                path = write("table.bytes", content)
                expect_round_trip("table", path, BYTES, content)


def try_tables_of_bytes(rng, count):
    for _ in range(count):
        data = table_bytes(random_table(rng))
        for _ in range(rng.choice([0, 1, 1, 2])):
            data = damaged(rng, data)
        path = write("table.bytes", data)
        expect(f"the table {data.hex(' ')}", verdict, path, rng.choice([UNTOLD, BYTES]), words=rng.random() < 0.5)


def try_scripts(rng, count):
    log_path = os.path.join(FOLDER, "log")
    for i in range(count):
        lines = random_table(rng)
        table = Table(table_bytes(lines))
        told, table_told = rng.choice([UNTOLD, TEXT]), rng.choice([UNTOLD, TEXT, BYTES])
        table_path = write("table", table.data if table_told == BYTES else laid_out(rng, lines))
        releases = random_script(rng, table)
        good = not releases or rng.random() < 0.6
        text = laid_out(rng, releases if good else script_with_mistake(rng, releases, table))
        path = write("script.txt", text)
        log = rng.choice([None, log_path])
        if table_told == BYTES and told == UNTOLD:
            told = TEXT # A form that is told holds for the files after it.
        if os.path.exists(log_path):
            os.remove(log_path)
        said = expect(f"the script {text!r}", replay, table_path, table_told, path, told, log, words=i % 2 == 0)
        if log and said.status in (22, 23):
            with open(log, "rb") as file:
                check(f"the log of {text!r}", file.read() == said.log, said.log.hex(" "))
            played = Replay(table, spell_text("script", text.encode())[0])
            for beside in None, (table_path, path, table):
                if not beside or (table_told == told == UNTOLD):
                    expect(f"the log of {text!r}", show_log, log, played.log, beside, words=False)
        elif log:
            check(f"no log of {text!r}", not os.path.exists(log))
        try:
            content, _ = spell_text("script", text.encode())
        except Mistake:
            continue
        if rng.randrange(3) == 0:
            expect(f"the script {text!r}", show_script, path, TEXT, words=i % 3 == 0)
            if content:
                expect_round_trip("script", path, TEXT, content)
        expect(f"the script {text!r} on {table_path}", show_script, path, told, write("beside", laid_out(rng, lines)), TEXT,
               words=i % 3 == 0)
        if content:
            expect_round_trip("script", write("script.bytes", content), BYTES, content, write("beside.bytes", table.data))


def try_scripts_of_bytes(rng, count):
    for _ in range(count):
        table = Table(table_bytes(random_table(rng)))
        data = spelled_lines(random_script(rng, table))
        for _ in range(rng.choice([0, 1, 1, 2])):
            data = damaged(rng, data)
        paths = write("table.bytes", table.data), write("script.bytes", data)
        expect(f"the script {data.hex(' ')}", replay, paths[0], UNTOLD, paths[1], rng.choice([UNTOLD, BYTES]))


# ---- cases that were thought of

# Each of 64 rows may ask for 64 units, which is all that there is in 4096 ticks.
ROOMY = "0 1\n64\n" + 64 * "1 4096 4096 64\n"

TABLES = [
    "", " ", "#", "\n", "0", "0 1", "0 1\n", "0 1\n0", "0 1\r\n0\r\n", "0 1\r0\r", "0 1\n\r0\n\r", "0 1\n0\n0", "0 1\n0\n1 1 4",
    "0 1 0", "0 1 # ä日", "0 1\n# \U0001F600",
    "0 1\n0\nserver 1 4", "\ufeff0 1\n0\n", "\ufeff", "0 \ufeff1\n0\n", "0 1\n1\n1 4 4 2", "0 1\n1\n1 4 4 2\n0",
    "1 10\n1\n1 4\n", "1 10\n2\n1 4 4 2\n", "1\n1 4 4 2\n", "1 1 4 4 2", "2\n1 4 4 2\n1 6 6 3\n", "0 1\n2\n1 4 4 2\n",
    "0 1\n1\n1 4 4 2\n1 6 6 3\n", "0 1\n1\n1 4 4\n", "0 1\n1\n1 4 4 2 7\n", "0 1\n3\n1 4 4 2\n1 6 6\n1 8 8 1\n", "0 1 2 1 4 4 2",
    "0 1\n2 1 4 4 2\n1 6 6", "0 1\n1000\n1 4 4 2\n", "0 1\n0\nserver\n", "0 1\n0\nserver 1\n", "0 1\n0\nserver 1 4 5\n",
    "0 1\n0\nserver 1 server 4", "0 1\n0\nserver server 1 4\n", "server 1 4\n0 1\n0\n", "0 1\n0\n1\nserver 1 4\n",
    "0 1\n65\n" + 65 * "1 4 4 1\n", "0 1\n0\n" + 9 * "server 1 8\n", "0 1\n0\n9" + 9 * " 1 8", "0 0\n0\n", "0 4096\n0\n",
    "0 4097\n0\n", "4096 4096\n0\n", "5 5\n0", "4095 4096\n0\n", "9 0\n0", "0 1\n2\n1 2 6 1\n1 5000 6 1\n", "0 1\n1\n65 0 0 0\n",
    "0 1\n1\n1 4 4 5", "0 1\n1\n1 4 1 2", "0 1\n1\n1 4 4 5000", "0 1\n2\n1 4 4 5\n0 0 0 0\n", "0 1\n1\n1 4 16385 2\n",
    "0 1\n1\n64 4096 16384 4096\n", "0 1\n2\n1 1141 1 1\n1 919 1 1\n", "0 1\n2\n1 1023 1023 1\n1 1025 1025 1\n",
    "0 1\n0\nserver 0 4\n", "0 1\n0\nserver 5 4\n", "0 1\n0\nserver 4097 4097\n", "0 1\n0\nserver 1 4097",
    "0 1\n0\nserver 1 4\n# \u00e4\n\tserver 0 1", "0 1\n1\n1 1025 1 1\nserver 512 1024\n", "0 1\n0\nserver 4096 4096",
    "0 1\n0\nserver 1 1\nserver 1 4096", "1 4\n0\nserver 4 5\n", "# \u00e4\u65e5\U0001F600\n  0 1 # \u00e4\r\n\t0 x", "0 1\n0 \u00e4",
    "0 1\n1\n1 4,096 4 2\n", "0, 1\n0\n", "0 ,1\n0\n", "4398046511103 4398046511103\n4398046511103\n", "4398046511104",
    "0 1\n1\n1 1000 1000 999\n", "0 1\n1\n2 1000 1000 1000\n", "1 1000\n1\n1 1000 999 999\n", ROOMY, "0 1\n\n\n\n0\r\n\r\n",
    "0 1\n0\n\v\fserver\t1\v4", "00 01\n00\n", "0 1\n1 4 4 2\n", "0 1\n1 4 4 2\n1 6 6 3\n", "1 10\n1 4 4 2\nserver 1 4\n",
] + ["0 1\n0\n" + word for word in (23 * "x", 24 * "x", 25 * "x", 12 * "ä", 13 * "ä", 8 * "日", 9 * "日", "xx" + 8 * "日", "7" + 30 * "\U0001F600")]
NO_TEXTS = [b"", b"\0\1\0\0", b"\0\1\0\1\1\x80 ", b"\1\4\0\1\4\5", b"0 1\0", b"0 1\n0\n\xff", b"0 1\n0\n\x7f", b"0 1\n0\n#\xc2\x85",
            b"0 1\n0\n#\xed\xa0\x80", b"0 1\n0\n#\xe2\x82",
            b"# Pr\xfcfstand\n0 1\n0\n", b"# \xfc\n0 1\n", b" 0 1\n0\n#\xfc", b"0 1\0", b"0 1"]

ROW = "0 1\n1\n1 4 4 2\nserver 1 4\n"
SCRIPTS = [(ROW, text) for text in (
    "", "\n", "# no job", "0 0 2\n0 1 1\n1 1 2\n", "0 0 2 0 1 1 1 1 2", "0\n0\n2", "0 0\n2", "0 0", "0 0 2\n0 1\n", "0 0 2 5",
    "0 0 2\nserver 1 4\n", "0 2 1", "0 1 4096", "0 1 4097", "0 0 0", "0 0 3", "1099511627776 0 1", "1099511627777 0 1",
    "1099511627772 0 1", "1099511627773 0 1", "1099511627776 9 9", "1099511627773 1 1", "1099511627772 1 1", "5 0 2\r\n# \u00e4\r0 0 x",
    "\ufeff0 0 2", "999 0 1\n1 0 1\n3096 0 1\n1044480 0 1\n", "0,0 2", "4398046511103 0 1\n4398046511103 0 1",
    "1099511627771 0 1\n0 0 1\n", 256 * "0 0 2\n", 257 * "0 0 2\n", 1001 * "1000 0 2\n", 1000 * "1 " + "1")]
SCRIPTS += [("0 1\n0\n", "0 0 1"), ("0 1\n0\n", ""), ("0 1\n1\n1 4 4 2", 3 * "0 0 2\n"), ("1 2\n1\n1 4 2 2", "0 0 2\n0 0 1\n"),
            ("3 4\n1\n1 4 4 1\n", "0 0 1\n1 0 1\n"), ("0 1\n2\n1 2 2 2\n1 2 2 2", 30 * "0 0 2\n0 1 2\n0 0 2\n0 1 2\n"),
            ("0 1\n1\n1 4 4 2\nserver 1 1", "0 1 4096\n0 0 2\n0 1 1000"), ("0 1\n1\n1 4096 4096 1", "0 0 1\n5000 0 1\n")]
SCRIPTS += [("0 0\n0\n", "0 0 1"), ("0 1\n2\n", "0 0 1"), ("0 0\n0\n", "0 0 x"), ("0 1\n1\n1 4 4 5\nserver 1 4", "0 0 1\n0 1 1\n0 2 1\n")]


def try_cases():
    for i, text in enumerate(TABLES):
        for told in UNTOLD, TEXT:
            expect(f"the table {text!r}", verdict, write("table.txt", text), told, in_json=told == TEXT or i % 4 == 0)
    for data, told in itertools.product(NO_TEXTS, (UNTOLD, BYTES)):
        expect(f"the table {data!r}", verdict, write("table.bytes", data), told)
    # But for its server count, which is a tab, the last of these would be a table of ten rows.
    for text in "0 1\n0\n", "9 0 0 0", "# 1", "\t \n" + 10 * " 11 " + "\t":
        expect(f"a text as bytes: {text!r}", verdict, write("table.txt", text), BYTES)
        expect(f"a script as bytes: {text!r}", replay, write("row.txt", ROW), TEXT, write("a.txt", text), BYTES)
    for table, text in SCRIPTS:
        paths = write("table.txt", table), write("script.txt", text)
        expect(f"the script {text!r}", replay, paths[0], UNTOLD, paths[1], UNTOLD)
        expect(f"the script {text!r}", show_script, paths[1], UNTOLD, paths[0])
        expect(f"the script {text!r}", show_script, paths[1], UNTOLD, words=False)


def try_both_forms():
    """Scripts that are texts and would be accepted as bytes too, with what each form says, and scripts that are one of them."""
    table, asked = write("roomy.txt", ROOMY), []
    for text in ("0 0 1\n", "\n\n\n", "0 99 1", "0 0 65", ":::", "# a", "0 0 1 \n", "0 99 1\n", "0 0 x ", "0 0 xx", "#0#", "\t\t\t", "x",
                 "9 9 9 9 9 9 "):
        path = write("both.script", text)
        for told in UNTOLD, TEXT, BYTES:
            said = expect(f"the script {text!r}", replay, table, UNTOLD, path, told)
            asked += [text] * (said.status == 64)
            check(f"{told} tells the form of {text!r}", said.status != 64 or told == UNTOLD)
            expect(f"the script {text!r}", replay, table, TEXT, path, told)
            if told != BYTES or could_be_releases(text.encode()):
                expect(f"the script {text!r}", show_script, path, told)
                expect(f"the script {text!r}", show_script, path, told, table, TEXT)
    check("these ask for the form", asked == ["0 0 1\n", "\n\n\n", "0 99 1", "0 0 65", ":::", "#0#", "\t\t\t", "9 9 9 9 9 9 "], asked)


def try_long_texts():
    """A character may stand across the end of what is read at once, and a long text is read to its end."""
    for char, shift, size in itertools.product(["ä", "日", "\U0001F600"], range(4), [4096, 8192]):
        text = "0 1\n2\n1 4 4 2\n1 6 6 3\n#" + "x" * shift + char * (size // len(char.encode()) + 9) + "\n"
        expect(f"a long comment of {char}", verdict, write("table.txt", text), UNTOLD, in_json=shift == 0)
    data = (20 * "# x\n" + "0 1\n0\n#" + 8192 * "x").encode()
    for at in 4094, 4095, 4096, 8191:
        for byte in b"\0", b"\x80", b"\xe2", b"\xff":
            expect(f"{byte.hex()} at byte {at}", verdict, write("table.txt", data[:at] + byte + data[at + 1:]), UNTOLD, in_json=False)
    text = 3000 * "# a comment\r\n" + 200 * "8 0 1 # ä\n" + "0 0 3"
    expect("a long script", replay, write("table.txt", ROW), TEXT, write("script.txt", text), UNTOLD)


def name_in_json(name):
    """Returns a name of a file as it stands in JSON: bytes that are no text, and control characters beyond ASCII, as \\xNN."""
    shown = ""
    for char in name.decode(errors="surrogateescape"):
        is_odd = "\x80" <= char <= "\x9f" or "\udc80" <= char <= "\udcff"
        shown += "".join(f"\\x{byte:02X}" for byte in char.encode(errors="surrogateescape")) if is_odd else char
    return shown


def try_names():
    for name in (b'a "quoted" name', b"a\\b", b"a\nb\tc\x01\x1b\x7f", "Pr\u00fcfstand \u65e5\u672c \U0001F600".encode(), b"\xff\xfe",
                 b"a\xc3", b"\xed\xa0\x80", b"\xc2\x85", b"'$(x)'&;", b"\xf0\x9f\x98", b"-odd", b"--"):
        path = os.path.join(FOLDER.encode(), name)
        with open(path, "wb") as file:
            file.write(b"0 1\n0\n")
        wanted = {"file": os.path.join(FOLDER, name_in_json(name)), "form": "text"}
        for words in ["verdict", "--json", path], ["show", "table", "--json", path], ["explain", "--json", "--", path]:
            got = parsed(run(*words).stdout)
            check(f"the name {name!r}", isinstance(got, dict) and got["table"] == wanted, got)
        os.remove(path)
        for words in ["verdict", path], ["replay", path, path], ["show", "log", path], ["show", "script", path], ["explain", path]:
            expect_stop(f"no file {name!r}", 66, "can't read *: No such file or directory", *words)


def expect_stop(what, status, pattern, *words, program=None, **more):
    """With --json, a command that stops says why as one JSON object, and as words on standard error. A star stands for anything."""
    words = [program or RIG, *words] if "--json" in words else [program or RIG, *words[:1], "--json", *words[1:]]
    got = subprocess.run(words, capture_output=True, check=False, **more)
    said = parsed(got.stdout)
    wanted = {"status": status, "answer": "error", "message": isinstance(said, dict) and said.get("message")}
    is_like = re.fullmatch(".*".join(re.escape(part) for part in pattern.split("*")), str(wanted["message"]), re.DOTALL)
    check(f"{what}: {words}", got.returncode == status and said == wanted and is_like and
          got.stderr == f"rig: {said['message']}\n".encode(), f"wanted {status} {pattern}", got)


def try_stops():
    """Each kind of stop, in JSON."""
    text, data = write("a.txt", ROW), write("a.bytes", b"\0\1\0\0")
    releases, both = write("r.txt", "0 0 1 \n"), write("both", "0 0 1\n")
    log, roomy = os.path.join(FOLDER, "a.log"), write("roomy.txt", ROOMY)
    run("replay", text, releases, log)
    no_option = "there is no option '--nonsense'; rig --help lists the options"
    for status, pattern, words in [
            (64, "verdict is used in another way:\nrig verdict *", ["verdict"]), (64, "verdict is used *", ["verdict", text, text]),
            (64, "replay is used in another way:\n*", ["replay", text]), (64, "there is no command 'judge'; *", ["judge", text]),
            (64, "no command is given; rig --help lists the commands", ["--json"]),
            (64, no_option, ["--json", "--nonsense", "verdict", text]),
            (64, no_option, ["verdict", text, "--nonsense", "--json"]), (64, "spell has no option --json: *", ["spell", text, log]),
            (64, "only explain has the option --script", ["verdict", "--script", log, text]),
            (64, "the option --script needs the name of a file", ["explain", text, "--script"]),
            (64, "--text stands after the last file: *", ["verdict", text, "--text"]),
            (64, "show takes a table, a script or a log, and not 'what'", ["show", "what", text]),
            (64, "show is used in another way:\n*", ["show", "table"]),
            (64, "the option --version stands alone", ["--version", "--json", "x"]),
            (64, "standard input can't be both the table and the script", ["replay", "-", "-"]),
            (64, "standard input can't be both *", ["show", "script", "-", "-"]),
            (64, "* is a file that is read here: it is not written over", ["replay", text, releases, releases]),
            (64, f"{both} could be a text, and would be accepted as bytes too: *", ["replay", roomy, both]),
            (65, f"{text}:4:1: a script has no servers: *", ["replay", text, text]),
            (65, f"{data} is no text: leave out --text, or say --bytes", ["verdict", "--text", data]),
            (65, f"{text} is no table: *", ["show", "table", "--bytes", text]), (65, f"{data} is no log: *", ["show", "log", data]),
            (65, f"{data} is no script: *", ["show", "script", data]),
            (65, "*: rig show table says where *", ["show", "script", data, log]),
            (65, "/dev/null is cut off at byte 0: *", ["show", "log", "/dev/null", text, releases]),
            (65, f"{log} is not the log of this replay: *", ["show", "log", log, roomy, "--text", both]),
            (65, "*is no table: it goes wrong at byte 0: *", ["show", "table", "/dev/null"]),
            (65, "* can't be compared with a replay that is refused", ["show", "log", log, data, "--text", releases]),
            (66, f"can't read {FOLDER}: Is a directory", ["verdict", FOLDER]),
            (66, "can't read *", ["explain", os.path.join(FOLDER, "none")]),
            (74, "can't write *", ["replay", text, releases, "/dev/full"]), (74, "can't write *", ["replay", text, releases, FOLDER])]:
        expect_stop("a stop", status, pattern, *words)
    expect_stop("no answer", 70, "the library's verdict says 276, which is no answer", "verdict", text, program=TAMPERED,
                env={"TAMPER": "status", "TAMPER_STATUS": "276"})
    expect_stop("no memory", 71, "there is no memory for *", "show", "log", "/dev/zero",
                preexec_fn=lambda: resource.setrlimit(resource.RLIMIT_AS, (2**26, 2**26)))


def main():
    try_cases()
    try_both_forms()
    try_long_texts()
    try_names()
    try_stops()
    try_tables(random.Random(1), 260)
    try_tables_of_bytes(random.Random(2), 120)
    try_scripts(random.Random(3), 200)
    try_scripts_of_bytes(random.Random(4), 120)
    wanted = {*range(1, 11), 14, 16, *range(20, 24), 60, 61, 64, 65}
    check("every status is seen", statuses == wanted, statuses ^ wanted)
    print(f"{passed} passed, {failed} failed")
    return failed > 0


sys.exit(main())
