"""Asks random questions and audits of a clinic, and compares each reply and time with SQLite's.

tools/random_clinic.py makes the clinic, and tools/random_questions.py the questions and audits. The
same seed makes the same ones.

Answers: SQLite answers each question over views that also have the rule of each denied cell, in the
order of rows that docs/LANGUAGE.md defines. hippo's reply must have the same lines: the same rows,
in the same order, with the same cells, NULL and DENIED(rule). SQLite's timed answer is compared as
a bag, with NULL for a denied cell. It is not compared if the question has DISTINCT or GROUP BY and
a cell is denied: two cells that different rules deny are different in hippo, and both NULL here.

Flags: a flag names the first row of the patient without which the answer is a different bag
(docs/AUDITING.md). SQLite finds the patient's rows in the combinations that the condition accepts.
A plain select needs each of them. A question with DISTINCT or GROUP BY is asked again without each.

Times are processor times, in user and system mode:
- hippo gets one line at a time through a pipe. The time of a line is how far hippo's processor
  clock advances until hippo waits for the next line. It includes reading the text, the entry in the
  history, the answer, writing the reply, and the index if hippo makes one for this line. It is the
  least of three processes that get the same lines.
- SQLite is called in this process, from Python, in memory. The time is that of executing a prepared
  statement and fetching its rows as tuples. It is the least of two calls. The first call, which
  also prepares the statement, is shown for all questions together. Nothing is logged. SQLite has
  the statistics of ANALYZE, and no indexes but the keys.
- Two audits of a patient who has no rows show what reading the versions of rows and the questions
  costs. The other audits show how much longer they take.

The default run takes about a minute. With 17,500 people, 400,000 lab values and 34,000 events, 20
questions and 4 audits take about two minutes, most of it for the audits.

Build first: cd crates/hippo && rt run -- run < stdin
usage: tools/beside-sqlite --random [--program FILE] [--seed S] [--people N] [--labs N]
                                    [--events N] [--questions N] [--audits N]
"""
import argparse
import difflib
import pathlib
import random
import re
import subprocess
import sys
import time

from common import HIPPO, require
from random_clinic import KEYS, MOMENT, Clinic, literal
from random_questions import Question, made_audits

PROCESSES = 3
CALLS = 2
WORST = 12
# So many lines are written before their replies are read: fewer than fill a pipe.
PORTION = 1000


# ---------------------------------------------------------------- hippo


class Hippo:
    """A process of `hippo run` that gets one line at a time."""

    def __init__(self, program):
        self.process = subprocess.Popen([program, "run"], stdin=subprocess.PIPE,
                                        stdout=subprocess.PIPE)

    def clock(self):
        """The nanoseconds of processor so far, once the process waits for input.

        The number of the clock is that of clock_getcpuclockid in Linux.
        """
        while self.state() != "S":
            time.sleep(0)
        return time.clock_gettime_ns(~self.process.pid << 3 | 2)

    def state(self):
        text = pathlib.Path(f"/proc/{self.process.pid}/stat").read_text()
        return text.rpartition(")")[2].split()[0]

    def write(self, lines):
        self.process.stdin.write("".join(line + "\n" for line in lines).encode())
        self.process.stdin.flush()

    def read_line(self):
        line = self.process.stdout.readline()
        if not line:
            sys.exit(f"hippo ended with status {self.process.wait()}")
        return line.decode().rstrip("\n")

    def tell(self, lines):
        """Writes lines with one line of reply each: the replies."""
        replies = []
        for place in range(0, len(lines), PORTION):
            portion = lines[place:place + PORTION]
            self.write(portion)
            replies += [self.read_line() for _ in portion]
        return replies

    def ask(self, line):
        """Writes a question or an audit: its reply, and the nanoseconds of processor."""
        before, reply = self.clock(), []
        self.write([line])
        while not reply or reply[-1].split(" ", 2)[1] in ("row", "flag"):
            reply.append(self.read_line())
        return reply, self.clock() - before

    def enter(self, clinic):
        """Enters the clinic, and logs in."""
        changes = [f"0 {change}" for change in clinic.changes]
        expected = [f"0 ok {number + 1}" for number in range(len(changes))]
        lines = [f"at {MOMENT}", *changes, *clinic.logins()]
        told = self.tell(lines)
        wanted = ["- ok", *expected, *(f"{purpose.session} ok" for purpose in clinic.purposes)]
        for line, reply, want in zip(lines, told, wanted):
            if reply != want:
                sys.exit(f"{line}\nreply: {reply}\nnot: {want}")

    def end(self):
        self.process.stdin.close()
        self.process.wait()


def asked_of_hippo(program, clinic, lines):
    """The reply of each line, and the least nanoseconds of some processes."""
    replies, least = None, [float("inf")] * len(lines)
    for _ in range(PROCESSES):
        hippo = Hippo(program)
        hippo.enter(clinic)
        found = [hippo.ask(line) for line in lines]
        hippo.end()
        told = [reply for reply, _ in found]
        if replies not in (None, told):
            sys.exit("two processes of hippo reply to the same lines differently")
        replies, least = told, [min(old, new) for old, (_, new) in zip(least, found)]
    return replies, least


# ---------------------------------------------------------------- SQLite


class Peer:
    """The clinic in SQLite."""

    def __init__(self, clinic):
        self.connection, self.clinic = clinic.database(), clinic

    def rows(self, text):
        return self.connection.execute(text).fetchall()

    def timed(self, question):
        """Its answer to a question, and the nanoseconds of each call."""
        text, times = question.timed(), []
        for _ in range(CALLS):
            before = time.thread_time_ns()
            found = self.rows(text)
            times.append(time.thread_time_ns() - before)
        return found, times

    def reply(self, question):
        """The reply that hippo has to give."""
        session = question.purpose.session
        rows = [row_line(session, map(cell, row[::2], row[1::2]))
                for row in self.rows(question.checked())]
        return [*rows, f"{session} end {len(rows)}"]

    def needs(self, question, audit, key):
        """Whether a question's answer is a different bag without a row that it combines."""
        if question.form == "plain":
            return True
        without = self.rows(question.checked(f" AND NOT ({audit.with_key(key)})"))
        return in_order(without) != in_order(self.rows(question.checked()))

    def is_seen(self, question, audit, key):
        view = f"{audit.table}_{question.purpose.name}_ruled AS {audit.table}"
        text = f"SELECT {audit.column}_rule IS NULL FROM {view} WHERE {audit.with_key(key)}"
        return self.rows(text) == [(1,)]

    def first_needed(self, question, audit):
        """The key of the first row that the flag of a question names, if there is a flag."""
        if (audit.table, audit.column) not in question.named():
            return None
        keys = ", ".join(f"{audit.table}.{column}" for column in KEYS[audit.table])
        text = f"SELECT DISTINCT {keys} {question.ruled(audit.with_patient())} ORDER BY {keys}"
        for key in self.rows(text):
            is_seen = not audit.is_shown or self.is_seen(question, audit, key)
            if is_seen and self.needs(question, audit, key):
                return key
        return None

    def flags(self, questions, audit):
        """The reply that hippo has to give to an audit."""
        first, flags = len(self.clinic.changes) + 1, []
        for number, question in enumerate(questions):
            key = self.first_needed(question, audit)
            if key is not None:
                asker = question.purpose
                row = f"{audit.table}({', '.join(map(str, key))})"
                who = f"{asker.user} {asker.name} {asker.recipient}"
                flags.append(f"0 flag {first + number} {MOMENT} {who} {row}")
        return [*flags, f"0 end {len(flags)}"]


def cell(value, rule=None):
    """A cell as hippo writes it."""
    return literal(value) if rule is None else f"DENIED({rule})"


def row_line(session, cells):
    return f"{session} row {', '.join(cells)}"


def in_order(rows):
    """A bag as a list: its rows in an order that NULL does not hinder."""
    return sorted(rows, key=repr)


# ---------------------------------------------------------------- comparing


def require_equal(line, reply, expected):
    """Ends the tool where hippo's reply is not SQLite's."""
    if reply != expected:
        told = difflib.unified_diff(expected, reply, "SQLite", "hippo", n=0, lineterm="")
        sys.exit("\n".join(["the replies differ", line, *told]))


def require_same_bag(question, reply, found):
    """Ends the tool where the timed answer of SQLite has other rows than hippo's reply."""
    text = "\n".join(reply[:-1])
    if "DENIED(" in text and question.form != "plain":
        return
    rows = sorted(re.sub(r"DENIED\(\d+\)", "NULL", text).splitlines())
    expected = sorted(row_line(question.purpose.session, map(cell, row)) for row in found)
    require_equal(question.line(), rows, expected)


def compared_questions(peer, questions, replies):
    """The nanoseconds of SQLite's calls for each question; the answers must be equal."""
    for question, reply in zip(questions, replies):
        found, times = peer.timed(question)
        require_equal(question.line(), reply, peer.reply(question))
        require_same_bag(question, reply, found)
        yield times


# ---------------------------------------------------------------- telling


def milliseconds(nanoseconds):
    return f"{nanoseconds / 1e6:.3f} ms"


def ratio(pairs):
    """How much longer hippo takes for some questions together."""
    return f"{sum(own for own, _ in pairs) / sum(other for _, other in pairs):.2f}"


def at_share(pairs, percent):
    """The ratio at a share of the questions, in the order of their ratios."""
    ordered = sorted(own / other for own, other in pairs)
    return f"{ordered[len(ordered) * percent // 100]:.2f}"


def tell_ratios(pairs):
    shown = ", ".join(at_share(pairs, percent) for percent in (10, 50, 90, 99))
    print(f"hippo / SQLite at 10, 50, 90 and 99 per cent of the questions: {shown}")
    own, other = (milliseconds(sum(times)) for times in zip(*pairs))
    print(f"all questions: hippo {own}, SQLite {other}, ratio {ratio(pairs)}")


def tell_kinds(questions, pairs):
    """The ratios by the number of tables and by the table whose pid is bounded."""
    kinds = {}
    for question, pair in zip(questions, pairs):
        place = "the first" if question.bounded == question.tables[0] else "a later one"
        kinds.setdefault((len(question.tables), place), []).append(pair)
    print("| Tables | Bounded | Questions | Ratio of half | Ratio of all |\n|---|---|---|---|---|")
    for (count, place), found in sorted(kinds.items()):
        ratios = f"{at_share(found, 50)} | {ratio(found)}"
        print(f"| {count} | {place} | {len(found)} | {ratios} |")


def tell_worst(questions, replies, pairs):
    print("the worst questions:")
    worst = sorted(range(len(pairs)), key=lambda place: -pairs[place][0] / pairs[place][1])
    for place in worst[:WORST]:
        pair, question = pairs[place], questions[place]
        times = f"hippo {milliseconds(pair[0])}, SQLite {milliseconds(pair[1])}"
        about = f"{question.purpose.name}, {len(replies[place]) - 1} rows"
        print(f"  {ratio([pair])}: {times}, {about}: {question.line()}")


def tell_questions(questions, replies, times, peer_times):
    rows = sum(len(reply) - 1 for reply in replies)
    denied = sum(line.count("DENIED(") for reply in replies for line in reply)
    empty = sum(len(reply) == 1 for reply in replies)
    print(f"{len(questions)} questions, all answers equal: {rows} rows, {denied} denied cells, "
          f"{empty} empty answers")
    pairs = [(own, min(calls)) for own, calls in zip(times, peer_times)]
    tell_ratios(pairs)
    print(f"SQLite with preparing: {milliseconds(sum(calls[0] for calls in peer_times))}")
    tell_kinds(questions, pairs)
    tell_worst(questions, replies, pairs)


def tell_audits(audits, replies, times):
    """What audits take beyond that of nobody over the same table."""
    flags = sum(len(reply) - 1 for reply in replies)
    print(f"{len(audits)} audits, all flags equal: {flags} flags")
    reading = {}
    for audit, reply, nanoseconds in zip(audits, replies, times):
        if audit.table not in reading:
            reading[audit.table] = nanoseconds
            print(f"  {milliseconds(nanoseconds)} to read: {audit.expression()}")
        else:
            more = milliseconds(nanoseconds - reading[audit.table])
            print(f"  {more} more, {len(reply) - 1} flags: {audit.expression()}")


# ---------------------------------------------------------------- the tool itself


def asked(words):
    parser = argparse.ArgumentParser(prog="tools/beside-sqlite --random", description=__doc__,
                                     formatter_class=argparse.RawDescriptionHelpFormatter)
    parser.add_argument("--program", type=pathlib.Path, default=HIPPO)
    parser.add_argument("--seed", type=int, default=1)
    parser.add_argument("--people", type=int, default=2000)
    parser.add_argument("--labs", type=int, default=3000)
    parser.add_argument("--events", type=int, default=4000)
    parser.add_argument("--questions", type=int, default=1000)
    parser.add_argument("--audits", type=int, default=20)
    return parser.parse_args(words)


def main(words):
    given = asked(words)
    require(given.program)
    dice = random.Random(given.seed)
    clinic = Clinic(dice, given.people, given.labs, given.events)
    questions = [Question(dice, dice.choice(clinic.purposes), given.people)
                 for _ in range(given.questions)]
    audits = made_audits(dice, clinic, given.audits)
    print(f"seed {given.seed}: {given.people} people, {given.labs} lab values, "
          f"{given.events} events, {len(clinic.choices)} choices", flush=True)
    lines = [call.line() for call in (*questions, *audits)]
    replies, times = asked_of_hippo(given.program, clinic, lines)
    peer, count = Peer(clinic), len(questions)
    peer_times = list(compared_questions(peer, questions, replies))
    tell_questions(questions, replies[:count], times[:count], peer_times)
    for audit, reply in zip(audits, replies[count:]):
        require_equal(audit.line(), reply, peer.flags(questions, audit))
    tell_audits(audits, replies[count:], times[count:])
