"""Lines of hippo with their replies: a working day in a clinic, and the small clinic of most cases.

A line is followed by ` => ` and its reply, whose lines are separated by ` / `. A line with a star
adds an entry to the history.
"""

DAY = """
at 2024-03-04T07:00:00Z => - ok
* 0 CREATE TABLE patient (pid INTEGER, name TEXT, phone TEXT, zip INTEGER, PRIMARY KEY (pid), \
SUBJECT pid) => 0 ok 1
* 0 CREATE TABLE visit (vno INTEGER, pid INTEGER, ward TEXT, seen DATE, PRIMARY KEY (vno), \
SUBJECT pid) => 0 ok 2
* 0 CREATE PURPOSE treatment => 0 ok 3
* 0 CREATE PURPOSE billing => 0 ok 4
* 0 CREATE RECIPIENT nurse => 0 ok 5
* 0 CREATE RECIPIENT clerk => 0 ok 6
* 0 CREATE ITEM contact OPT OUT => 0 ok 7
* 0 AUTHORIZE ann FOR treatment, nurse => 0 ok 8
* 0 AUTHORIZE carl FOR billing, clerk => 0 ok 9
* 0 ALLOW treatment TO nurse ON patient (pid, name, zip) => 0 ok 10
* 0 ALLOW treatment TO nurse ON patient (phone) WITH contact => 0 ok 11
* 0 ALLOW treatment TO nurse ON visit (vno, pid, ward, seen) => 0 ok 12
* 0 ALLOW billing TO clerk ON patient (pid, zip) => 0 ok 13
* 0 INSERT INTO patient VALUES (1, 'Ada', '555-1', 95120) => 0 ok 14
* 0 INSERT INTO patient VALUES (2, 'Bob', '555-2', 90210) => 0 ok 15
* 0 INSERT INTO visit VALUES (10, 1, 'north', DATE '2024-03-01') => 0 ok 16
* 0 INSERT INTO visit VALUES (11, 2, 'south', DATE '2024-03-02') => 0 ok 17
* 0 INSERT INTO visit VALUES (12, 1, 'south', NULL) => 0 ok 18
* 0 CHOICE 2 ON contact IS NO => 0 ok 19
at 2024-03-04T09:30:00Z => - ok
1 login ann treatment nurse => 1 ok
2 login carl billing clerk => 2 ok
* 1 SELECT name, phone, ward, seen FROM patient JOIN visit ON patient.pid = visit.pid \
WHERE ward = 'south' => 1 row 'Ada', '555-1', 'south', NULL \
/ 1 row 'Bob', DENIED(11), 'south', 2024-03-02 / 1 end 2
* 2 SELECT name, zip FROM patient => 2 row DENIED(0), 95120 / 2 row DENIED(0), 90210 / 2 end 2
* 0 UPDATE patient SET phone = '555-9' WHERE pid = 2 => 0 ok 22
* 2 SELECT ward FROM visit => 2 end 0
1 logout => 1 ok
2 logout => 2 ok
at 2024-03-05T08:00:00Z => - ok
0 DURING '2024-03-04T00:00:00Z' TO '2024-03-04T23:59:59Z' AUDIT name FROM patient, visit \
WHERE patient.pid = visit.pid AND ward = 'south' \
=> 0 flag 20 2024-03-04T09:30:00Z ann treatment nurse patient(1) visit(12) \
/ 0 flag 21 2024-03-04T09:30:00Z carl billing clerk patient(1) / 0 end 2
0 EXPLAIN 20 => 0 denied patient(2) phone 11 / 0 end 1
"""

CLINIC = """
at 2024-01-02T08:00:00Z => - ok
* 0 CREATE TABLE patient (pid INTEGER, name TEXT, phone TEXT, zip INTEGER, PRIMARY KEY (pid), \
SUBJECT pid) => 0 ok 1
* 0 CREATE PURPOSE treatment => 0 ok 2
* 0 CREATE RECIPIENT nurse => 0 ok 3
* 0 AUTHORIZE ann FOR treatment, nurse => 0 ok 4
* 0 ALLOW treatment TO nurse ON patient (pid, name) => 0 ok 5
* 0 INSERT INTO patient VALUES (1, 'Ada', '555-1', 95120) => 0 ok 6
* 0 INSERT INTO patient VALUES (2, 'Bob', '555-2', NULL) => 0 ok 7
1 login ann treatment nurse => 1 ok
"""


class Script:
    """Lines, their replies (as far as the text has them), and whether each line adds an entry."""

    def __init__(self, text):
        rows = [row.partition(" => ") for row in text.strip().split("\n")]
        self.keeps = [line.startswith("* ") for line, _, _ in rows]
        self.lines = [line.removeprefix("* ") for line, _, _ in rows]
        self.replies = [reply.split(" / ") for _, _, reply in rows]


def outcomes(output):
    """What each call of hippo_try_runs wrote, and its status."""
    written = []
    for line in output.split("\n")[:-1]:
        if line.startswith("status "):
            yield written, int(line.removeprefix("status "))
            written = []
        else:
            written.append(line)


def replied(replies, written):
    """How many lines have been replied; None where other lines were written than their replies."""
    for count in range(len(replies) + 1):
        if [line for reply in replies[:count] for line in reply] == written:
            return count
    return None
