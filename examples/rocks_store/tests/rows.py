"""Small histories, and what the checker has to find in each: nothing more and nothing less.

A history begins with its name. In brackets stands whether real time counts, and below which value
all were appended before the record begins. Behind the arrow stands what is to be found.

A line is a transaction, as `2@10-20: x=1,2 x+3`: client 2, from 10 to 20, what it did. Without a
client it has one of its own, and without times it goes on at the same time as all others. Before
the colon `!` says that it aborted, `?` that its outcome is unknown, `~` that a kill left it open.
A line `--` is a kill: the next run begins behind it.

    x=1,2  x=   it read x as [1, 2], as []       x+3   it appended 3 to x       x-   it deleted x
    a~d=b:1,2;c:3   it scanned [a, d) and found b and c, and nothing else
"""
import json
import re

HEAD = re.compile(r"(.*?)(?: \[(.*)\])? -> (.*)")
SINCE = re.compile(r"since (\d+)")
TRANSACTION = re.compile(r"(\d*)(?:@(\d+)-(\d+))?([!?~]?): *(.*)")
ENDS = {"!": "aborted", "?": "unknown", "": "committed"}


def values(text):
    return [int(value) for value in text.split(",") if value]


def call(word):
    """Returns a call as a client records it."""
    if "~" in word:
        span, _, found = word.partition("=")
        present = [it.split(":") for it in found.split(";") if it]
        return ["scan", *span.split("~"), [[key, values(text)] for key, text in present]]
    if word.endswith("-"):
        return ["delete", word[:-1]]
    if "+" in word:
        key, _, value = word.partition("+")
        return ["append", key, int(value)]
    key, _, text = word.partition("=")
    return ["read", key, values(text)]


def intended(op):
    return op[:3] if op[0] == "scan" else op[:2] if op[0] == "read" else op


def runs(text):
    """Returns the runs of a history as clients record them."""
    for number, part in enumerate(text.strip().split("--"), 1):
        clients = {}
        for at, line in enumerate(part.strip().splitlines(), 1):
            client, begin, end, mark, words = TRANSACTION.fullmatch(line.strip()).groups()
            ops = [call(word) for word in words.split()]
            head = {"client": int(client or 100 * number + at), "txn": at}
            start = {"event": "begin", "at": int(begin or 0), "intends": list(map(intended, ops))}
            lines = clients.setdefault(head["client"], [])
            lines.append(json.dumps({**head, **start}) + "\n")
            if mark != "~":
                rest = {"event": "end", "at": int(end or 1000), "outcome": ENDS[mark], "ops": ops}
                lines.append(json.dumps({**head, **rest}) + "\n")
        yield str(number), sorted(clients.items())


def rows():
    """Returns of each history: its name, whether real time counts, since which value it is the
    record, what is to be found, and its lines."""
    for block in HISTORIES.strip().split("\n\n"):
        head, _, text = block.partition("\n")
        name, how, found = HEAD.fullmatch(head).groups()
        since = SINCE.search(how or "")
        wanted = [] if found == "nothing" else found.split("; ")
        yield name, "in real time" in (how or ""), since and int(since[1]), wanted, text


HISTORIES = """
nothing [in real time] -> nothing
    1@0-1:

one after the other [in real time] -> nothing
    1@0-1: x= x+1
    2@2-3: x=1 x+2
    1@4-5: x=1,2

reads at one time see what they like [in real time] -> nothing
    : x+1
    : x=
    : x=1

own writes are read [in real time] -> nothing
    : x= x+1 x=1 y+5 y=5 x- x= x+2 x=2 a~z=x:2;y:5

two appends of one transaction [in real time] -> nothing
    1@0-1: x+1 x+2
    2@2-3: x=1,2

a list that was deleted begins anew [in real time] -> nothing
    1@0-1: x= x+1
    2@2-3: x=1 x-
    3@4-5: x=
    4@6-7: x+2
    5@8-9: x=2

a delete that did not read [in real time] -> nothing
    1@0-1: x+1
    2@2-3: x-
    3@4-5: x=
    4@6-7: x+2 x-
    5@8-9: x=

an aborted transaction may read anything [in real time] -> nothing
    1@0-1: x+1
    2@2-3!: x= y+2 y=7
    3@4-5: x=1 y=

an unknown outcome may have been a commit, and may not [in real time] -> nothing
    1@0-1?: x+1 y+3
    2@0-1~: x+2
    3@4-5: x=1 y=3
    4@4-5?: x-
    5@6-7: x=

what a kill left open is there or not [in real time] -> nothing
    1@0-1: x+1
    2@2-3~: x+2
    3@2-3~: x+3
    4@2-3~: y+4
    --
    1@10-11: x=1,3 y=4
    2@12-13: x=1,3 x+5

a delete that a kill left open may have come late [in real time] -> nothing
    1@0-5~: x-
    2@0-1: x+1
    --
    3@10-11: x=

a stale read is serializable -> nothing
    1@0-1: x+1
    2@2-3: x=
    3@4-5: x=1

a stale read is not in the order of real time [in real time] -> G-single-realtime: stale read
    1@0-1: x+1
    2@2-3: x=
    3@4-5: x=1

a stale read of a part [in real time] -> G-single-realtime: stale read
    1@0-1: x+1
    2@2-3: x=1 x+2
    3@4-5: x=1
    4@6-7: x=1,2

a client does not see its own commit -> G-single-client: stale read
    1@0-1: x+1
    1@2-3: x=
    2@2-3: x=1

a client's reads go back -> G-single-client
    : x+1
    1@2-3: x=1
    1@4-5: x=

writes in two orders -> G0
    : x+1 y+1001
    : x+2 y+1002
    : x=1,2 y=1002,1001

writes between two writes -> G0
    : x+1 x+3
    : x+2
    : x=1,2,3

an aborted append is read -> G1a
    !: x+1
    : x=1

an aborted append is appended to -> G1a
    !: x+1
    : x+2
    : x=1,2

an intermediate append is read -> G1b; G-single
    : x+1 x+2
    : x=1
    : x=1,2

what was deleted again is read -> G1b
    : x+1 x-
    : x=1

two that read each other -> G1c
    : x+1 y=2
    : x=1 y+2

a reads half of b -> G-single
    : x+1 y+2
    : x=1 y=
    : x=1 y=2

lost update -> G-single: lost update
    : x= x+1
    : x= x+2
    : x=1,2

lost update of a list that is deleted -> G2
    : x+1
    : x=1 x-
    : x=1 x-

an append between a read and its delete -> G-single: lost update
    : x+1
    : x=1 x-
    : x=1 x+2
    : x=1,2

write skew -> G2: write skew
    : x= y= x+1
    : x= y= y+2
    : x=1 y=2

three with three reads -> G2
    : x= y+1
    : y= z+2
    : z= x+3
    : x=3 y=1 z=2

two phantoms -> G2: phantom
    : a~c= d+1
    : d~f= b+2
    : a~f=b:2;d:1

a scan passes over half of a commit -> G-single: phantom
    : a+1 b+2
    : a~c=a:1
    : b=2

a scan reads a part of a list -> G-single
    : a+1
    : a+2 b+3
    : a~c=a:1;b:3
    : a=1,2

the end of a scan is not scanned [in real time] -> nothing
    1@0-1: a+1 c+2
    2@2-3: a~c=a:1
    3@2-3: b~c=
    4@4-5: c=2

a list forks -> fork
    : x+1
    : x+2
    : x+3
    : x=1,2
    : x=1,3

what a read of a fork holds is not lost -> fork
    1@0-1: x+1
    2@2-3: x=1 x+2
    3@2-3: x=1 x+3
    4@4-5: x=1,2
    5@6-7: x=1,3

a list begins twice without a delete -> fork
    : x+1
    : x+2
    : x=1
    : x=2

a list forks in its middle -> fork
    : x+1
    : x+2 z-
    : x-
    : x=1,2
    : x=2

a value twice in a list -> value-twice
    : x+1
    : x=1,1

two append the same value -> value-twice
    : x+1
    : y+1

nobody appended it -> made-up
    : x=1

appended to another key -> made-up
    : x+1
    : y=1

one list under two keys -> fork
    : x+1
    : x=1
    : y=1

read before it began -> future-read
    1@0-1: x=1
    2@2-3: x+1

read before it began, in real time [in real time] -> future-read; G1c-realtime
    1@0-1: x=1
    2@2-3: x+1

a committed append is lost -> lost-write
    1@0-1: x= x+1
    2@2-3: x=1 x+2
    --
    3@10-11: x=1

a committed append is lost, and the list goes on -> lost-write
    1@0-1: x= x+1
    2@2-3: x=1 x+2
    --
    3@10-11: x=1 x+3
    4@12-13: x=1,3

a read value is lost, and the list goes on -> fork
    1@0-1: x= x+1
    2@2-3: x=1 x+2
    3@4-5: x=1,2
    --
    4@10-11: x=1 x+3
    5@12-13: x=1,3

a committed list is lost, though others were deleted -> lost-write
    1@0-1: x= x+1
    2@2-3: x=1 x- x+2
    --
    3@10-11: a~z=

a delete is lost [in real time] -> G-single-realtime: stale read
    1@0-1: x= x+1
    2@2-3: x=1 x-
    --
    3@10-11: x=1

a deleted list comes back [in real time] -> G-single-realtime: stale read; fork-realtime
    1@0-1: x= x+1
    2@2-3: x-
    3@4-5: x+2
    4@6-7: x=2
    5@8-9: x=1

a scan passes over a list of several [in real time] -> G-single-realtime: phantom
    1@0-1: x= x+1
    2@2-3: x=1 x-
    3@4-5: x+2
    4@6-7: x=2
    5@8-9: a~z=
    6@10-11: x=2

a read of two moments -> internal
    : x+1
    : x= x=1

an own append is not read -> internal
    : x+1 x=

an own append is not scanned -> internal
    : x+1 a~z=

an own delete is not read -> internal
    : x+1
    : x=1 x- x=1

a list is gone before its delete [in real time] -> lost-write
    1@0-1: x+1
    2@2-3: x=1
    3@5-6: x=
    4@10-11: x-

a delete without a read ends a list [in real time] -> nothing
    1@0-1: x=
    2@2-3: x+1
    3@4-5: x=1
    4@6-7: x-
    5@8-9: x=

a read of nothing that began before the list [in real time] -> nothing
    1@0-20: x=
    2@1-2: x+1
    3@3-4: x=1
    4@25-26: x-

a list is gone before it was deleted [in real time] -> G-single-realtime
    1@0-1: x= x+1
    2@10-30: x= y=
    3@12-20: x=1 x- y+5
    4@40-41: y=5

what a transaction appends and deletes is not lost [in real time] -> nothing
    1@0-1: x= x+2 x-
    2@2-3: x= x+3 x+4 x-
    3@4-5: x=

a kill ends what it left open -> lost-write
    1@0-1~: x-
    2@0-1: y+1
    --
    3@10-11: x= x+2
    4@12-13: x= y=1

an unknown outcome may come late -> nothing
    1@0-1?: x-
    2@2-3: x= x+2
    3@4-5: x=

a cycle of reads goes before one of real time [in real time] -> G-single
    1@0-1: x+1 y=
    2@2-3: x+2 y+3
    3@4-5: x=2,1 y=3

a long G0 goes before a short G1c -> G0
    : x+1 z+32 w=9
    : x+2 y+11 w+9
    : y+12 z+31
    : x=1,2 y=11,12 z=31,32

a long G1c goes before a short G-single -> G1c
    : x+1 z=3 w+9
    : x=1 y+2 w=
    : y=2 z+3
    : w=9

a long G-single goes before a short G2 -> G-single
    : x= y+2 w=4
    : x+1 y= z+3
    : z=3 w+4
    : x=1 y=2

values that were there before have no owner [in real time, since 10] -> nothing
    1@0-1: x=1,2 x+11
    2@2-3: x=1,2,11 y=3

values that were not have one [in real time, since 10] -> made-up
    1@0-1: x=1,2 x+11
    2@2-3: x=1,2,11,12
"""

# Why a record is refused, and its lines.
BEGIN = '{"client":1,"txn":1,"event":"begin","at":5,"intends":[["append","x",1]]}\n'
END = '{"client":1,"txn":1,"event":"end","at":7,"outcome":"committed","ops":[["append","x",1]]}\n'
RECORDS = [
    ("", [BEGIN, END]),
    ("", [BEGIN, END[:40]]),
    ("", [BEGIN[:-1]]),
    ("", [BEGIN, BEGIN, END]),
    ("line 2: no record", [BEGIN, END[:40] + "\n"]),
    ("line 1: an end of what has not begun", [END]),
    ("line 2: an end of what has not begun", [BEGIN, END.replace('"txn":1', '"txn":2')]),
    ("line 2: an end of what has not begun", [BEGIN, END.replace("committed", "done")]),
    ("line 2: the clock went back", [BEGIN, END.replace("7", "3")]),
    ("there is no call put", [BEGIN, END.replace("append", "put")]),
]
