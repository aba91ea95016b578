"""The cases of what a running master and a served line tell as objects of JSON, beside those of live.py."""
import json
import os
import re
import subprocess

from live import MACHINE, PATIENCE, STARTED, both_ends, case, command, controlled, timed

# The members of each kind of object, in their order.
MEMBERS = {
    "line": ["kind", "cycle", "text"],
    "answer": ["kind", "cycle", "text"],
    "slave": ["kind", "cycle", "place", "station", "name", "state", "error", "answers"],
    "counts": [
        "kind", "cycle", "microseconds", "cycles", "good", "short", "over", "fault", "not_in_op", "missed",
    ],
}


def objects(text):
    """The objects of a text, each of which has the members of its kind."""
    found = [json.loads(line) for line in text.splitlines()]
    for it in found:
        if it["kind"] in MEMBERS and list(it) != MEMBERS[it["kind"]]:
            raise AssertionError(f"{it} has other members")
    return found


def texts(found, kind="line"):
    """The texts of the objects of a kind, a line each."""
    return "".join(f"{it['text']}\n" for it in found if it["kind"] == kind)


def next_object(master, is_wanted):
    """The next object that is wanted, or an empty one where the output ends before."""
    while line := master.line():
        found = json.loads(line)
        if is_wanted(found):
            return found
    return {}


@case
def a_master_tells_objects_for_its_lines(stage):
    """Each line that it prints else is an object, in the same order, and what changed has objects beside."""
    with controlled(stage, MACHINE):
        stage.file("m", MACHINE)
        words = ("master", "m", "--at", both_ends(stage), "--cycles", "50", *PATIENCE)
        plain = stage.ends(*words)
        told = stage.ends(*words, "--json")
        found = objects(told[: told.rindex("0\n")])
        lines = texts(found)
        yield "lines", timed(plain), timed(f"{lines}0\n")
        cables = [f"{it['state']} {it['links_down']}" for it in found if it["kind"] == "cable"]
        yield "cable", "whole []", " ".join(cables)
        slaves = [it for it in found if it["kind"] == "slave"]
        slaves = [(it["place"], it["station"], it["state"], it["error"]) for it in slaves]
        yield "slaves", str([(k, 0x1001 + k, "Op", 0) for k in range(3)]), str(slaves)


@case
def a_master_tells_objects_for_what_changes(stage):
    """A broken link, a slave that leaves Op and comes back, and once a second the counts."""
    with controlled(stage, MACHINE) as line:
        stage.file("m", MACHINE)
        words = ("master", "m", "--at", both_ends(stage), "--every", "2000", "--json", *PATIENCE)
        with stage.start(*words, stdin=subprocess.PIPE) as master:
            next_object(master, lambda it: it["kind"] == "cable" and it["state"] == "whole")
            yield "down", "ok\n", command(line, "link 1 down")
            cable = next_object(master, lambda it: it["kind"] == "cable" and it["links_down"])
            yield "cable", "one_link_down [1]", f"{cable['state']} {cable['links_down']}"
            yield "up", "ok\n", command(line, "link 1 up")
            cable = next_object(master, lambda it: it["kind"] == "cable" and it["state"] == "whole")
            yield "whole", "[]", str(cable["links_down"])
            yield "leaves", "ok\n", command(line, "state 1 4")
            slave = next_object(master, lambda it: it["kind"] == "slave" and it["state"] == "Safe-Op")
            seen = " ".join(str(slave[it]) for it in ("place", "station", "error", "answers"))
            yield "slave", "1 4098 0 True", seen
            yield "back", "ok\n", command(line, "state 1 8")
            slave = next_object(master, lambda it: it["kind"] == "slave" and it["place"] == 1)
            yield "in Op", "Op", slave["state"]
            counts = next_object(master, lambda it: it["kind"] == "counts")
            both = counts["good"] + counts["short"] + counts["over"] + counts["fault"]
            yield "counts", str(counts["cycles"]), str(both)
            later = next_object(master, lambda it: it["kind"] == "counts")
            yield "a second", "True", str(later["microseconds"] - counts["microseconds"] >= 1000000)


@case
def a_master_that_is_spoken_to_answers_in_objects(stage):
    """An answer is told apart from what the master says of its own."""
    with controlled(stage, MACHINE):
        stage.file("m", MACHINE)
        words = ("master", "m", "--at", both_ends(stage), "--control", "--json", *PATIENCE)
        with stage.start(*words, stdin=subprocess.PIPE) as master:
            for wanted in STARTED.splitlines():
                yield "start", wanted, next_object(master, lambda it: it["kind"] == "line")["text"]
            master.process.stdin.write(b"get 0\nquit\n")
            master.process.stdin.close()
            master.process.stdin = None
            told = master.end()
            answers = texts(objects(told[: told.rindex("0\n")]), "answer")
            yield "answers", "item 0 outputs a1a2a3\nitem 0 inputs 112233\nok\nok\n", answers


@case
def objects_of_a_master_have_the_time(stage):
    """With a clock each line has a member for it, and the text is as without one."""
    with controlled(stage, MACHINE):
        stage.file("m", MACHINE)
        told = stage.ends(
            "master", "m", "--at", both_ends(stage), "--cycles", "5", "--json", "--clock", "utc", *PATIENCE
        )
        lines = [json.loads(line) for line in told.splitlines()[:-1]]
        lines = [it for it in lines if it["kind"] == "line"]
        stamp = r"\d{4}-\d\d-\d\dT\d\d:\d\d:\d\d\.\d{3}Z"
        yield "stamped", "True", str(all(re.fullmatch(stamp, it["time_utc"]) for it in lines))
        yield "members", "['kind', 'time_utc', 'cycle', 'text']", str(list(lines[0]))
        yield "texts", STARTED, texts(lines[: STARTED.count("\n")])


@case
def a_served_line_tells_objects(stage):
    """What it prints, and a packet's line on standard error with its number."""
    words, path = ("--json", "--log", "--control"), os.path.join(stage.folder, "log")
    with open(path, "wb") as log, stage.serve(MACHINE, *words, stdin=subprocess.PIPE, stderr=log) as line:
        where = json.loads(line.first)
        yield "where", "line None", f"{where['kind']} {where['packet']}"
        yield "text", "True", str(str(stage.port) in where["text"])
        stage.file("m", MACHINE)
        stage.ends("master", "m", "--at", both_ends(stage), "--cycles", "3", *PATIENCE)
        yield "answer", "ok", json.loads(command(line, "link 1 down"))["text"]
        line.process.stdin.close()
        line.process.stdin = None
        told, _none = line.process.communicate(timeout=stage.limit)
        yield "end", "True", str(all(json.loads(it)["kind"] == "line" for it in told.decode().splitlines()))
    with open(path, encoding="utf-8") as log:
        numbers = [json.loads(it)["packet"] for it in log]
    numbers = [it for it in numbers if it is not None]
    yield "packets", str(list(range(len(numbers)))), str(numbers)
    yield "some", "True", str(len(numbers) > 100)
