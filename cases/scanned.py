"""The cases of a scan that prints objects, beside those of live.py: from its objects the text is made that
the same scan prints without them."""
import json
import os
import subprocess

from live import B, MACHINE, PATIENCE, Between, both_ends, brought_up_and_scanned, case, command, controlled

# What is told of an answer that may be another slave's.
ANOTHER = " (while the cable is broken, another slave may answer for it)"


def links(it):
    """What is told of the cable."""
    return {
        "whole": "ring whole",
        "one_link_down": f"link {(it['links_down'] or [0])[0]} down",
    }[it["state"]]


def found(it, is_whole):
    """What is told of a slave in front of its sync managers and FMMUs, and behind them."""
    front = f"slave {it['place']}"
    if it["fault"] is not None:
        return f"{front} {it['fault']}{'' if is_whole else ANOTHER}", ""
    front += f" station 0x{it['station']:04x} state {it['state']}"
    named = (("1", it["vendor"]), ("2", it["product"]))
    return front, "".join(f" 0x1018:{sub} 0x{value:08x}" for sub, value in named if value is not None)


def part(it):
    """A sync manager or an FMMU in the words of a scene."""
    if it["kind"] == "sync_manager":
        return f" sm {it['number']} 0x{it['address']:04x} {it['length']} {it['use']}"
    bits = f"{it['start_bit']} {it['stop_bit']} 0x{it['address']:04x} {it['bit']}"
    return f" fmmu {it['number']} 0x{it['logical_address']:08x} {it['length']} {bits} {it['use']}"


def text_of(told):
    """The text that the objects of a scan tell, or why one is no object; and its last line."""
    *lines, status = told.splitlines()
    rows, is_whole = [], True
    for line in lines:
        try:
            it = json.loads(line)
        except ValueError:
            return f"no object: {line}\n"
        if line != json.dumps(it, separators=(",", ":")):
            return f"no object as it is to be: {line}\n"
        if it["kind"] == "slaves":
            rows.append(f"slaves {it['slaves']}" if it["counts"] else "nobody answers at A")
        elif it["kind"] == "links":
            is_whole = it["state"] == "whole"
            rows.append(links(it))
        elif it["kind"] == "found":
            place, (front, behind) = it["place"], found(it, is_whole)
            rows.append([front, behind])
        elif it["place"] == place:
            rows[-1][0] += part(it)
    return "".join(f"{''.join(row)}\n" for row in (*rows, status))


def both(stage, what, *words):
    """What a scan prints, and the text of what it prints as objects."""
    yield what, stage.ends("scan", *words), text_of(stage.ends("scan", *words, "--json"))


@case
def a_scan_as_objects_tells_what_its_text_tells(stage):
    with controlled(stage, MACHINE) as line:
        at = ("--at", both_ends(stage), *PATIENCE)
        yield from both(stage, "in Init", *at)
        command(line, "link 1 down")
        yield from both(stage, "a break", *at)
        command(line, "link 1 up")
        yield from brought_up_and_scanned(stage, ("scan", *at))
        yield from both(stage, "in Op", *at)
        command(line, "link 0 down")
        command(line, "link 3 down")
        yield from both(stage, "nobody", *at)


@case
def the_objects_of_a_scan_have_these_members(stage):
    """To the byte, of one slave that has a sync manager and an FMMU of each kind."""
    scene = "slave 0x1001\nareas 1 1\nsm 2 0x1000 1 write\nsm 3 0x1100 1 read\n"
    scene += "fmmu 0 0x10000 1 0 7 0x1000 0 write\nfmmu 1 0x10000 1 0 7 0x1100 0 read\n"
    with stage.serve(scene, "--set-up", "--forever"):
        seen = stage.ends("scan", "--at", both_ends(stage), *PATIENCE, "--json")
    fmmu = '"logical_address":65536,"length":1,"start_bit":0,"stop_bit":7,"address"'
    yield "objects", (
        '{"kind":"slaves","slaves":1,"counts":[1,1,1]}\n'
        '{"kind":"links","state":"whole","links_down":[]}\n'
        '{"kind":"found","place":0,"station":4097,"state":"Init","error":0,"vendor":null,"product":null,'
        '"fault":null,"identity_fault":null}\n'
        '{"kind":"sync_manager","place":0,"number":2,"address":4096,"length":1,"use":"write"}\n'
        '{"kind":"sync_manager","place":0,"number":3,"address":4352,"length":1,"use":"read"}\n'
        f'{{"kind":"fmmu","place":0,"number":0,{fmmu}:4096,"bit":0,"use":"write"}}\n'
        f'{{"kind":"fmmu","place":0,"number":1,{fmmu}:4352,"bit":0,"use":"read"}}\n'
        "0\n"
    ), seen


@case
def a_slave_that_two_answer_for_is_found_with_its_fault(stage):
    """A slave more counts on each read of a station."""
    def gives(_place, sent, leaves, packet):
        if sent == B or packet[2] != 1 or packet[6:8] != b"\x10\x00":
            return [(leaves, packet)]
        counter = int.from_bytes(packet[14:16], "little") + 1
        return [(leaves, packet[:14] + counter.to_bytes(2, "little") + packet[16:])]

    with controlled(stage, MACHINE) as _line, Between(stage, gives) as between:
        with stage.start("scan", "--at", between.ends(), *PATIENCE, "--json") as scan:
            wanted = "slaves 3\nring whole\n" + "".join(f"slave {k} BadAnswer\n" for k in range(3)) + "1\n"
            yield "scan", wanted, text_of(between.until_the_end_of(scan))


@case
def a_scan_as_objects_writes_a_scene_too(stage):
    with stage.serve(MACHINE, "--forever") as _line:
        scan = ("scan", "--at", both_ends(stage), *PATIENCE, "--scene")
        yield from brought_up_and_scanned(stage, (*scan, "text"))
        yield "objects", "0", stage.ends(*scan, "objects", "--json").splitlines()[-1]
    told = []
    for name in ("text", "objects"):
        with open(os.path.join(stage.folder, name), encoding="latin-1") as file:
            told.append(file.read())
    yield "scene", *told


def full(stage, *words):
    """How a scan of these words ends whose output is full."""
    with open("/dev/full", "wb") as output:
        done = subprocess.run(
            ["ecat", "scan", "--at", both_ends(stage), *PATIENCE, *words], executable=stage.ecat,
            cwd=stage.folder, stdin=subprocess.DEVNULL, stdout=output, stderr=subprocess.PIPE, timeout=60,
        )
    return f"status {done.returncode}\n{done.stderr.decode()}"


@case
def objects_of_a_scan_into_a_full_output_end_as_its_text(stage):
    with stage.serve(MACHINE, "--set-up", "--forever") as _line:
        text, objects = full(stage), full(stage, "--json")
    yield "end", text, objects
    yield "status", "status 3", objects.splitlines()[0]
