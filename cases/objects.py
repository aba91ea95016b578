"""Each case of a command that has `--json`, once more with it: each line is an object that Python's json
reads, whose first member is its kind; from the objects the text is made that the case wants, so that they
have all that it has, and the same numbers; and what goes to standard error, and the status, are those of the case.
So are commands over the scenes and captures of the repository, and outputs that are full."""
import copy
import glob
import json
import os
import re
import subprocess

# The commands, and the words beside which there are no objects.
COMMANDS = ("check", "cover", "lint", "where", "judge", "list")
OTHERS = ("--csv", "--faults", "--at", "--raw")
# What stands in front of a member of a refusal in the text.
LABELS = {
    "slave": "slave", "later_slave": "slave", "reader": "slave", "writer": "slave", "fmmu": "fmmu",
    "later_fmmu": "fmmu", "reader_fmmu": "fmmu", "writer_fmmu": "fmmu", "sync_manager": "sm",
    "later_sync_manager": "sm", "bit": "bit", "item": "item", "address": "address",
}
# The commands whose output is full, over the files of the repository.
ROOT = os.path.dirname(os.path.dirname(os.path.abspath(__file__)))
ENDED = (
    ["check", "scenes/check/accepted.scene"], ["cover", "scenes/check/accepted.scene"],
    ["where", "scenes/run/two_slaves_link_1_down.scene"], ["judge", "scenes/startup.pcap"],
    ["list", "scenes/startup.pcap", "--stats"],
)
# How many stations are named in a text, and how many things that may be missing.
MOST_STATIONS, NAMED = 8, 4
# What stays a text: that nothing could be judged.
FAULTS = ("judge: NoItems", "judge: NoFrames")
CHANGED = "no one set of links gives these copies: the links changed between them"
GUESS = "guess: what was sent had the counters 0, since nothing of it was captured"


class Told:
    """The text that objects tell; `fine` where it has nine digits behind the point of a second."""

    def __init__(self, fine):
        self.fine, self.run = fine, None

    def seconds(self, nanoseconds):
        sign, time = "-" if nanoseconds < 0 else "", abs(nanoseconds)
        behind = f"{time % 10**9:09}"
        return f"{sign}{time // 10**9}.{behind if self.fine else behind[:6]}"

    def text(self, lines):
        """The text of all lines, or why one is no object."""
        told = []
        for line in lines.splitlines():
            if line.startswith(FAULTS):
                told += [*self.end_run(), line]
                continue
            try:
                found = json.loads(line)
            except ValueError:
                return f"no object: {line}\n"
            kind = next(iter(found))
            if kind != "kind" or line != json.dumps(found, separators=(",", ":"), ensure_ascii=False):
                return f"no object as it is to be: {line}\n"
            told += getattr(self, f"kind_{found['kind']}")(found)
        return "".join(f"{line}\n" for line in [*told, *self.end_run()])

    # ---- check, cover, lint, where

    def kind_accepted(self, _):
        return ["accepted"]

    def kind_covered(self, _):
        return ["covered"]

    def kind_refused(self, found):
        words = [f"refused: {found['rule']}"]
        for name, value in found.items():
            if name in LABELS:
                words += [LABELS[name], f"0x{value:04x}" if name == "address" else str(value)]
        return [" ".join(words)]

    def kind_uncovered(self, it):
        place = f"0x{it['logical_address']:08x}.{it['bit']}"
        return [f"uncovered: slave {it['slave']} FMMU {it['fmmu']} {it['way']} {place}"]

    def kind_not_shown(self, it):
        why = {
            "left_by_item": f"item {it['item']} writes it without its last byte",
            "never_completed": "no item writes its last byte",
        }[it["why"]]
        return [f"not shown: slave {it['slave']} SM {it['sync_manager']}: {why}"]

    def kind_odd(self, it):
        whose = f"item {it['item']}" if it["slave"] is None else f"slave {it['slave']}"
        return [f"line {it['line']}: {whose}: {it['text']}"]

    def kind_copies(self, it):
        def copy_of(name):
            at, after = it[f"{name.lower()}_back_at"], it[f"{name.lower()}_after"]
            return f"{name} lost" if at is None else f"{name} back at {at} after {after}"

        return [f"{copy_of('A')}, {copy_of('B')}"]

    def kind_cable(self, it):
        def end(name):
            port, slave, station = (it[f"{name}_{part}"] for part in ("port", "slave", "station"))
            if slave is None:
                return f"port {port}"
            return f"slave {slave}{behind(it[f'{name}_name'])} (0x{station:04x})"

        links, cut_off = it["links_down"], it["cut_off_slaves"]
        if it["state"] == "one_link_down":
            return [f"link {links[0]} down: between {end('before')} and {end('behind')}"]
        if it["state"] == "two_links_down":
            first, last = cut_off[0], cut_off[-1]
            whose = f"slave {first}" if first == last else f"slaves {first}..{last}"
            stations = named_stations(it["cut_off_stations"], it["cut_off_names"])
            if len(stations) > MOST_STATIONS:
                stations = [*stations[:MOST_STATIONS], ".."]
            return [f"links {links[0]} and {links[1]} down: {whose} cut off ({', '.join(stations)})"]
        return [{
            "whole": "whole",
            "unknown": "no copy came back: nothing known",
            "changed": CHANGED,
            "first_link_down": f"link {(links or [0])[0]} is the first down, behind it unknown",
            "last_link_down": f"link {(links or [0])[0]} is the last down, before it unknown",
        }[it["state"]]]

    # ---- judge

    def packets(self, it, times):
        """The packets, their times and how many trips there were."""
        text = f"packets {it['first_packet']} to {it['last_packet']}"
        if it["first_nanoseconds"] is not None:
            text += f", {self.seconds(it['first_nanoseconds'])}"
        if it["last_nanoseconds"] is not None:
            text += f" to {self.seconds(it['last_nanoseconds'])}"
        return f"{text}, {times} times" if times else text

    def kind_lost(self, it):
        if it["times"] != 1:
            return [*self.end_run(), f"{self.packets(it, it['times'])}: lost"]
        time = it["first_nanoseconds"]
        behind = "" if time is None else f", {self.seconds(time)}"
        return [*self.end_run(), f"packet {it['first_packet']}{behind}: lost"]

    def kind_run(self, it):
        ended, self.run = self.end_run(), (it, [])
        return ended

    def kind_missing(self, it):
        stations = named_stations(it["stations"], it["names"])
        only = f"{behind(it['names'][0])} (0x{it['stations'][0]:04x})"
        first, last = it["slaves"][0], it["slaves"][-1]
        are_neighbours = it["slaves"] == list(range(first, last + 1))
        if it["what"] != "slaves":
            name = f"{it['what']} of slave {first}{only}"
        elif first == last:
            name = f"slave {first}{only}"
        elif not are_neighbours:
            name = f"slaves {first}, {last} ({stations[0]}, {stations[-1]})"
        else:
            between = ", " if len(stations) == 2 else " to "
            name = f"slaves {first}..{last} ({stations[0]}{between}{stations[-1]})"
        self.run[1].append((it["what"], len(it["slaves"]), name))
        return []

    def end_run(self):
        """The line of the run whose names have come."""
        if self.run is None:
            return []
        (it, names), self.run = self.run, None
        counters = [
            f"item {item} wkc {came} of {wanted}"
            for item, came, wanted in zip(it["items"], it["counters"], it["expected_counters"])
        ]
        words = [self.packets(it, it["times"])]
        words += ["no item counted"] if it["none_counted"] else counters
        words += [] if it["passed"] is None else [f"passed {it['passed']} of {it['slaves']}"]
        return [f"{', '.join(words)}: {self.verdict(it, names)}"]

    def verdict(self, it, names):
        if it["verdict"] != "missing":
            return {
                "one_copy_alone": "one copy alone",
                "more_than_the_scene": "more than the slaves of the scene",
                "more_than_usual": "more than usual",
                "less_than_usual": "less than usual",
            }[it["verdict"]]
        classes = (it["one_slave"], it["neighbours"], it["inputs_or_outputs"])
        if sum(classes) == 0:
            sets, more = it["sets"], it["more_sets"]
            if sets < 2:
                return ("no set of slaves explains it", "without one set of slaves")[sets]
            return f"without one of {'more than ' if more else ''}{sets} sets of slaves"
        if sum(classes) <= NAMED:
            said = [name for _, _, name in names]
        else:
            many = ("one of {} slaves", "one of {} sets of slaves", "inputs or outputs of one of {} slaves")
            left, said = [name for _, _, name in names], []
            for count, words in zip(classes, many):
                if count:
                    said.append(left.pop(0) if count == 1 else words.format(count))
        return "without " + " or ".join(said) + (", may be more" if it["may_be_more"] else "")

    def kind_item(self, it):
        counts = " ".join(f"{name} {it[name]}" for name in ("sent", "good", "short", "over", "lost"))
        for name in ("on_the_way", "unpaired"):
            if it[name]:
                counts += f" {name.replace('_', ' ')} {it[name]}"
        told = [*self.end_run(), f"item {it['item']} {address_of(it, ':')} {it['length']} bytes: {counts}"]
        if it["first_packet"] is not None:
            told.append(f"  {self.packets(it, 0)}")
        if it["every_mean_nanoseconds"] is not None:
            jitter = self.seconds(it["jitter_nanoseconds"])
            told.append(f"  every {self.spread(it, 'every')}, jitter {jitter}")
        if it["back_mean_nanoseconds"] is not None:
            told.append(f"  back in {self.spread(it, 'back')}")
        return told

    def spread(self, it, name):
        times = (it[f"{name}_{part}_nanoseconds"] for part in ("least", "mean", "greatest"))
        return " ".join(self.seconds(time) for time in times) + " s"

    def kind_guess(self, _):
        return [*self.end_run(), GUESS]

    def kind_not_asked_for(self, it):
        groups = f"{'more than ' if it['more_groups'] else ''}{it['groups']}"
        told = f"not in the {it['not_in']}: {groups} groups, {it['datagrams']} datagrams"
        return [*self.end_run(), told]

    def kind_not_told(self, it):
        return [*self.end_run(), f"not told: {it['lines']} lines"]

    # ---- list --stats

    def kind_packets(self, it):
        first = it["first_utc"]
        return [f"packets {it['packets']}" + ("" if first is None else f", first at {first}")]

    def kind_ways(self, it):
        told = [f"{by} {it[f'told_by_{by}']}" for by in ("port", "place", "mark", "counters")]
        told = ", ".join(words for words in told if not words.endswith(" 0"))
        return [f"sent {it['sent']}, returned {it['returned']}" + (f"; told by {told}" if told else "")]

    def kind_left_out(self, it):
        return [f"{it['datagrams']} datagrams of further groups left out"]

    def kind_group(self, it):
        index = "" if it["index"] is None else f" index {it['index']}"
        line = f"{address_of(it, ':')} {it['length']} bytes{index}: "
        line += f"{it['sent']} sent, {it['back']} back{only_counter(it, 'back')}"
        for name in ("lost", "late", "stray"):
            if it[name]:
                counter = only_counter(it, name) if name == "stray" else ""
                line += f", {it[name]} {name}{counter}{self.first(it, name, 0)}"
        line += f", {it['on_the_way']} on the way" if it["on_the_way"] else ""
        told = [line, *self.counters(it, "back", "  "), *self.counters(it, "stray", "  stray: ")]
        told += self.times(it, "every", "  every ", 2)
        return told + self.times(it, "back", "  back in ", 3)

    def first(self, it, name, place):
        packet, moment = (it[f"{name}_first_{part}"][place] for part in ("packets", "nanoseconds"))
        behind = "" if moment is None else f", {self.seconds(moment)}"
        return f" (first in packet {packet}{behind})"

    def counters(self, it, name, before):
        counters, times = it[f"{name}_counters"], it[f"{name}_counter_times"]
        if len(counters) < 2:
            return []
        best = times.index(max(times))
        told = [f"{times[best]} of wkc {counters[best]}"]
        for place, (counter, count) in enumerate(zip(counters, times)):
            if place != best:
                told.append(f"{count} of wkc {counter}{self.first(it, name, place)}")
        others = it[f"{name}_of_other_counters"]
        told += [f"{others} of other counters"] if others else []
        return [before + ", ".join(told)]

    def times(self, it, name, before, least):
        if it[f"{name}_count"] < least:
            return []
        told = [before + self.spread(it, name)]
        shares, bounds = it[f"{name}_at_most_nanoseconds"], it[f"{name}_up_to_nanoseconds"]
        if shares:
            told.append(f"{before}at most {' '.join(map(self.seconds, shares))} s in 50 90 99 99.9 of 100")
            counts = zip(it[f"{name}_up_to_counts"], bounds)
            told.append(before + ", ".join(f"{n} up to {self.seconds(bound)}" for n, bound in counts) + " s")
        return told


def behind(name):
    """The name of a slave behind a space, if it has one."""
    return "" if name is None else f" {name}"


def named_stations(stations, names):
    """Station addresses, each with the name of the slave, if it has one."""
    return [f"0x{station:04x}{behind(name)}" for station, name in zip(stations, names, strict=True)]


def address_of(it, between):
    """The command and the address of an item or a group."""
    if it["logical_address"] is not None:
        return f"{it['command']} 0x{it['logical_address']:08x}"
    if it["adp"] is None:
        return f"{it['command']} 0x{it['ado']:04x}"
    return f"{it['command']} 0x{it['adp']:04x}{between}0x{it['ado']:04x}"


def only_counter(it, name):
    counters = it[f"{name}_counters"]
    return f" of wkc {counters[0]}" if len(counters) == 1 else ""


class Again:
    """A case of a file, whose command prints objects."""

    def __init__(self, case):
        self.case = copy.deepcopy(case)
        self.case.args = [*case.args, "--json"]
        self.name = f"{case.name}_as_objects"

    def run(self, ecat, folder, port):
        for what, wanted, seen in self.case.run(ecat, folder, port):
            if what.startswith("output") and seen.startswith("{"):
                seen = Told(re.search(r"\.\d{9}\b", wanted) is not None).text(seen)
            yield what, wanted, seen


def has_objects(case):
    """Is it a case of a command that has objects, and of words that it takes?"""
    words = case.args
    return (
        words and words[0] in COMMANDS and case.status != 2 and not {"--json", "--help"} & set(words)
        and not any(word.split("=")[0] in OTHERS for word in words)
        and (words[0] != "list" or "--stats" in words)
    )


class Both:
    """A command over a file of the repository, without and with objects."""

    def __init__(self, words, limit):
        self.name = f"{words[0]}_of_{words[1].replace('/', '_')}_without_and_with_objects"
        self.words, self.limit = words, limit

    def run(self, ecat, _folder, _port):
        streams = {"executable": ecat, "cwd": ROOT, "capture_output": True, "timeout": self.limit}
        texts, objects = (
            subprocess.run(["ecat", *words], stdin=subprocess.DEVNULL, **streams)
            for words in (self.words, [*self.words, "--json"])
        )
        wanted, seen = texts.stdout.decode("latin-1"), objects.stdout.decode("latin-1")
        if seen.startswith("{"):
            seen = Told(re.search(r"\.\d{9}\b", wanted) is not None).text(seen)
        yield "output", wanted, seen
        yield "error", texts.stderr.decode("latin-1"), objects.stderr.decode("latin-1")
        yield "status", f"{texts.returncode}\n", f"{objects.returncode}\n"


def of_repository():
    """The commands over each scene and each capture of the repository."""
    for path in sorted(glob.glob(os.path.join(ROOT, "scenes/**/*.scene"), recursive=True)):
        for command in ("check", "cover", "lint", "where"):
            yield [command, os.path.relpath(path, ROOT)]
    for path in sorted(glob.glob(os.path.join(ROOT, "scenes/**/*.pcap"), recursive=True)):
        yield ["judge", os.path.relpath(path, ROOT)]
        yield ["list", os.path.relpath(path, ROOT), "--stats"]


class Full:
    """A command whose output is full: it ends with objects as it does without."""

    def __init__(self, words, limit):
        self.name = f"{words[0]}_objects_into_an_output_that_is_full"
        self.words, self.limit = words, limit

    def run(self, ecat, _folder, _port):
        texts, objects = (self.ended(ecat, words) for words in (self.words, [*self.words, "--json"]))
        yield "end", texts, objects
        yield "status", "status 3", objects.split("\n")[0]

    def ended(self, ecat, words):
        """The status and the first line of standard error."""
        with open("/dev/full", "wb") as full:
            done = subprocess.run(
                ["ecat", *words], executable=ecat, cwd=ROOT, stdout=full, stderr=subprocess.PIPE,
                stdin=subprocess.DEVNULL, timeout=self.limit,
            )
        return f"status {done.returncode}\n{done.stderr.decode('latin-1')}"


def cases(of_files, limit):
    """Each of these cases that has objects, once more with them; and outputs that are full."""
    told = [Again(case) for case in of_files if has_objects(case)]
    told += [Both(words, limit) for words in of_repository()]
    return told + [Full(words, limit) for words in ENDED]
