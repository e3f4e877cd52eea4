"""Reads octo's texts: reports, journals, and the texts of `prefix`, `epochs` and `audit`.

A text is read line by line, each by its place, as docs/FORMATS.md writes it. A line that hasn't the
form of its place raises BadText with its number, counted from 1.
"""

import re

NUMBER = r"0|[1-9][0-9]*"
SIGNED = rf"-?(?:{NUMBER})"
KEY = r"[0-9a-f.:\[\]]+>[0-9a-f.:\[\]]+/[0-9]+"
PREFIX = r"[0-9]+\.[0-9]+\.[0-9]+\.[0-9]+/(?:8|16|24|32)"


class BadText(Exception):
    """The text is none of octo's: its first line that hasn't the form of its place."""

    def __init__(self, line, text):
        super().__init__(f"line {line}: {text!r} hasn't the form of its place")
        self.line = line


class Lines:
    """The lines of a text, one after the other."""

    def __init__(self, text):
        self.lines = text.split("\n")
        # A whole text ends with a line feed, so nothing stands behind the last one.
        self.whole = self.lines and self.lines[-1] == ""
        if self.whole:
            self.lines.pop()
        self.at = 0

    def fail(self):
        text = self.lines[self.at] if self.at < len(self.lines) else "the end of the text"
        raise BadText(self.at + 1, text)

    def peek(self, pattern):
        """The match of the next line, which is not taken, or None."""
        if self.at >= len(self.lines) or (self.at + 1 == len(self.lines) and not self.whole):
            return None
        return re.fullmatch(pattern, self.lines[self.at])

    def take(self, pattern):
        found = self.peek(pattern)
        if found is None:
            self.fail()
        self.at += 1
        return found

    def take_all(self, pattern):
        while (found := self.peek(pattern)) is not None:
            self.at += 1
            yield found

    def ended(self):
        return self.at >= len(self.lines)


def numbers(text):
    return [int(number) for number in text.split()]


def take_counts(lines, into):
    """The lines from `skipped` to `cut`."""
    found = lines.take(rf"skipped short ({NUMBER}) notip ({NUMBER}) badip ({NUMBER}) tags ({NUMBER})")
    into["skipped"] = dict(zip(("short", "notip", "badip", "tags"), map(int, found.groups())))
    into["cut"] = int(lines.take(rf"cut ({NUMBER})")[1])


def take_sketch(lines, into):
    found = lines.take(
        rf"sketch (count-min|count-sketch|loglog) rows ({NUMBER}) columns ({NUMBER}) amount (packets|bytes)"
    )
    into.update(sketch=found[1], rows=int(found[2]), columns=int(found[3]), amount=found[4])


def take_used(lines, rows):
    return [int(lines.take(rf"row {row} used ({NUMBER})")[1]) for row in range(rows)]


def take_flows(lines, into):
    into["heavy"] = int(lines.take(rf"heavy ({NUMBER})")[1])
    found = lines.take_all(rf"flow ({KEY}) ({SIGNED})")
    into["flows"] = [{"key": flow[1], "estimate": int(flow[2])} for flow in found]


def read_report(lines):
    text = {"kind": "report"}
    lines.take("octosketch report 1")
    take_sketch(lines, text)
    text["records"] = int(lines.take(rf"records ({NUMBER})")[1])
    text["keyed"] = int(lines.take(rf"keyed ({NUMBER})")[1])
    take_counts(lines, text)
    text["total"] = int(lines.take(rf"total ({NUMBER})")[1])
    text["used"] = take_used(lines, text["rows"])
    if text["sketch"] == "loglog":
        text["distinct"] = int(lines.take(rf"distinct ({NUMBER})")[1])
    else:
        found = lines.take_all(rf"watch ({KEY}) ({SIGNED})")
        text["watch"] = [{"key": watch[1], "estimate": int(watch[2])} for watch in found]
        take_flows(lines, text)
    lines.take("end")
    return text


OPTIONS = (
    ("sketch", "count-min|count-sketch|loglog"),
    ("rows", NUMBER),
    ("columns", NUMBER),
    ("amount", "packets|bytes"),
    ("share", "turn|key"),
    ("workers", NUMBER),
    ("threshold", NUMBER),
    ("lane", NUMBER),
    ("batch", NUMBER),
    ("round", NUMBER),
    ("full", "leave|wait"),
    ("mode", "rounds|threads"),
    ("readers", NUMBER),
    ("asks", NUMBER),
    ("heavy", NUMBER),
    ("least", NUMBER),
)


def take_options(lines):
    found = lines.take("options " + " ".join(f"{name} ({form})" for name, form in OPTIONS))
    options = {}
    for (name, form), value in zip(OPTIONS, found.groups()):
        options[name] = int(value) if form == NUMBER else value
    return options


def take_worker(lines, worker):
    found = lines.take(rf"worker {worker} pushes ({NUMBER}) refused ({NUMBER})")
    runs = [
        {"first": int(run[1]), "last": int(run[2])}
        for run in lines.take_all(rf"refused {worker} ({NUMBER})-({NUMBER})")
    ]
    refused = int(found[2])
    if sum(run["last"] - run["first"] + 1 for run in runs) != refused:
        lines.fail()
    return {"worker": worker, "pushes": int(found[1]), "refused": refused, "runs": runs}


def read_journal(lines):
    text = {"kind": "journal"}
    lines.take("octosketch journal 1")
    options = text["options"] = take_options(lines)
    text["watched"] = [found[1] for found in lines.take_all(rf"watched ({KEY})")]
    text["workers"] = [take_worker(lines, worker) for worker in range(options["workers"])]
    shown = 1 if options["sketch"] == "loglog" else len(text["watched"])
    front = rf"((?: (?:{NUMBER})){{{options['workers']}}})"
    estimates = rf"((?: (?:{SIGNED})){{{shown}}})"
    text["answers"] = []
    for reader in range(options["readers"]):
        for number in range(options["asks"]):
            found = lines.take(
                rf"answer {reader} {number} folded ({NUMBER}) front{front} shown{estimates}"
            )
            text["answers"].append(
                {
                    "reader": reader,
                    "number": number,
                    "folded": int(found[1]),
                    "front": numbers(found[2]),
                    "shown": numbers(found[3]),
                }
            )
    text["live"] = [found[1] for found in lines.take_all(rf"live ({KEY})")]
    text["missed"] = int(lines.take(rf"missed ({NUMBER})")[1])
    lines.take("end")
    return text


def take_level(lines, length):
    level = {"length": length}
    lines.take(f"level {length}")
    level["answers"] = [
        {
            "reader": int(found[1]),
            "number": int(found[2]),
            "folded": int(found[3]),
            "shown": numbers(found[4]),
        }
        for found in lines.take_all(
            rf"answer ({NUMBER}) ({NUMBER}) folded ({NUMBER}) shown((?: (?:{SIGNED}))*)"
        )
    ]
    watch = lines.take_all(rf"watch ({PREFIX}) ({SIGNED})")
    level["watch"] = [{"prefix": found[1], "estimate": int(found[2])} for found in watch]
    found = lines.take(rf"heavy ({NUMBER}) more ([01])")
    level["heavy"], level["more"] = int(found[1]), found[2] == "1"
    hits = lines.take_all(rf"prefix ({PREFIX}) ({SIGNED})")
    level["hits"] = [{"prefix": hit[1], "estimate": int(hit[2])} for hit in hits]
    if len(level["hits"]) != level["heavy"]:
        lines.fail()
    return level


def read_prefix(lines):
    text = {"kind": "prefix"}
    lines.take("octosketch prefix 1")
    take_sketch(lines, text)
    text["records"] = int(lines.take(rf"records ({NUMBER})")[1])
    text["keyed"] = int(lines.take(rf"keyed ({NUMBER})")[1])
    text["other"] = int(lines.take(rf"other ({NUMBER})")[1])
    take_counts(lines, text)
    text["total"] = int(lines.take(rf"total ({NUMBER})")[1])
    text["levels"] = [take_level(lines, length) for length in (8, 16, 24, 32)]
    lines.take("end")
    return text


def take_epoch(lines, number, rows):
    found = lines.take(rf"epoch {number} packets ({NUMBER}) total ({NUMBER})")
    epoch = {"epoch": number, "packets": int(found[1]), "total": int(found[2])}
    epoch["used"] = take_used(lines, rows)
    take_flows(lines, epoch)
    if number > 0:
        epoch["changed"] = int(lines.take(rf"changed ({NUMBER})")[1])
        changes = lines.take_all(rf"change ({KEY}) ({SIGNED}) ({SIGNED})")
        epoch["changes"] = [
            {"key": found[1], "before": int(found[2]), "after": int(found[3])} for found in changes
        ]
    return epoch


def read_epochs(lines):
    text = {"kind": "epochs"}
    lines.take("octosketch epochs 1")
    take_sketch(lines, text)
    text["records"] = int(lines.take(rf"records ({NUMBER})")[1])
    text["keyed"] = int(lines.take(rf"keyed ({NUMBER})")[1])
    take_counts(lines, text)
    text["epochs"] = []
    while lines.peek(r"epoch .*") is not None:
        text["epochs"].append(take_epoch(lines, len(text["epochs"]), text["rows"]))
    found = lines.take(rf"whole packets ({NUMBER}) total ({NUMBER})")
    text["whole"] = {"packets": int(found[1]), "total": int(found[2])}
    text["whole"]["used"] = take_used(lines, text["rows"])
    lines.take("end")
    return text


def read_audit(lines):
    # The one text that is a line alone: it stands only where a journal is lawful.
    lines.take("octosketch audit lawful")
    return {"kind": "audit", "lawful": True}


READERS = {
    "octosketch report 1": read_report,
    "octosketch journal 1": read_journal,
    "octosketch prefix 1": read_prefix,
    "octosketch epochs 1": read_epochs,
    "octosketch audit lawful": read_audit,
}


def read_texts(text):
    """All texts that stand one behind the other, such as a report and its journal."""
    lines = Lines(text)
    found = []
    while not found or not lines.ended():
        first = lines.peek(".*")
        reader = READERS.get(first[0]) if first is not None else None
        if reader is None:
            lines.fail()
        found.append(reader(lines))
    return found
