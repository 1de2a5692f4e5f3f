"""What came out: known faults, and the table of cases by peers."""
import os
from dataclasses import dataclass

import machine

ROLES = ["server", "client"]
LOSSES = [0, 2]
PASSED, FAILED, KNOWN, NOT_RUN = "✓", "✗", "k", "–"
LEGEND = f"""A cell is `yes` if all four runs passed. Else it has a mark for each: this side as server without loss and
with 2 percent, and as client without loss and with 2 percent. {PASSED} is passed, {FAILED} failed, {KNOWN} failed for a
known reason, {NOT_RUN} not run."""


@dataclass(frozen=True)
class KnownFault:
    peer: str
    role: str
    loss: str
    case: str
    how_often: str  # "always" or "sometimes"
    reason: str

    def is_about(self, peer, role, loss, case):
        pairs = zip((self.peer, self.role, self.loss, self.case), (peer, role, str(loss), case))
        return all(pattern in ("*", value) for pattern, value in pairs)


def read_known():
    """The faults in the file `known`: peer, role, loss, case (each may be *), how often, and the reason."""
    faults = []
    with open(os.path.join(machine.HERE, "known"), encoding="utf-8") as file:
        for line in file:
            words = line.split(maxsplit=5)
            if not words or words[0].startswith("#"):
                continue
            if len(words) != 6 or words[4] not in ("always", "sometimes"):
                machine.stop(f"host/browsers.d/known has a line that is not understood: {line}")
            faults.append(KnownFault(*words[:5], words[5].strip()))
    return faults


class Results:
    def __init__(self, known):
        self.known = known
        self.marks = {}
        self.met = []  # the known faults that showed
        self.surprises = []  # what a known fault says to fail, and passed

    def fault(self, *place):
        return next((fault for fault in self.known if fault.is_about(*place)), None)

    def add(self, place, passed):
        """Takes in the result at a place: peer, role, loss and case, by their names. Gives the known fault of it."""
        fault = self.fault(*place)
        if passed and fault and fault.how_often == "always":
            self.surprises.append(place)
        if not passed and fault and fault not in self.met:
            self.met.append(fault)
        self.marks[place] = PASSED if passed else KNOWN if fault else FAILED
        return fault

    def cell(self, peer, case):
        marks = [self.marks.get((peer, role, loss, case), NOT_RUN) for role in ROLES for loss in LOSSES]
        return "yes" if set(marks) == {PASSED} else "".join(marks)

    def print_table(self, peers, cases):
        heads = [peer.title.format(machine.version_of(peer.package)) for peer in peers]
        rows = [["", *heads], *([case.title, *(self.cell(peer.name, case.name) for peer in peers)] for case in cases)]
        widths = [max(len(row[column]) for row in rows) for column in range(len(rows[0]))]
        rows.insert(1, ["-" * width for width in widths])
        print()
        for row in rows:
            print("| " + " | ".join(word.ljust(width) for word, width in zip(row, widths)) + " |")
        print(f"\n{LEGEND}\n")
        for fault in self.met:
            print(f"- {fault.peer}, {fault.case}: {fault.reason}")
        for place in self.surprises:
            print(f"{' '.join(map(str, place))} passed, but the file `known` says that it fails always")

    def has_failed(self, places):
        """Whether something failed that is not known, or was not run."""
        return any(self.marks.get(place, FAILED) == FAILED for place in places)
