"""What a run of the program has acknowledged by its replies, and so what may be recovered from its media: for the tools
that take the power away (`lose_power`) and that fail syncs (`fail_syncs`).

`acknowledged` gives for each medium that a run may write a list of places in its replies, each with the outcome of a
recovery that holds once the replies have come so far. Between two of them the outcome of the next may stand already.
"""

import math
import re
from typing import Any

from check_medium import Finding
from random_cases import FURTHER
from store_model import Doubt, Rules, Session, refusal, shares

NEVER = math.inf  # the place of a reply that never came, since a sync failed
Media = dict[str, bytes | None]  # by their names; None is for a missing file
Ending = tuple[int, str, bytes]  # status, standard error and output
Outcome = tuple[str, Any]  # "held" and the sorted ballots, or "refused" and the status and its text
Told = list[tuple[float, Outcome]]
Sets = list[tuple[float, dict[int, Any]]]


class Ended(Exception):
    """The replies end here, since a sync failed."""


class BrokenSession(Session):
    """A session that ended at a sync that failed: its replies may end before each line. A checkpoint that was not
    replied to never came."""

    def next(self) -> bytes:
        if self.at == len(self.replies):
            raise Ended
        return bytes(super().next())

    def checkpoint(self) -> None:
        try:
            super().checkpoint()
        except Ended:
            self.checkpoints.append((NEVER, self.held))
            raise

    def follow(self, script: bytes) -> "BrokenSession":
        try:
            super().follow(script)
        except Ended:
            if self.at and (not self.checkpoints or self.checkpoints[-1][0] != NEVER):
                raise Doubt(f"a sync failed, and the replies end at byte {self.at}, before no checkpoint")
        return self


def written_by(words: list[str]) -> list[str]:
    """The names of the media that a run of these words may write."""
    every = [words[0], *words[3:]]
    return {"twin": every, "part": every, "migrate": words[3:]}.get(words[2], words[:1])


def acknowledged(
    rules: Rules,
    words: list[str],
    script: bytes,
    start: Media,
    ending: Ending,
    after: Media,
    failed: str | None = None,
    aim: Outcome | None = None,
) -> dict[str, Told]:
    """Of each medium that a run may write: what it may leave there before its first acknowledgement, and for each of
    them where it ends and what it may then. `start` and `after` are all media before and after the run. `failed` is the
    medium of which a sync failed in this run, if any, and `aim` what a `large` would have come to without that."""
    if failed is not None and ending[:2] != fault_of(words, failed):
        raise Doubt(f"a sync of {failed} failed, and the run ends with {short(ending)}")
    if words[2] == "twin":
        return paired(rules, words, script, start, ending, after, failed)
    if words[2] == "part":
        return parted(rules, words, script, start, ending, after, failed)
    [name] = written_by(words)
    if words[2] in FURTHER:
        return {name: together(rules, words, start, ending, after, failed)}
    return {name: of_one(rules, words, script, start.get(name), ending, after.get(name), failed, aim)}


def fault_of(words: list[str], failed: str) -> tuple[int, str]:
    """How a run ends of which this medium fails."""
    place = [words[0], *words[3:]].index(failed)
    return (17, f"ballot_store: disk fault at medium {place}\n") if place else (5, "ballot_store: disk fault\n")


def follow(
    rules: Rules, held: dict[int, Any], replies: bytes, script: bytes, failed: str | None, parts: int = 1
) -> Sets:
    """The sets of the checkpoints of a session, and where their replies end."""
    session = (BrokenSession if failed else Session)(rules, held, replies, parts)
    return list(session.follow(script).checkpoints)


def of_one(
    rules: Rules,
    words: list[str],
    script: bytes,
    start: bytes | None,
    ending: Ending,
    after: bytes | None,
    failed: str | None,
    aim: Outcome | None,
) -> Told:
    """The same of a run that has one medium."""
    status, error, output = ending
    if words[2] == "init":
        if status and not (failed and is_unused(rules, start)):
            return [(0, rules.outcome(start))]
        return [(0, rules.outcome(start)), (NEVER if failed else len(b"ready\n"), ("held", ()))]
    try:
        held = rules.held(start)
    except Finding as finding:
        if ending != (*refusal(finding), b"") and not failed:
            raise Doubt(f"{ending} instead of {refusal(finding)}")
        return [(0, rules.outcome(start))]
    if status and not failed:
        raise Doubt(f"a run on a medium that holds a set ends with {status} {error!r}")
    told: Told = [(0, holding(held))]
    if words[2] == "large":
        if failed:
            return told + ([(NEVER, aim)] if aim else [])
        end = re.search(rb"checkpoint (\d+)\n", output)
        final = rules.outcome(after)
        if not end or final[0] != "held" or len(final[1]) != int(end[1]):
            raise Doubt(f"the medium holds {final[0]}, and the replies say {output[:60]!r}")
        return told + [(end.end(), final)]
    return told + [(place, holding(found)) for place, found in follow(rules, held, output, script, failed)]


def is_unused(rules: Rules, medium: bytes | None) -> bool:
    """Whether an `init` goes on to write a medium of these bytes."""
    size = 2 * rules.election.image_size() + 2
    return medium is None or len(medium) < size or len(medium) == size and 0xA7 not in medium[-2:]


def holding(held: dict[int, Any]) -> Outcome:
    """The outcome of a recovery that gives this set."""
    return "held", tuple(sorted(held.values()))


def together(rules: Rules, words: list[str], start: Media, ending: Ending, after: Media, failed: str | None) -> Told:
    """The same of a merge or a migration."""
    [name] = written_by(words)
    more = [start.get(other) for other in (words[3:] if words[2] == "merge" else words[:1])]
    before, now = start.get(name), after.get(name)
    told, held = rules.merge(before, more) if words[2] == "merge" else rules.migrate(more[0], before)
    if failed:
        return [(0, rules.outcome(before)), *([] if held is None else [(NEVER, holding(held))])]
    if ending != told:
        raise Doubt(f"{short(ending)} instead of {short(told)}")
    if now != (before if held is None else rules.medium(held)):
        raise Doubt(f"{short(ending)}, and the medium is not as it has to be then")
    done = [(len(ending[2]), rules.outcome(now))] if ending[0] == 0 else []
    return [(0, rules.outcome(before)), *done]


def paired(
    rules: Rules, words: list[str], script: bytes, start: Media, ending: Ending, after: Media, failed: str | None
) -> dict[str, Told]:
    """The same of two disks, and a session on both."""
    names, output = written_by(words), ending[2]
    told, line, held = rules.pair(*(start.get(name) for name in names))
    if failed and not output:
        line = b""  # it failed before the line was written
    elif (ending[:2] != told and not failed) or not output.startswith(line) or told[0] and output != line:
        raise Doubt(f"{short(ending)} instead of {short((*told, line))}")
    sets: Sets = []
    if told[0] == 0:
        checkpoints = follow(rules, held, output.removeprefix(line), script, failed)
        sets = [(len(line) or NEVER, held), *((len(line) + place, found) for place, found in checkpoints)]
    for name in names if not failed else []:
        if after.get(name) != (rules.medium(sets[-1][1]) if sets else start.get(name)):
            raise Doubt(f"{short(ending)}, and {name} is not as it has to be then")
    each: Told = [(place, holding(found)) for place, found in sets]
    return {name: [(0, rules.outcome(start.get(name))), *each] for name in names}


def parted(
    rules: Rules, words: list[str], script: bytes, start: Media, ending: Ending, after: Media, failed: str | None
) -> dict[str, Told]:
    """The same of the parts of a store, and a session on all."""
    names, output = written_by(words), ending[2]
    told, held = rules.opened([start.get(name) for name in names])
    if (ending[:2] != told and not failed) or held is None and output:
        raise Doubt(f"{short(ending)} instead of {short(told)}")
    sets: Sets = []
    if held is not None:
        sets = [(0, held), *follow(rules, held, output, script, failed, len(names))]
    split = [(place, shares(len(names), found)) for place, found in sets]
    outcomes = {}
    for part, name in enumerate(names):
        own = [(place, found[part]) for place, found in split]
        if not failed and after.get(name) != (rules.medium(own[-1][1]) if own else start.get(name)):
            raise Doubt(f"{short(ending)}, and {name} is not as it has to be then")
        outcomes[name] = [(place, holding(found)) for place, found in own] or [(0, rules.outcome(start.get(name)))]
    return outcomes


def allowed_at(told: Told, replied: float) -> set[Outcome]:
    """What may be recovered when so many bytes of replies were written."""
    last = max(i for i, (place, _) in enumerate(told) if place <= replied)
    return {outcome for _, outcome in told[slice(last, last + 2)]}


def short(outcome: object) -> str:
    """Its text, cut where it is long."""
    text = repr(outcome)
    return text if len(text) < 200 else text[:200] + " .."
