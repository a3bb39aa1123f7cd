"""Random media, words and scripts of the commands that write media, for the tools that stop such runs or fail their
syncs (`lose_power`, `fail_syncs`). Scripts have no bad lines here, and mostly a checkpoint behind each phase.
"""

import random
from typing import Any

from acknowledged import Media
from random_cases import FURTHER, MORE, Maker, name_of, text_of
from store_model import Rules

Described = dict[str, Any] | None  # a medium, as random_cases.py describes it


class RandomRuns:
    """An election and media of one of five kinds, and runs on them. Crowded ones have many numbers, on all homes."""

    def __init__(self, rng: random.Random, kind: str, election: dict[str, Any], crowded: bool = False) -> None:
        self.rng, self.kind = rng, kind
        self.maker = Maker(rng, election, crowded=crowded or kind not in ("alone", "twin"))
        medium, more = self.described()
        self.case: dict[str, Any] = {"election": election, "text": None, "medium": medium, "more": more, "runs": []}
        self.text: bytes = text_of(self.case)
        self.rules = Rules(self.text)

    def described(self) -> tuple[Described, list[dict[str, Any]]]:
        """The medium, and those beside it."""
        if self.kind == "migrate":
            media = {name: self.maker.old_medium(0.3, 0.02) for name in MORE[:3]}
            return self.maker.target(0.1), [{"name": name} | told for name, told in media.items() if told]
        if self.kind == "twin":
            medium = self.maker.twin(None, 0.45, 0.2, 0.02)
            second = self.maker.twin(medium, 0.45, 0.35, 0.02)
            return medium, [{"name": MORE[0]} | second] if second else []
        if self.kind == "part":
            first, others = self.maker.parts(0.05, 0.8)
            return first, others
        if self.kind == "alone":
            return self.maker.medium(0.45, 0.05), []
        self.maker.overlap()
        return self.maker.medium(0.45, 0.05), self.maker.further(0.3, 0.01)

    def words(self, start: Media) -> tuple[list[str], bytes]:
        """The words of a run on these media, and its script."""
        rng, name = self.rng, "medium"
        if self.kind == "migrate" and rng.random() < 0.8:
            return [name_of(rng.choice(MORE[:3])), "election.json", "migrate", "medium"], b""
        if self.kind == "twin":
            name, second = rng.choice([["medium", "more1"]] * 4 + [["more1", "medium"]])
            if rng.random() < 0.8:
                return [name, "election.json", "twin", second], self.script([0, 1, 1, 2, 3])
        if self.kind == "part" and rng.random() < 0.95:
            more = map(name_of, MORE[: self.maker.count - 1])
            return ["medium", "election.json", "part", *more], self.script([1, 2, 3])
        if start.get(name) is None or rng.random() < 0.1:
            return [name, "election.json", "init"], b""
        if self.kind == "merge" and rng.random() < 0.7:
            further = rng.sample(MORE, rng.choice(FURTHER["merge"]))
            return ["medium", "election.json", "merge", *map(name_of, further)], b""
        if rng.random() < 0.1:
            seed, count, tabs = str(rng.randint(1, 99999)), str(rng.randint(1, 60)), str(rng.choice([1, 3]))
            return [name, "election.json", "large", "--seed", seed, "--count", count, "--tabs", tabs], b""
        return [name, "election.json", "session"], self.script([1, 2, 3, 4])

    def script(self, phases: list[int], crowded: bool = False) -> bytes:
        """A script of so many phases as one of these numbers, with a checkpoint behind most."""
        script: list[str] = []
        for line in self.maker.script(self.rng.choice(phases), crowded, badness=0):
            script += [line, "checkpoint"] if line == "close" and self.rng.random() < 0.8 else [line]
        return "\n".join(script).encode()
