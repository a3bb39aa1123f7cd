#!/usr/bin/python3
"""Copies of a device at random moments of a session or of a pair of disks, and what is recovered from them: for
`lose_mounted`.
"""
import contextlib
import itertools
import json
import os
import queue
import random
import re
import select
import shlex
import subprocess
import threading
import time
from pathlib import Path
from typing import Any, NamedTuple

import random_cases
import store_model
from mounted_devices import KINDS, Copies, Device, Failure, Kind, Room, copy_data, formatted, sync

CASES: Any = random_cases
MODEL: Any = store_model
Outcome = tuple[str, Any]  # "held" and the sorted ballots of a set, or "refused" and a status with its text
ROOT = Path(__file__).resolve().parent.parent
NAMES = ("medium", "more1")  # of the media on a device
MOST = 32  # snapshots of one run


class Moment(NamedTuple):
    """A snapshot, and how many bytes of replies were read before it began and after it ended."""

    image: Path
    before: int
    after: int


class Program:
    """The program, and its runs in folders of file systems."""

    def __init__(self, path: str, room: Room) -> None:
        self.path, self.election = Path(path).resolve(), room.path / "election.json"
        self.audits = 0

    def words(self, command: str, *more: str) -> list[str]:
        """The words of a run."""
        return [NAMES[0], str(self.election), command, *more]

    def run(self, words: list[str], script: bytes, folder: Path) -> tuple[int, str, bytes]:
        """How a run ends: status, standard error and output."""
        ended = subprocess.run([self.path, *words], cwd=folder, input=script, capture_output=True, timeout=120)
        return ended.returncode, ended.stderr.decode("latin-1"), ended.stdout

    def recover(self, rules: Any, folder: Path, name: str) -> Outcome:
        """What a medium alone is recovered to; the program audits each fourth."""
        status, error, output = self.run([name, str(self.election), "session"], b"export\n", folder)
        if status:
            return "refused", (status, error)
        held = {ballot[0]: ballot for ballot in map(rules.ballot, output.splitlines()[1:])}
        if output.splitlines() != rules.export(held) or read(folder, name) != rules.medium(held):
            return "recovered, and the medium is not that of its set", holding(held)
        self.audits += 1
        if self.audits % 4 == 0:
            audit = self.run([name, str(self.election), "audit"], b"", folder)
            if audit != (0, "", b"canonical %d\n" % len(held)):
                return "recovered, and the audit says", audit
        return holding(held)


class Play:
    """A session, or a twin, on random media of a random election, with many checkpoints."""

    def __init__(self, rng: random.Random, program: Program) -> None:
        election = CASES.election(rng, small=True)
        if rng.random() < 0.5:
            election |= {"limit": rng.randint(60, 400), "bits": rng.randint(5, 8)}
        self.maker = CASES.Maker(rng, election, crowded=True)
        self.text = json.dumps(election).encode()
        self.rules = MODEL.Rules(self.text)
        is_twin = rng.random() < 0.4
        self.names = NAMES if is_twin else NAMES[:1]
        self.media: dict[str, bytes | None] = {}
        while not self.is_served():
            made = [self.maker.twin(None, 0.45, 0.1, 0)]
            made += [self.maker.twin(made[0], 0.45, 0.4, 0)] if is_twin else []
            self.media = {name: told and CASES.bytes_of(election, told) for name, told in zip(self.names, made)}
        self.words = program.words("twin", NAMES[1]) if is_twin else program.words("session")
        self.script = "".join(line + "\n" for line in self.lines(rng)).encode()
        program.election.write_bytes(self.text)

    def lines(self, rng: random.Random) -> list[str]:
        """The lines of a script in which each phase is closed, with a checkpoint behind most."""
        script, is_open = list[str](), False
        drawn: list[str] = self.maker.script(rng.choice([30, 80, 150]), badness=0)
        for line in filter(None, drawn):
            is_item = line.split(" ")[0] in ("cast", "withdraw", "find")
            if is_open and not is_item:
                script += ["close"] + ["checkpoint"] * (rng.random() < 0.8)
                is_open = False
            script += [line] if line != "close" else []
            is_open |= line.startswith("open")
        return script + ["close"] * is_open

    def is_served(self) -> bool:
        """Whether the media, or the medium, let a session begin."""
        if len(self.media) < 2:
            return bool(self.media) and bool(self.rules.outcome(self.media[NAMES[0]])[0] == "held")
        return bool(self.rules.pair(*self.media.values())[0][0] == 0)

    def lay(self, folder: Path) -> None:
        """Lays the media into a folder, and syncs them and their names."""
        for name, data in self.media.items():
            if data is not None:
                with open(folder / name, "xb") as file:
                    file.write(data)
        sync(folder)

    def acknowledged(self, output: bytes) -> list[tuple[int, dict[str, Outcome]]]:
        """What each medium may hold at the start, and from which byte of the replies on it holds which set."""
        start = {name: self.rules.outcome(data) for name, data in self.media.items()}
        told: list[tuple[int, dict[str, Outcome]]] = [(0, start)]
        if len(self.media) > 1:
            _, line, held = self.rules.pair(*self.media.values())
            if not output.startswith(line):
                raise MODEL.Doubt(f"{output[:40]!r} instead of {line!r}")
            told.append((len(line), dict.fromkeys(self.names, holding(held))))
        else:
            line, held = b"", self.rules.held(self.media[NAMES[0]])
        skipped = len(line)
        checkpoints = MODEL.Session(self.rules, held, output[skipped:]).follow(self.script).checkpoints
        return told + [(skipped + place, dict.fromkeys(self.names, holding(new))) for place, new in checkpoints]


def holding(held: dict[int, Any]) -> Outcome:
    """The outcome of a recovery that gives this set."""
    return "held", tuple(sorted(held.values()))


def read(folder: Path, name: str) -> bytes | None:
    """The bytes of a medium, or None where it is missing."""
    path = folder / name
    return path.read_bytes() if path.exists() else None


def allowed_at(told: list[tuple[int, dict[str, Outcome]]], name: str, moment: Moment) -> set[Outcome]:
    """What may be recovered of a medium at a moment: the set acknowledged before it began, one acknowledged until it
    ended, or the one that was being checkpointed then."""
    first = max(i for i, (place, _) in enumerate(told) if place <= moment.before)
    end = 2 + max(i for i, (place, _) in enumerate(told) if place <= moment.after)
    return {outcomes[name] for _, outcomes in told[first:end]}


class Fed:
    """A run of the program that gets the lines of its script, from one checkpoint to the next, only when it may."""

    def __init__(self, words: list[str], folder: Path, env: dict[str, str], script: bytes) -> None:
        pieces = re.split(rb"(?<=\ncheckpoint\n)", script)
        self.pieces, self.count, self.output = iter(pieces), len(pieces), b""
        self.given = 0
        self.process = subprocess.Popen(words, cwd=folder, env=env, stdin=subprocess.PIPE, stdout=subprocess.PIPE,
                                        stderr=subprocess.PIPE)  # fmt: skip
        self.watch, self.waiting = threading.Timer(120, self.process.kill), queue.SimpleQueue[bytes | None]()
        self.watch.start()
        self.feeder = threading.Thread(target=self.feed)
        self.feeder.start()
        assert self.process.stdout
        self.stream = self.process.stdout.fileno()
        os.set_blocking(self.stream, False)
        self.pace = 0.003  # seconds from one checkpoint to the next, as the last ones were

    def feed(self) -> None:
        """Gives the program the pieces as they come."""
        assert self.process.stdin
        with contextlib.suppress(BrokenPipeError), self.process.stdin as lines:
            while (piece := self.waiting.get()) is not None:
                lines.write(piece)
                lines.flush()

    def drain(self) -> bytes:
        """All replies until now."""
        with contextlib.suppress(BlockingIOError):
            while part := os.read(self.stream, 1 << 16):
                self.output += part
        return self.output

    def reach(self, target: int) -> None:
        """Lets so many checkpoints be acknowledged, and the next one begin."""
        begun, before = time.monotonic(), self.acknowledged()
        for piece in itertools.islice(self.pieces, target + 1 - self.given):
            self.waiting.put(piece)
            self.given += 1
        while self.acknowledged() < target and self.process.poll() is None:
            select.select([self.stream], [], [], 0.01)
        if target > before:
            self.pace = (time.monotonic() - begun) / (target - before)

    def acknowledged(self) -> int:
        """How many checkpoints were acknowledged until now."""
        return self.drain().count(b"checkpoint ")

    def end(self) -> tuple[int, bytes, bytes]:
        """Gives it all that is left, and waits for its end."""
        for piece in [*self.pieces, None]:
            self.waiting.put(piece)
        while self.process.poll() is None:
            select.select([self.stream], [], [], 0.01)
            self.drain()
        assert self.process.stderr
        return self.process.wait(), self.process.stderr.read(), self.drain()

    def kill(self) -> None:
        """Ends it, where it has not ended."""
        self.waiting.put(None)
        self.watch.cancel()
        self.process.kill()
        self.process.wait()
        self.feeder.join()
        assert self.process.stdout and self.process.stderr
        self.process.stdout.close()
        self.process.stderr.close()


class Moments:
    """Takes snapshots of runs on file systems, and recovers them."""

    def __init__(self, program: Program, room: Room, copies: Copies, seed: int, keep: Path) -> None:
        self.program, self.room, self.copies, self.seed, self.keep = program, room, copies, seed, keep
        self.preload: Path | None = None  # a library in place of the system's calls of a sync
        self.mounted = room.folder("mounted")
        self.runs = self.states = self.open = 0  # open: of which a medium was not that of its set

    def go(self, kind: Kind, number: int, most: int) -> str:
        """A run, and so many of its snapshots at most. The first one that is wrong, in words, or nothing."""
        rng = random.Random(f"{self.seed} {kind.name} {number}")
        play = Play(rng, self.program)
        template = self.copies.path / kind.name
        if not template.exists():
            formatted(kind, template)
        live = self.copies.path / "live"
        self.copies.copy(template, live)
        options = "nodatacow" if kind.type == "btrfs" and rng.random() < 0.25 else ""
        device = Device(kind, live, self.mounted, options)
        try:
            device.mount()
            play.lay(self.mounted)
            moments, ending = self.watch(play, device, rng)
        finally:
            device.close()
            live.unlink()
        self.runs += 1
        try:
            return self.judge(play, kind, number, rng, moments, ending, options, most)
        finally:
            for moment in moments:
                moment.image.unlink(missing_ok=True)

    def watch(self, play: Play, device: Device, rng: random.Random) -> tuple[list[Moment], tuple[int, bytes, bytes]]:
        """The snapshots of a run at random moments, the last one when it has ended; and how it ended."""
        env = os.environ | ({"LD_PRELOAD": str(self.preload)} if self.preload else {})
        run = Fed([str(self.program.path), *play.words], self.mounted, env, play.script)
        moments = list[Moment]()
        try:
            for target in sorted(rng.choices(range(run.count), k=MOST)):
                run.reach(target)
                if run.process.poll() is None:  # somewhere in this checkpoint, or behind it
                    time.sleep(1.5 * rng.random() * run.pace)
                moments += self.taken(run, device, len(moments))
            ending = run.end()
            return moments + self.taken(run, device, len(moments)), ending
        finally:
            run.kill()

    def taken(self, run: "Fed", device: Device, number: int) -> list[Moment]:
        """A snapshot of now; none where it did not come about."""
        image, before = self.copies.path / f"moment{number}", len(run.drain())
        taken = self.copies.snapshot(device, image)
        return [Moment(image, before, len(run.drain()))] if taken else []

    def judge(self, play: Play, kind: Kind, number: int, rng: random.Random, moments: list[Moment],
              ending: tuple[int, bytes, bytes], options: str, most: int) -> str:  # fmt: skip
        """Recovers the snapshots of a run, in any order. The first one that is wrong, in words, or nothing."""
        status, error, output = ending
        if status:
            return f"{kind.name}, run {number}: it ends with {status} {error.decode('latin-1').strip()}"
        try:
            told = play.acknowledged(output)
        except MODEL.Doubt as doubt:
            return f"{kind.name}, run {number}: {doubt}"
        for moment in rng.sample(moments, min(most, len(moments))):
            allowed = {name: allowed_at(told, name, moment) for name in play.names}
            image = self.copies.path / "image"
            self.copies.copy(moment.image, image)
            wrong = self.recovered(play, kind, image, options, allowed, rng.random() < 0.3)
            image.unlink()
            self.states += 1
            if wrong:
                where = self.kept(play, kind, number, moment, options, output, allowed, wrong)
                return f"{kind.name}, run {number}, {moment.image.name}: {wrong}\n  kept in {where}"
        return ""

    def recovered(self, play: Play, kind: Kind, image: Path, options: str, allowed: dict[str, set[Outcome]],
                  both: bool) -> str:  # fmt: skip
        """Mounts a snapshot, and recovers what is on it, two disks alone or both. What is wrong, in words."""
        device = Device(kind, image, self.mounted, options)
        try:
            device.mount()
            media = [(data, play.rules.outcome(data)) for data in (read(self.mounted, name) for name in play.names)]
            self.open += any(of != "held" or data != play.rules.medium({b[0]: b for b in found})
                             for data, (of, found) in media)  # fmt: skip
            if both and len(play.names) > 1:
                return self.paired(play, allowed)
            for name in play.names:
                found = self.program.recover(play.rules, self.mounted, name)
                if found not in allowed[name]:
                    outcomes = " or ".join(map(short, sorted(allowed[name], key=repr)))
                    return f"{name}: {short(found)} instead of {outcomes}"
            return ""
        except Failure as failure:
            return str(failure)
        finally:
            device.close()

    def paired(self, play: Play, allowed: dict[str, set[Outcome]]) -> str:
        """Pairs the two disks of a snapshot. What is wrong, in words."""
        media = [read(self.mounted, name) for name in NAMES]
        for name, data in zip(NAMES, media):
            if play.rules.outcome(data) not in allowed[name]:
                return f"{name}: it holds {short(play.rules.outcome(data))}"
        (status, error), line, held = play.rules.pair(*media)
        export = b"".join(text + b"\n" for text in play.rules.export(held)) if status == 0 else b""
        found = self.program.run(self.program.words("twin", NAMES[1]), b"export\n", self.mounted)
        if found != (status, error, line + export):
            return f"the twin again: {short(found)} instead of {short((status, error, line))}"
        for name in NAMES:
            if status == 0 and read(self.mounted, name) != play.rules.medium(held):
                return f"the twin again: {name} is not the medium of its set"
        return ""

    def kept(self, play: Play, kind: Kind, number: int, moment: Moment, options: str, output: bytes,
             allowed: dict[str, set[Outcome]], wrong: str) -> Path:  # fmt: skip
        """Keeps a snapshot that was wrong, with what it came from."""
        folder = self.keep / f"mounted_{self.seed}_{kind.name}_{number}"
        folder.mkdir(parents=True, exist_ok=True)
        (folder / "device").unlink(missing_ok=True)
        copy_data(moment.image, folder / "device")
        (folder / "election.json").write_bytes(play.text)
        (folder / "run.words").write_text(shlex.join(play.words) + "\n")
        (folder / "run.script").write_bytes(play.script)
        (folder / "replies").write_bytes(output)
        for name, data in play.media.items():
            if data is not None:
                (folder / f"{name}.start").write_bytes(data)
        told = {name: sorted(outcomes, key=repr) for name, outcomes in allowed.items()}
        how = {"kind": kind.name, "options": options, "allowed": told}
        (folder / "allowed.json").write_text(json.dumps(how) + "\n")
        bytes_read = f"after {moment.before} to {moment.after} bytes of replies"
        (folder / "told.txt").write_text(f"{kind.name}, mounted with '{options}', {bytes_read}: {wrong}\n")
        program, here = shlex.quote(str(self.program.path)), shlex.quote(str(ROOT / "tools/lose_mounted"))
        again = f'exec {here} "${{1:-{program}}}" --again "$(dirname "$0")"\n'
        (folder / "again").write_text(
            "#!/bin/sh\n# Recovers this snapshot once more, by this program or another one.\n" + again
        )
        (folder / "again").chmod(0o755)
        return folder

    def again(self, folder: Path) -> bool:
        """Recovers a snapshot that was kept, and tells whether what comes is what may come."""
        how, text = json.loads((folder / "allowed.json").read_text()), (folder / "election.json").read_bytes()
        [kind] = [kind for kind in KINDS if kind.name == how["kind"]]
        self.program.election.write_bytes(text)
        copy_data(folder / "device", self.room.path / "again")
        device, fits = Device(kind, self.room.path / "again", self.mounted, how["options"]), True
        try:
            device.mount()
            for name, allowed in how["allowed"].items():
                found = self.program.recover(MODEL.Rules(text), self.mounted, name)
                is_right = json.loads(json.dumps(found)) in allowed
                print(f"{name}: {short(found)}, which is {'one of what' if is_right else 'not what'} may come")
                fits &= is_right
        finally:
            device.close()
        return fits


def short(outcome: object) -> str:
    """An outcome in few words."""
    text = repr(outcome)
    return text if len(text) < 200 else text[:200] + " .."
