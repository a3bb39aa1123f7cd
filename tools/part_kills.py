"""Sessions on the parts of a store that are killed, for `check_program`."""

import itertools
import random
import re
import subprocess
import time

from part_media import shares
from twin_rows import torn
from version_rows import text

STEPS = 10


class Kills:
    """A session of ten checkpoints, each of which changes most parts, and the media of its eleven sets."""

    def __init__(self, media):
        self.media, chance, replies = media, random.Random(20), []
        numbers = [chance.randrange(1, 2**64) for _ in range(160)]
        lines = [f"{number} 1 {chance.choice('-1234')}/{chance.choice('-1234')}" for number in numbers]
        held, self.steps = set(lines[:60]), []
        self.sets, self.held = [media.media(sorted(held))], [sorted(held)]
        for k in range(60, 160, 10):
            gone = chance.sample(sorted(held), 4)
            casts = (f"cast {1 + at % 2} {line}" for at, line in enumerate(lines[k:k + 10]))
            withdrawals = (f"withdraw 1 {line.split(' ')[0]}" for line in gone)
            self.steps.append(text("open cast 2", *casts, "close", "open withdraw 1", *withdrawals, "close",
                                   "checkpoint"))
            held = (held | set(lines[k:k + 10])) - set(gone)
            replies += ["casting 2", *(f"{1 + at // 5} {1 + at % 5} accepted" for at in range(10)),
                        f"closed {len(held) + 4}", "withdrawing 1", *(f"1 {at} withdrawn" for at in range(1, 5)),
                        f"closed {len(held)}", f"checkpoint {len(held)}"]
            self.sets.append(media.media(sorted(held)))
            self.held.append(sorted(held))
        self.script, self.replies = media.folder / f"killed{media.count}.session", text(*replies)
        self.script.write_bytes(b"".join(self.steps))
        others = media.media(lines[:40] + lines[150:])
        stops = [list(torn(other, whole)) for other, whole in zip(others, self.sets[0])]
        self.torn = [[of_part[stop] for of_part in stops] for stop in range(6, 12)]  # which hold the first set

    def run(self, seconds):
        """Runs the session, and kills it after so many seconds. How it ended, and what it wrote."""
        told = self.media.folder / "told"
        with open(self.script, "rb") as script, open(told, "wb") as output:
            with subprocess.Popen([self.media.program, *self.media.words], stdin=script, stdout=output) as run:
                if seconds is None:
                    run.wait(timeout=60)
                else:
                    time.sleep(seconds)
                run.kill()
        return run.returncode, told.read_bytes()

    def wrong(self, told):
        """What is wrong with a run that was killed, and with the parts that it left, in words, or nothing."""
        if not self.replies.startswith(told):
            return f"it wrote {told[-80:]!r}"
        count = len(re.findall(rb"^checkpoint \d+\n", told, re.MULTILINE))
        done = self.again(b"export\n")
        old, new = self.sets[count], self.sets[min(count + 1, STEPS)]
        left = [path.read_bytes() for path in self.media.paths]
        if any(data not in (a, b) for data, a, b in zip(left, old, new)):
            return f"after {count} checkpoints a part holds another set"
        changed = [data == b for data, a, b in zip(left, old, new) if a != b]
        if changed != sorted(changed, reverse=True):
            return f"after {count} checkpoints a part is new behind one that is old: {changed}"
        lines = [line for data, a, b, olds, news in
                 zip(left, old, new, self.shares(count), self.shares(min(count + 1, STEPS)))
                 for line in (news if data == b else olds)]
        if (done.returncode, done.stderr, done.stdout) != (0, b"", self.media.exported(lines)):
            return f"the next run ends with {done.returncode} {done.stderr!r} and writes {done.stdout[:80]!r}"
        return self.wrong_again(count)

    def shares(self, count):
        return shares(self.media.count, self.held[count])

    def wrong_again(self, count):
        """What is wrong once the lines behind the last checkpoint that was told are given again."""
        done = self.again(b"".join(self.steps[count:count + 1]))
        if done.returncode or done.stderr:
            return f"the lines again end with {done.returncode} {done.stderr!r}"
        if [path.read_bytes() for path in self.media.paths] != self.sets[min(count + 1, STEPS)]:
            return f"the lines behind {count} checkpoints again come to another set"
        return ""

    def again(self, script):
        return subprocess.run([self.media.program, *self.media.words], input=script, capture_output=True)


def killed_rows(stores, kills):
    """Sessions that are killed at some moment. Each part then holds its share of the set of the last checkpoint that
    was told or of the next, and none is ahead of one before it; the same lines again come to the next set. Each third
    run begins on parts that have to be recovered."""
    table, chance, all_kills = stores[0].table, random.Random(), [Kills(media) for media in stores]
    most = {}
    for kill, number in itertools.product(all_kills, range(3)):
        kill.media.lay(kill.torn[number])
        begun, name = time.monotonic(), f"ten checkpoints on {kill.media.count} parts"
        table.same(name, kill.run(None), (0, kill.replies))
        most[kill] = min(most.get(kill, 60), time.monotonic() - begun)
        kill.media.stands(name, kill.sets[-1])
    for number in range(kills):
        kill = all_kills[number % len(all_kills)]
        kill.media.lay(chance.choice(kill.torn) if number % 3 == 0 else kill.sets[0])
        _, told = kill.run(chance.uniform(0, most[kill]))
        table.same(f"kill {number + 1}, of {kill.media.count} parts", kill.wrong(told), "")
