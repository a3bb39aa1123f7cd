#!/usr/bin/env python3
"""Several scanners at one session: an example to copy, which docs/INTEGRATION.md explains. It needs Python alone.

    scanners.py hub SOCKET SCANNERS MEDIUM ELECTION    runs the one session, and begins it again when it was killed
    scanners.py scanner SOCKET I <SHEETS               casts a ballot for each line: "STYLE MARKS"
    scanners.py official SOCKET                        hands over typed lines: "checkpoint", and at the end "end"
    scanners.py trial MEDIUM ELECTION <SHEETS          starts all of these for three scanners, and kills the session

`ballot_store` is on the PATH. Where a number is printed on the sheets, it stands in front of the style; otherwise the
scanner draws one at random. Nobody keeps an order of casting beyond the open phase: the hub hands replies back in the
order of the numbers, and what a scanner keeps until a checkpoint is a set. Nothing is written to a file.
"""
import asyncio
import os
import secrets
import signal
import subprocess
import sys
import tempfile
import time

SEEN = "accepted", "duplicate"  # replies after which the ballot is held


class Ended(Exception):
    """The session ended before it replied."""


class Hub:
    """The one session, with a phase open whenever possible, and a connection to each scanner."""

    def __init__(self, count, medium, election):
        self.words = ["ballot_store", medium, election, "session"]
        self.count = count
        self.scanners = {}  # of each scanner at work its connection
        self.is_open = asyncio.Event()  # whether scanners may cast
        self.one_request = asyncio.Lock()

    def begin_phase(self):
        """Of each scanner the lines of the open phase, by the number that the line has in the session."""
        self.cast = {scanner: {} for scanner in range(1, self.count + 1)}
        self.replies = []  # the replies at the close: scanner, place among its lines, word

    async def run(self):
        """Runs sessions until one ends by itself, and returns its status."""
        while True:
            self.session = await asyncio.create_subprocess_exec(
                *self.words, stdin=subprocess.PIPE, stdout=subprocess.PIPE)
            print("session", self.session.pid, flush=True)
            self.lines, self.asked = 0, None
            opening = asyncio.create_task(self.open())
            await self.listen()
            status = await self.session.wait()
            self.is_open.clear()
            if self.asked and not self.asked.done():
                self.asked.set_exception(Ended())
            await asyncio.wait([opening])
            if status >= 0:  # it was not killed: all is done, or a person has to remove the cause
                return status
            lost = sum(map(len, self.cast.values()))
            print(f"the session was killed, with {lost} lines of the open phase", flush=True)
            self.tell_all("again")

    async def write(self, line):
        """Writes one whole line, so that those of two scanners never mix, and counts it."""
        self.lines += 1
        self.session.stdin.write(line + b"\n")
        try:
            await self.session.stdin.drain()
        except ConnectionError:
            pass  # the session was killed: listen() comes to its end

    async def ask(self, line):
        """Writes a line that has one reply at once, and returns it."""
        self.asked = asyncio.get_running_loop().create_future()
        await self.write(line)
        return await self.asked

    async def listen(self):
        """Reads the replies until the session ends."""
        async for reply in self.session.stdout:
            words = reply.decode().split()
            if words[0] == "line":  # "line L malformed" comes at once
                self.refuse(int(words[1]), words[2])
            elif words[0].isdigit():  # "I K accepted" comes at the close
                self.replies.append((int(words[0]), int(words[1]), words[2]))
            else:  # "casting T", "closed N", "checkpoint N"
                self.asked.set_result(" ".join(words))

    def refuse(self, number, word):
        """A refused line stands in no list, so that it is taken out before the lists are counted."""
        for scanner, lines in self.cast.items():
            if number in lines:
                self.tell(scanner, word, lines.pop(number))

    def hand_back(self):
        """Gives each scanner its replies, in the order of the numbers, and forgets the order of casting."""
        lists = {scanner: list(lines.values()) for scanner, lines in self.cast.items()}
        told = [(int(lists[scanner][k - 1].split()[0]), scanner, k, word) for scanner, k, word in self.replies]
        for _, scanner, k, word in sorted(told):
            self.tell(scanner, word, lists[scanner][k - 1])
        self.begin_phase()

    def tell(self, scanner, word, line=b""):
        if scanner in self.scanners:
            self.scanners[scanner].write(b" ".join([word.encode(), line]).rstrip() + b"\n")

    def tell_all(self, word):
        for scanner in self.scanners:
            self.tell(scanner, word)

    async def open(self):
        self.begin_phase()
        try:
            await self.ask(b"open cast %d" % self.count)
        except Ended:
            return  # run() begins the next session
        self.is_open.set()

    async def checkpoint(self, is_last):
        """Closes the phase, hands the replies back, makes a checkpoint, and opens a phase or ends the session."""
        async with self.one_request:
            await self.is_open.wait()
            self.is_open.clear()
            await self.ask(b"close")
            self.hand_back()
            told = await self.ask(b"checkpoint")  # from here on a stop leaves these ballots
            self.tell_all("kept")
            if is_last:
                self.session.stdin.close()
            else:
                await self.open()
        print(told, flush=True)
        return told

    async def serve(self, reader, writer):
        """One connection: of a scanner, or of an official."""
        role, _, number = (await reader.readline()).decode().strip().partition(" ")
        if role == "official":
            await self.serve_official(reader, writer)
        elif number.isdigit() and 1 <= int(number) <= self.count and int(number) not in self.scanners:
            self.scanners[int(number)] = writer
            try:
                await self.serve_scanner(int(number), reader)
            except (ConnectionError, ValueError):  # it is gone, or its line is longer than any ballot's
                pass
            del self.scanners[int(number)]
        writer.close()

    async def serve_scanner(self, scanner, reader):
        """Casts a scanner's lines. What comes while no phase is open waits in its connection."""
        while (line := await reader.readline()).endswith(b"\n"):
            while not self.is_open.is_set():
                await self.is_open.wait()
            line = line.rstrip(b"\n")
            self.cast[scanner][self.lines + 1] = line
            await self.write(b"cast %d %s" % (scanner, line))

    async def serve_official(self, reader, writer):
        while line := (await reader.readline()).decode().strip():
            try:
                told = await self.checkpoint(line == "end") if line in ("checkpoint", "end") else "checkpoint or end?"
            except Ended:
                told = "the session was killed: ask again"
            writer.write(told.encode() + b"\n")
            await writer.drain()


async def hub(path, count, medium, election):
    """Opens the socket in a folder that is the office's alone: whoever reaches it can cast."""
    one = Hub(int(count), medium, election)
    server = await asyncio.start_unix_server(one.serve, path)
    status = await one.run()
    server.close()
    return status


class Scanner:
    """One scanner. It keeps a ballot until a checkpoint has it, in sets, which have no order."""

    def __init__(self, reader, writer):
        self.reader, self.writer = reader, writer
        self.waiting = set()  # lines without a reply
        self.cast = set()  # lines whose ballots are held, but may be lost by a stop
        self.is_scanning = True

    async def scan(self):
        """Casts a ballot for each sheet; a person or a machine hands them in at their own pace."""
        while sheet := await asyncio.to_thread(sys.stdin.readline):
            words = sheet.split()
            if len(words) == 2:  # no number is printed on it
                words.insert(0, str(1 + secrets.randbelow(2**64 - 1)))
            if words:
                await self.send(" ".join(words))
        self.is_scanning = False

    async def send(self, line):
        self.waiting.add(line)
        self.writer.write(line.encode() + b"\n")
        await self.writer.drain()

    async def listen(self):
        """Handles what the hub tells, until all sheets are kept. The order of the numbers is no order of casting."""
        while self.is_scanning or self.waiting or self.cast:
            told = (await self.reader.readline()).decode().strip()
            word, _, line = told.partition(" ")
            if word == "kept":
                self.cast.clear()
            elif word == "again":  # what no checkpoint has is cast again, with the same numbers
                again, self.cast = self.waiting | self.cast, set()
                for one in sorted(again):
                    await self.send(one)
            elif not word:
                print("the hub is gone: see which checkpoint the medium holds, and scan what came after it", flush=True)
                os._exit(1)  # (a thread still waits for a sheet)
            else:
                self.waiting.discard(line)
                if word in SEEN:
                    self.cast.add(line)
                else:  # a conflict, a full medium or a refused line: the sheet is found by its number
                    print(f"{word}: set aside the sheet {line.split()[0]}", flush=True)


async def scanner(path, number):
    reader, writer = await asyncio.open_unix_connection(path)
    writer.write(f"scanner {number}\n".encode())
    one = Scanner(reader, writer)
    await asyncio.gather(one.scan(), one.listen())
    writer.close()
    return 0


async def official(path):
    reader, writer = await asyncio.open_unix_connection(path)
    writer.write(b"official\n")
    while line := await asyncio.to_thread(sys.stdin.readline):
        writer.write(line.encode())
        told = (await reader.readline()).decode().strip()
        print(told, flush=True)
        if line.strip() == "end" and told.startswith("checkpoint"):
            break
    writer.close()
    return 0


def start(*words):
    """One of the processes, with pipes for what it reads and writes."""
    return subprocess.Popen([sys.executable, __file__, *words], text=True, bufsize=1,
                            stdin=subprocess.PIPE, stdout=subprocess.PIPE)


def ask(one, line):
    """Types a line for the official, and returns the answer."""
    one.stdin.write(line + "\n")
    return one.stdout.readline().strip()


def trial(medium, election, count=3):
    """A made-up day: sheets are dealt to the scanners, and the session is killed twice with a phase open."""
    sheets = sys.stdin.readlines()
    folder = tempfile.TemporaryDirectory()
    path = os.path.join(folder.name, "socket")
    session = start("hub", path, str(count), medium, election)
    process = int(session.stdout.readline().split()[1])
    while not os.path.exists(path):
        time.sleep(0.01)
    scanners = [start("scanner", path, str(one + 1)) for one in range(count)]
    clerk = start("official", path)
    for at, sheet in enumerate(sheets):
        scanners[at % count].stdin.write(sheet)
        if at % 8 == 0:
            time.sleep(0.02)
        if at == len(sheets) // 4:
            ask(clerk, "checkpoint")
        if at in (len(sheets) // 2, len(sheets) * 3 // 4):
            time.sleep(0.2)  # so that most of the sheets since the checkpoint were cast
            os.kill(process, signal.SIGKILL)
            while not (told := session.stdout.readline().strip()).startswith("session"):
                print(told)
            process = int(told.split()[1])
    for one in scanners:
        one.stdin.close()
    while any(one.poll() is None for one in scanners):  # each goes when a checkpoint has all its sheets
        ask(clerk, "checkpoint")
        time.sleep(0.1)
    for at, one in enumerate(scanners, 1):
        print("".join(f"scanner {at}: {line}" for line in one.stdout), end="")
    told = ask(clerk, "end")
    status = session.wait()
    print(f"{len(sheets)} sheets at {count} scanners: {told}")
    return status or max(one.returncode for one in scanners)


ROLES = {"hub": (hub, 4), "scanner": (scanner, 2), "official": (official, 1)}

if __name__ == "__main__":
    role, *words = sys.argv[1:] or [""]
    if role == "trial" and len(words) == 2:
        sys.exit(trial(*words))
    if role not in ROLES or len(words) != ROLES[role][1]:
        sys.exit(__doc__)
    sys.exit(asyncio.run(ROLES[role][0](*words)))
