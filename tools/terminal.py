"""Runs a program at a pseudo-terminal, and rows of tools/check_program of what it shows there."""
import contextlib
import os
import pty
import subprocess
import termios

import manual_page

# What a line of words that is no command shows: the first line everywhere, the rest at a terminal alone.
USAGE = b"ballot_store: usage\n"
HELP = "".join(f"    {form}\n" for form in manual_page.forms()).encode() + b"The manual: man ballot_store\n"


def run(words, at_terminal, typed=b"", **how):
    """Runs a program of whose streams ("stdin", "stdout", "stderr") some are at one terminal, and the others at
    /dev/null and at pipes. Returns its status, what the terminal showed, and what came by the two pipes."""
    screen, end = pty.openpty()
    settings = termios.tcgetattr(end)
    settings[1] &= ~termios.OPOST  # line feeds as they are written
    termios.tcsetattr(end, termios.TCSANOW, settings)
    streams = {"stdin": subprocess.DEVNULL, "stdout": subprocess.PIPE, "stderr": subprocess.PIPE}
    streams.update(dict.fromkeys(at_terminal, end))
    with subprocess.Popen(words, **streams, **how) as ran:
        os.close(end)
        os.write(screen, typed)
        shown = b""
        with contextlib.suppress(OSError):  # the terminal's other end is closed
            while piece := os.read(screen, 4096):
                shown += piece
        written = [stream.read() if stream else b"" for stream in (ran.stdout, ran.stderr)]
    os.close(screen)
    return ran.returncode, shown, *written


def terminal_rows(table, program, election):
    """Help, which only a terminal gets that standard error is. Nothing else differs there."""
    for words in ([], ["m", "e", "sort"], ["m", "e", "initt"], ["--help"], ["m", "e", "large", "--seed", "1"]):
        found = run([program, *words], ["stderr"], cwd=table.room)
        table.same(f"help at a terminal, of the words {words}", found, (2, USAGE + HELP, b"", b""))
        found = run([program, *words], ["stdin", "stdout"], cwd=table.room)
        table.same(f"no help where only the others are a terminal, of the words {words}", found, (2, b"", b"", USAGE))
    found = run([program, b"m\xff", "e", "init"], ["stderr"], cwd=table.room)
    table.same("help at a terminal, of words that are no text", found, (2, USAGE + HELP, b"", b""))
    missing = run([program, "m", "missing.json", "audit"], ["stderr"], cwd=table.room)
    table.same("another refusal at a terminal", missing, (6, b"ballot_store: election read fault\n", b"", b""))
    made = run([program, "terminal.medium", election, "init"], ["stdin", "stderr"], cwd=table.room)
    table.same("a command at a terminal", made, (0, b"", b"ready\n", b""))
    made = run([program, "terminal.medium", election, "audit"], ["stdin", "stdout", "stderr"], cwd=table.room)
    table.same("its answer at a terminal", made, (0, b"canonical 0\n", b"", b""))
