"""Runs whose standard error or output nobody reads, or somebody late: dialogues go on, and the run ends. What children write on standard errors of their own."""

import os
import re
import select
import subprocess
import termios
import time

# a run gives up a reader after a second, and may have to do it once before its reports and once at its end
PATIENCE = 2
REST = 3
REPORT = re.compile(rb"(?m)^script (\d+) end=exit:0 .*transcript=(\d+) ")
LOST = re.compile(rb"exprun: (\d+) bytes of what scripts showed were not told, since nobody read them\n")
# shows more at each turn than a pipe and the run itself hold, of control characters, each of which is told as four
FLOODED = """set x {%s}
for {set i 0} {$i < 10} {incr i} {set x $x$x}
spawn cat
for {set i 0} {$i < 6} {incr i} {
    puts $x
    send "on $i\\r"
    expect -timeout 20 "on $i\\r\\n"
}
spawn sh -c {echo here >said}
expect -timeout 20 eof
""" % ("\1" * 64)
# answers in time, unless the worker stands
QUICK = "spawn sh -c {while read x; do sleep 0.1; echo got $x; done}\nfor {set i 0} {$i < 25} {incr i} {\n    send \"on $i\\r\"\n    expect -timeout 1 timeout {exit 7} \"got on $i\\r\\n\"\n}\n"


def make(folder):
    (folder / "flooded.exp").write_text(FLOODED)
    (folder / "quick.exp").write_text(QUICK)


def start(binary, folder, words, errors):
    # into a file, so that nobody has to read it meanwhile
    with open(folder / "out", "wb") as out:
        running = subprocess.Popen([binary, "run", "--summary", *words], cwd=folder, stdin=subprocess.DEVNULL, stdout=out, stderr=errors)
    os.close(errors)
    return running


def ended(running, folder, seconds):
    """The sizes of the transcripts of scripts that ended well, and what is wrong."""
    try:
        running.wait(seconds)
    except subprocess.TimeoutExpired:
        running.kill()
        running.wait()
        return None, [f"still runs after {seconds} s"]
    out = (folder / "out").read_bytes()
    reports = {int(script): int(size) for script, size in REPORT.findall(out)}
    wrong = [] if running.returncode == 0 else [f"status {running.returncode}, got {out[:300]!r}"]
    return reports, wrong


def await_said(folder, seconds):
    last = time.monotonic() + seconds
    while not (folder / "said").exists() and time.monotonic() < last:
        time.sleep(0.01)
    return [] if (folder / "said").exists() else ["the flood was held up"]


def all_of(end):
    told = b""
    try:
        while piece := os.read(end, 65536):
            told += piece
    except OSError:
        # nobody has the other end of the terminal any more
        pass
    os.close(end)
    return told


def full_pipe(binary, folder):
    """--follow into a pipe that nobody reads."""
    make(folder)
    read_end, errors = os.pipe()
    running = start(binary, folder, ["--follow", "--workers", "1", "flooded.exp", "quick.exp"], errors)
    wrong = await_said(folder, 30)
    reports, more = ended(running, folder, 10 + PATIENCE + REST)
    os.close(read_end)
    if reports is not None and sorted(reports) != [1, 2]:
        more.append(f"reports of {sorted(reports)}")
    return wrong + more


def late_reader(binary, folder):
    """The same with a reader that comes late: it is told how much it doesn't get, to the byte."""
    make(folder)
    read_end, errors = os.pipe()
    running = start(binary, folder, ["--follow", "flooded.exp"], errors)
    wrong = await_said(folder, 30)
    told = all_of(read_end)
    reports, more = ended(running, folder, 10)
    lost = [int(it) for it in LOST.findall(told)]
    rest = LOST.sub(b"", told)
    if not lost:
        more.append(f"lost {lost}")
    elif reports:
        # a newline is put before the line of exprun if what it stands behind doesn't end with one
        size = reports[1]
        if not 0 <= len(rest.replace(b"\\x01", b"x")) + sum(lost) - size <= len(lost):
            more.append(f"told {len(rest)} and lost {lost} of {size}")
    return wrong + more


def stopped_terminal(binary, folder, words):
    """A terminal that is stopped, as by Ctrl-S."""
    make(folder)
    read_end, errors = os.openpty()
    termios.tcflow(errors, termios.TCOOFF)
    kept = os.dup(errors)
    running = start(binary, folder, [*words, "--workers", "1", "flooded.exp", "quick.exp"], errors)
    wrong = await_said(folder, 30)
    reports, more = ended(running, folder, 10 + PATIENCE + REST)
    wrong += more
    shown = os.read(read_end, 65536) if select.select([read_end], [], [], 0)[0] else b""
    if shown:
        wrong.append(f"it wasn't stopped: {shown[:200]!r}")
    if reports is not None and sorted(reports) != [1, 2]:
        wrong.append(f"reports of {sorted(reports)}")
    os.close(kept)
    os.close(read_end)
    return wrong


def resumed_terminal(binary, folder):
    """A terminal that is stopped and goes on later: it shows how far the run is, and the line is gone at the end."""
    make(folder)
    read_end, errors = os.openpty()
    termios.tcflow(errors, termios.TCOOFF)
    kept = os.dup(errors)
    running = start(binary, folder, ["--workers", "1", "quick.exp"], errors)
    time.sleep(1.6)
    termios.tcflow(kept, termios.TCOON)
    os.close(kept)
    told = all_of(read_end)
    _, wrong = ended(running, folder, 10)
    fine = b"exprun: 0 of 1 over" in told and told.endswith(b"\r\x1b[K")
    return wrong if fine else [*wrong, f"told {told!r}"]


def unfinished_line(binary, folder):
    """A line that isn't whole is told after a second of quiet."""
    (folder / "1.exp").write_text("set timeout 20\nspawn sh -c {printf 'Password: '; read x <gate; echo on}\nexpect eof\n")
    (folder / "2.exp").write_text("puts fine\n")
    os.mkfifo(folder / "gate")
    gate = os.open(folder / "gate", os.O_RDWR)
    read_end, errors = os.pipe()
    running = start(binary, folder, ["--follow", "1.exp", "2.exp"], errors)
    told, last = b"", time.monotonic() + 4
    while b"Password: \n" not in told and time.monotonic() < last:
        if select.select([read_end], [], [], 0.1)[0]:
            told += os.read(read_end, 65536)
    wrong = [] if b"script 1: Password: \n" in told else [f"told {told!r}"]
    os.write(gate, b"on\n")
    told += all_of(read_end)
    os.close(gate)
    _, more = ended(running, folder, 10)
    if not told.endswith(b"script 1: on\r\n"):
        more.append(f"told at the end {told!r}")
    return wrong + more


def impatient_pipe(binary, folder):
    """A pipe whose writes don't wait, and that is read slowly: all is told."""
    (folder / "1.exp").write_text("spawn sh -c {yes | head -c 200000}\nexpect -timeout 20 eof\n")
    read_end, errors = os.pipe()
    os.set_blocking(errors, False)
    running = start(binary, folder, ["--follow", "1.exp"], errors)
    time.sleep(0.5)
    told = all_of(read_end)
    _, wrong = ended(running, folder, 10)
    count = told.count(b"y\r\n")
    return wrong if count == 100_000 else [*wrong, f"told {count} lines"]


def impatient_output(binary, folder):
    """Standard output whose writes don't wait, since a program that has it too made it so: all reports are printed."""
    (folder / "1.exp").write_text("spawn sh -c {yes | head -c 600000}\nexpect -timeout 20 eof\n")
    read_end, out = os.pipe()
    os.set_blocking(out, False)
    running = subprocess.Popen([binary, "run", "1.exp"], cwd=folder, stdin=subprocess.DEVNULL, stdout=out, stderr=subprocess.PIPE)
    os.close(out)
    time.sleep(1)
    printed = all_of(read_end)
    said = running.stderr.read()
    count = printed.count(b"y\r\n")
    return [] if (running.wait(), count, said) == (0, 300_000, b"") else [f"status {running.returncode}, printed {count} lines, said {said!r}"]


def followed_at_home(binary, folder):
    """One script that is followed on the terminal of its report: its transcript stands there once, unless a format is asked for."""
    (folder / "1.exp").write_text("spawn sh -c {echo shown}\nexpect eof\nerror late\n")
    for more, count in ([], 1), (["--format", "text"], 2), (["--vars"], 1):
        read_end, end = os.openpty()
        running = subprocess.Popen([binary, "run", "--follow", *more, "1.exp"], cwd=folder, stdin=subprocess.DEVNULL, stdout=end, stderr=end)
        os.close(end)
        told = all_of(read_end)
        status = running.wait()
        fine = told.count(b"\nshown\r") == count and told.count(b"script 1 end=error") == 1 and b"\nerror 4\r\nlate\r\n" in told
        if not fine or status != 1 or (more and b"var " not in told and count == 1):
            return [f"{more}: status {status}, told {told!r}"]
    return []


LABELLED = """spawn sh -c {echo one >&2; printf two >&2; echo shown; sleep 0.2; printf '\\033[2J\\n' >&2}
expect eof
spawn sh -c {echo three >&2}
expect eof
"""


def labelled(binary, folder):
    """--stderr label: each line of a child behind the number of its script, whole, and with nothing that a terminal obeys."""
    (folder / "1.exp").write_text("puts fine\n")
    (folder / "2.exp").write_text(LABELLED)
    for more in ([], ["--follow"]):
        done = subprocess.run([binary, "run", "--stderr", "label", *more, "1.exp", "2.exp"], cwd=folder, capture_output=True, stdin=subprocess.DEVNULL, check=False, timeout=20)
        lines = done.stderr.split(b"\n")
        told = [it for it in lines if it in (b"script 2: one", b"script 2: two\\x1b[2J", b"script 2: three")]
        wanted = [b"script 2: one", b"script 2: two\\x1b[2J", b"script 2: three"]
        if done.returncode or told != wanted or (not more and len(lines) != 4):
            return [f"{more}: status {done.returncode}, told {done.stderr!r}"]
    shared = subprocess.run([binary, "run", "--stderr", "share", "2.exp"], cwd=folder, capture_output=True, stdin=subprocess.DEVNULL, check=False, timeout=20)
    return [] if b"script" not in shared.stderr and b"\x1b[2J" in shared.stderr else [f"shared {shared.stderr!r}"]


def labelled_flood(binary, folder):
    """Children that write much on standard errors of their own, which nobody reads: no dialogue waits, and the run ends."""
    make(folder)
    (folder / "flood.exp").write_text("spawn sh -c {yes complaint | head -c 4000000 >&2; echo all}\nexpect -timeout 20 all {puts there} timeout {exit 3}\nexpect eof\nspawn sh -c {echo here >said}\nexpect eof\n")
    read_end, errors = os.pipe()
    running = start(binary, folder, ["--stderr", "label", "--workers", "1", "flood.exp", "quick.exp"], errors)
    wrong = await_said(folder, 30)
    reports, more = ended(running, folder, 10 + PATIENCE + REST)
    os.close(read_end)
    if reports is not None and sorted(reports) != [1, 2]:
        more.append(f"reports of {sorted(reports)}")
    return wrong + more


def labelled_for_ever(binary, folder):
    """A program that writes on and on and outlives its script doesn't hold the run."""
    (folder / "1.exp").write_text("spawn sh -c {trap '' HUP; echo up; yes >&2}\nexpect up\n")
    start_at = time.monotonic()
    with open(folder / "errors", "wb") as errors:
        done = subprocess.run([binary, "run", "--stderr", "label", "--grace", "1", "1.exp"], cwd=folder, stdout=subprocess.PIPE, stderr=errors, stdin=subprocess.DEVNULL, check=False, timeout=30)
    took = time.monotonic() - start_at
    return [] if done.returncode == 0 and took < 8 else [f"status {done.returncode} after {took:.1f} s"]


CASES = {
    "follow into a full pipe": full_pipe,
    "follow, and a late reader": late_reader,
    "follow on a stopped terminal": lambda binary, folder: stopped_terminal(binary, folder, ["--follow"]),
    "a stopped terminal": lambda binary, folder: stopped_terminal(binary, folder, []),
    "a terminal that goes on": resumed_terminal,
    "follow an unfinished line": unfinished_line,
    "follow into a pipe that doesn't wait": impatient_pipe,
    "output into a pipe that doesn't wait": impatient_output,
    "followed on the terminal of the report": followed_at_home,
    "labelled standard errors": labelled,
    "labelled standard errors that nobody reads": labelled_flood,
    "labelled standard errors without end": labelled_for_ever,
}
