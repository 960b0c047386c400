"""Runs that a signal stops."""

import json
import os
import pathlib
import random
import signal
import subprocess
import time
from typing import NamedTuple

# how ./exprun starts the program
BLOCKED = ("env", "--block-signal=INT,TERM,HUP")
# a gate that is started in the background has SIGINT ignored, and so would have what it runs
HEARD = ("env", "--default-signal=INT,TERM,HUP")
SIGNALS = (signal.SIGINT, signal.SIGTERM, signal.SIGHUP)
# how many seconds a run takes at most from the signal on
REST = 5
STEPS = ("--steps", "1000000000")

# scripts that a signal finds where they are
HELD = {
    "waits in expect": "spawn -tty sh -c {echo up; sleep 1000}\nset timeout -1\nexpect up\nexpect never\n",
    "waits in wait": "spawn sh -c {echo up; sleep 1000}\nexpect up\nputs [wait]\n",
    "whose program ignores it": 'spawn sh -c {trap "" HUP TERM INT; echo up; while :; do sleep 1; done}\nset timeout -1\nexpect up\nexpect never\n',
    "that writes to a program": 'set stty_init "-icanon -echo"\nspawn sh -c {echo up; sleep 1000}\nexpect up\nset x %s\nwhile 1 {send $x}\n' % ("x" * 8000),
}

# scripts of about a second
DIALOGUES = [
    # exchanges with a program that answers at once, and with one that takes its time
    'spawn cat\nfor {set i 0} {$i < 400} {incr i} {\n    send "line $i\\r"\n    expect "line $i\\r\\nline $i\\r\\n"\n}\n',
    "set stty_init {raw -echo}\nspawn sh -c {while read l; do sleep 0.02; echo got $l; done}\n"
    'for {set i 0} {$i < 40} {incr i} {\n    send "$i\\n"\n    expect "got $i\\n"\n}\nclose\nputs [wait]\n',
    # output that comes by itself, slowly and without a pause
    "spawn sh -c {i=0; while [ $i -lt 20 ]; do echo tick $i; i=$((i + 1)); sleep 0.03; done; exit 3}\nset n 0\n"
    'expect {\n    -re {tick ([0-9]+)} {\n        set n $expect_out(1,string)\n        exp_continue\n    }\n    eof {}\n}\nputs "$n [wait]"\n',
    'spawn yes\nset n 0\nexpect {\n    "y\\r\\ny\\r\\n" {\n        if {[incr n] < 3000} {exp_continue}\n    }\n}\nputs $n\n',
    # on a terminal of the system
    'spawn -tty sh -c {for i in 1 2 3 4 5 6; do echo step $i; sleep 0.1; done}\nexpect "step 3"\nexpect eof\nputs [wait]\n',
    # nothing comes
    "spawn sleep 1000\nexpect -timeout 1 never\nputs late\nexpect -timeout -1 never\n",
    "spawn sleep 0.4\nputs [wait]\nspawn sleep 1000\nputs [wait]\n",
    # an error, and no program at all
    "spawn sh -c {sleep 0.2; exit 1}\nexpect eof\nerror over\n",
    "puts fine\n",
]


class Run(NamedTuple):
    """A run that is stopped: its scripts, its workers, the signal with the seconds after which it comes, and the form of its reports."""

    sources: list
    workers: int
    number: signal.Signals
    after: float
    form: str = "text"


def drawn(seed):
    draw = random.Random(seed)
    sources = [draw.choice(DIALOGUES) for _ in range(draw.randint(1, 6))]
    return Run(sources, draw.choice((1, 2, 4)), draw.choice(SIGNALS), draw.uniform(0, 1.2), draw.choice(("text", "jsonl")))


def files_of(folder, sources):
    files = [f"{at + 1}.exp" for at in range(len(sources))]
    for file, source in zip(files, sources):
        (folder / file).write_text(source)
    return files


def is_started(process, binary):
    try:
        return os.readlink(f"/proc/{process.pid}/exe") == binary
    except OSError:
        return False


def stopped(binary, folder, run, environment):
    """Stops a run. Its status, its output and the seconds that it took from the signal on."""
    words = [*HEARD, *BLOCKED, binary, "run", *STEPS, "--format", run.form, "--workers", str(run.workers)]
    words += ["--record", "record", "--transcripts", "kept", "--explain", "told", *files_of(folder, run.sources)]
    with open(folder / "out", "wb") as out, open(folder / "err", "wb") as err:
        ran = subprocess.Popen(words, cwd=folder, env=environment, stdin=subprocess.DEVNULL, stdout=out, stderr=err)
    while ran.poll() is None and not is_started(ran, binary):
        time.sleep(0.001)
    time.sleep(run.after)
    ran.send_signal(run.number)
    sent = time.monotonic()
    try:
        status = ran.wait(REST)
    except subprocess.TimeoutExpired:
        ran.kill()
        status = f"no end, {ran.wait()}"
    return status, (folder / "out").read_bytes(), time.monotonic() - sent


def waiting_in(out):
    """How many reports say that their script waits."""
    return out.count(b" end=waiting ") + out.count(b'"ending":"waiting"')


def in_order(run, out):
    """Reports in the order of scripts: as lines of JSON they come in that of their ends."""
    if run.form == "text":
        return out
    return sorted(json.loads(line)["script"] for line in out.splitlines()), sorted(out.splitlines())


def transcripts(folder):
    return {path.name: path.read_bytes() for path in folder.iterdir()}


def wrong_in(binary, folder, run, status, out):
    """What is wrong with the products of a run that was stopped: its record replays to its reports, its transcripts and its account."""
    files = files_of(folder, run.sources)
    replay = [binary, "replay", *STEPS, "--format", run.form, "--transcripts", "again", "record", *files]
    again = subprocess.run(replay, cwd=folder, capture_output=True, check=False)
    account = subprocess.run([binary, "explain", *STEPS, "record", *files], cwd=folder, capture_output=True, check=False)
    over = waiting_in(out) == 0
    wrong = []
    if status != 128 + run.number and not (over and status == again.returncode):
        wrong.append(f"status {status}")
    if err := (folder / "err").read_bytes():
        wrong.append(f"it wrote {err!r}")
    if in_order(run, again.stdout) != in_order(run, out):
        wrong.append(f"the record replays to {again.stdout[:600]!r}, {again.stderr!r}, and the run printed {out[:600]!r}")
    elif transcripts(folder / "kept") != transcripts(folder / "again"):
        wrong.append("the transcripts aren't those of the record")
    if account.stdout != (folder / "told").read_bytes():
        wrong.append("the account isn't that of the record")
    return wrong
