"""Runs that SIGKILL ends, and what there is of their records."""

import json
import os
import signal
import subprocess
import time

import signals


def killed(binary, folder, run, environment):
    """Kills a run. Its output and the seconds since."""
    words = [binary, "run", *signals.STEPS, "--format", "jsonl", "--workers", str(run.workers), "--record", "record"]
    with open(folder / "out", "wb") as out:
        how = {"stdin": subprocess.DEVNULL, "stdout": out, "stderr": subprocess.DEVNULL}
        ran = subprocess.Popen([*words, *signals.files_of(folder, run.sources)], cwd=folder, env=environment, **how)
    while ran.poll() is None and not signals.is_started(ran, binary):
        time.sleep(0.001)
    time.sleep(run.after)
    ran.send_signal(signal.SIGKILL)
    sent = time.monotonic()
    ran.wait()
    return (folder / "out").read_bytes(), time.monotonic() - sent


def reports(text):
    """The lines of JSON by their scripts. The last one may be cut off."""
    return {json.loads(line)["script"]: line for line in text.split(b"\n")[:-1]}


def wrong_in(binary, folder, run, out):
    """What is wrong with the record of a run that was killed: it replays, and the reports of scripts that have ended in it are those that were told."""
    files, told = signals.files_of(folder, run.sources), reports(out)
    names = sorted(set(os.listdir(folder)) & {"record", "record.part"})
    if not names:
        return ["there is no record, but reports"] if told else []
    if len(names) > 1:
        return [f"there are {names}"]
    cut = ["--cut"] if names == ["record.part"] else []
    replay = [binary, "replay", *cut, *signals.STEPS, "--format", "jsonl", names[0], *files]
    again = subprocess.run(replay, cwd=folder, capture_output=True, check=False)
    replayed = reports(again.stdout)
    if again.returncode not in (0, 1) or again.stderr or sorted(replayed) != list(range(1, len(files) + 1)):
        return [f"{names[0]} replays to {again}"]
    ended = {number: line for number, line in replayed.items() if json.loads(line)["ending"] != "waiting"}
    return [f"{names[0]} replays to {ended[it]!r}, told was {told[it]!r}" for it in ended if it in told and told[it] != ended[it]]
