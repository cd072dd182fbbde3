"""Kills a replay at random moments, and lets a second run go on from its journal.

    kill_replay.py PROGRAM [--kills N] [--seed S] [--sessions K]

A script has K sessions of the example's bank and plan, in turns. A run that nobody kills gives the expected lines. Then N times: a run over a
new journal is killed after a random time; its whole lines must be a beginning of the expected ones; and a run of the requests that have no
line yet, over the journal that is left, must print exactly the other lines and end with status 0. So no line was printed for what the journal
lacks, and no more than one request was in hand. The last line is 'N passed, M failed'; it stops at the first failure.
"""
import argparse
import os
import random
import shutil
import subprocess
import sys
import tempfile
import time

from shadowtools.command import as_command
from shadowtools.places import DATA



def script_of(sessions, draw):
    """The requests of so many sessions of three items, in turns, with random responses."""
    requests = []
    waiting = []
    for session in range(sessions):
        requests.append(f"begin {1000 + session}")
        waiting.append([session, 0])
        while len(waiting) > 4 or (session == sessions - 1 and waiting):
            at = draw.choice(waiting)
            requests.append(f"answer {at[0]} {at[1]} {draw.randrange(2)}")
            at[1] += 1
            if at[1] == 3:
                waiting.remove(at)
    return requests


def replay_words(program, folder, script):
    return [program, "replay", f"{folder}/bank.csv", f"{folder}/plan.txt", script]


def run(program, folder, requests, journal):
    """Runs these requests to their end: the status, and the lines."""
    script = os.path.join(folder, "part.txt")
    with open(script, "w", encoding="ascii") as file:
        file.write("".join(request + "\n" for request in requests))
    env = dict(os.environ, SHADOWD_JOURNAL=journal)
    done = subprocess.run(replay_words(program, folder, script), env=env, stdout=subprocess.PIPE, timeout=300, check=False)
    return done.returncode, done.stdout.decode("ascii").splitlines()


def run_killed(program, folder, journal, after):
    """Runs the whole script and kills it after so many seconds: its whole lines, and whether it was still running."""
    env = dict(os.environ, SHADOWD_JOURNAL=journal)
    started = subprocess.Popen(replay_words(program, folder, f"{folder}/script.txt"), env=env, stdout=subprocess.PIPE)
    time.sleep(after)
    running = started.poll() is None
    started.kill()
    printed = started.stdout.read().decode("ascii")
    started.wait()
    return printed.split("\n")[:-1], running


def main(words):
    parser = argparse.ArgumentParser(description="Kills a replay at random moments, and goes on from its journal.")
    parser.add_argument("program")
    parser.add_argument("--kills", type=int, default=200)
    parser.add_argument("--seed", type=int, default=7)
    parser.add_argument("--sessions", type=int, default=30)
    asked = parser.parse_args(words)
    draw = random.Random(asked.seed)
    program = os.path.abspath(asked.program)
    passed = cut = 0
    with tempfile.TemporaryDirectory() as folder:
        for name in ("bank.csv", "plan.txt"):
            shutil.copy(os.path.join(DATA, name), folder)
        requests = script_of(asked.sessions, draw)
        with open(f"{folder}/script.txt", "w", encoding="ascii") as file:
            file.write("".join(request + "\n" for request in requests))
        begun = time.monotonic()
        status, expected = run(program, folder, requests, f"{folder}/whole.journal")
        whole = time.monotonic() - begun
        if status != 0 or len(expected) != len(requests):
            print(f"the whole run ended with status {status} and {len(expected)} lines for {len(requests)} requests")
            print("0 passed, 1 failed")
            return 1
        for kill in range(asked.kills):
            journal = f"{folder}/{kill}.journal"
            lines, running = run_killed(program, folder, journal, draw.random() * whole)
            cut += running and len(lines) < len(requests)
            status, rest = run(program, folder, requests[len(lines):], journal)
            if lines != expected[:len(lines)] or status != 0 or rest != expected[len(lines):]:
                print(f"kill {kill} (seed {asked.seed}): {len(lines)} lines, then status {status}")
                for line, wanted in zip(lines + rest, expected):
                    if line != wanted:
                        print(f"  {line}\n  wanted: {wanted}")
                        break
                print(f"{passed} passed, 1 failed")
                return 1
            passed += 1
            os.remove(journal)
    print(f"{len(requests)} requests, {whole:.2f} s whole; {cut} of {asked.kills} runs were killed before their last line")
    print(f"{passed} passed, 0 failed")
    return 0


command = as_command(main)


if __name__ == "__main__":
    sys.exit(command())
