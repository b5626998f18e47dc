"""Runs that are stopped at random moments, and what they leave."""
import random
import signal
import subprocess
import time
from typing import Optional

from bench import Bench
from jobs import Job, Tally, begin, is_done_again, jobs, left_of

MOST = 20  # runs that are begun for each that is to be stopped


def seconds_of(bench: Bench, one: Job) -> float:
    """How long a whole run takes, the shortest of three."""
    took = []
    for _ in range(3):
        begin(one, None)
        began = time.monotonic()
        bench.program(one.words)
        took.append(time.monotonic() - began)
    return min(took)


def stop(bench: Bench, one: Job, after: float) -> Optional[int]:
    """Begins a run and stops it after so many seconds; answers its status, negative where it was stopped."""
    child = subprocess.Popen([bench.program_path, *one.words], stdout=subprocess.DEVNULL, stderr=subprocess.STDOUT)
    time.sleep(after)
    child.send_signal(signal.SIGKILL)
    return child.wait()


def stopped(bench: Bench, seed: int) -> None:
    """Each command that makes a file, in each version, as often: fifty stops each in the long run.

    A run that ended before it was to be stopped does not count, and another one is begun.
    """
    chance, tally = random.Random(seed), Tally()
    size, often = (30000, 50) if bench.is_long else (4000, 4)
    ended = 0
    made = [one for one in jobs(bench, seed % 2**64, size, 100, 50) if one.made]
    for one in made:
        seconds, stops, runs = seconds_of(bench, one), 0, 0
        other = one.whole[: len(one.whole) // 4096 // 2 * 4096] + b"x"
        while stops < often and runs < MOST * often:
            old = other if runs % 2 else None
            begin(one, old)
            # half of them late, when the output is written; at once where the machine is too busy for that
            seconds = 0.0 if runs == MOST * often // 2 else seconds
            after = seconds * (chance.uniform(0, 1.1) if runs % 4 < 2 else chance.uniform(0.6, 1.1))
            is_stopped = stop(bench, one, after) == -signal.SIGKILL
            stops, runs = stops + is_stopped, runs + 1
            left = left_of(bench, one, old)
            if is_stopped:
                tally.add(one, left)
            bench.holds(not left.startswith("WRONG"), "%s, stopped after %.4f s: %s" % (one.words[0], after, left))
            bench.holds(is_done_again(bench, one), "%s does not do all after a stop" % one.words[0])
        ended += runs - stops
        bench.holds(stops == often, "%s: of %d runs %d were stopped" % (one.words[0], runs, stops))
    counts = often * len(made), ended
    print("tests/hostile: %d runs were stopped, and %d ended before; what the stopped ones left:" % counts)
    tally.show()
