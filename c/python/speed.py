"""Prints how much faster calls are with 2 and with 4 threads than with one: `python3 speed.py [ROUNDS]`.

In each round, a call is made with each number of threads in turn. The ratio is the time with one thread divided by the
time with several, and the median of all rounds is printed, with the median time of one thread.
"""
import os
import statistics
import sys
import time
from typing import Callable, Dict, Iterator, List, Tuple

import reed_solomon_simd as rs

SHAPES = (10, 4,
          1 << 16), (10, 4, 1 << 20), (10, 4, 1 << 23), (100, 30, 1 << 16), (100, 30, 1 << 20), (1000, 200, 1 << 14)
THREADS = 1, 2, 4


def calls(k: int, r: int, size: int) -> Iterator[Tuple[str, Callable[[int], object]]]:
    """The calls that are measured, each as a function of the number of threads. They write into buffers that are there
    already.
    """
    originals = [os.urandom(size) for _ in range(k)]
    recovery = rs.encode(originals, r)
    lost = min(k, r)
    given, other = {i: originals[i] for i in range(lost, k)}, dict(enumerate(recovery[:lost]))
    rooms = {i: bytearray(size) for i in range(lost)}
    yield "encode", lambda threads: rs.encode(originals, r, into=recovery, threads=threads)
    yield f"decode {lost} lost", lambda threads: rs.decode(k, r, given, other, into=rooms, threads=threads)
    most = {i: originals[i] for i in range(1, k)}
    yield "decode 1 lost", lambda threads: rs.decode(k, r, most, {0: recovery[0]}, into={0: rooms[0]}, threads=threads)
    yield "verify", lambda threads: rs.verify(k, r, dict(enumerate(originals)), dict(enumerate(recovery)),
                                              threads=threads)
    yield "update", lambda threads: rs.update(k, r, 0, originals[0], originals[-1], recovery, threads=threads)


def timed(call: Callable[[int], object], rounds: int) -> Dict[int, List[float]]:
    """The times in seconds of the rounds, by the number of threads. One round before them is not counted."""
    times: Dict[int, List[float]] = {threads: [] for threads in THREADS}
    for turn in range(rounds + 1):
        for threads in THREADS:
            before = time.perf_counter()
            call(threads)
            if turn:
                times[threads].append(time.perf_counter() - before)
    return times


def main(rounds: int) -> None:
    print(f"{'k:r':>9} {'shard':>9} {'call':<15} {'1 thread':>11}  2 threads  4 threads")
    for k, r, size in SHAPES:
        for name, call in calls(k, r, size):
            times = timed(call, rounds)
            ratios = [statistics.median(map(float.__truediv__, times[1], times[threads])) for threads in THREADS[1:]]
            print(f"{k}:{r}".rjust(9), f"{size:>9} {name:<15} {1000 * statistics.median(times[1]):>8.3f} ms",
                  *(f"{ratio:>10.2f}" for ratio in ratios))


if __name__ == "__main__":
    main(int(sys.argv[1]) if len(sys.argv) > 1 else 25)
