"""Runs many cases by their numbers, several at a time, and gives their results in order.

A case is made from a seed and its number alone, so a tool that was stopped goes on with the next
number.
"""

import collections
import concurrent.futures
import threading

import calls
import ending

AHEAD = 64  # cases that are under way or wait for their turn, for each thread
Stopped = ending.Stopped


def in_order(numbers, jobs, made, one):
    """Gives the results of `one(made, number)` by number; each thread has its own `made()`."""
    ending.catch_signals()
    own = threading.local()

    def case(number):
        if not hasattr(own, "made"):
            own.made = made()
        return one(own.made, number)

    waiting, is_whole = collections.deque(), False
    with concurrent.futures.ThreadPoolExecutor(jobs) as pool:
        try:
            for number in numbers:
                waiting.append(pool.submit(case, number))
                if len(waiting) >= AHEAD * jobs:
                    yield waiting.popleft().result()
            while waiting:
                yield waiting.popleft().result()
            is_whole = True
        finally:
            for future in waiting:
                future.cancel()
            if not is_whole:
                calls.ALL.end_all()
