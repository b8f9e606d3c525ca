"""Threads for the tests."""

import threading


def in_threads(work, count=8):
    """What each thread returns or raises, for all that begin at once."""
    results, barrier = [None] * count, threading.Barrier(count)

    def run(at):
        barrier.wait()
        try:
            results[at] = work(at)
        except Exception as error:
            results[at] = error

    threads = [threading.Thread(target=run, args=(at,)) for at in range(count)]
    for thread in threads:
        thread.start()
    for thread in threads:
        thread.join(30)
    assert not any(thread.is_alive() for thread in threads), "threads wait for ever"
    return results
