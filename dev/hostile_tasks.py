"""What rows of dev/hostile do in processes of their own, several at a time."""
import collections
import concurrent.futures
import multiprocessing


def results(jobs, task, each):
    """What a task answers for each of these words, in their order, of so many processes at a time; each is asked for when a process is free."""
    with concurrent.futures.ProcessPoolExecutor(jobs, multiprocessing.get_context("fork")) as pool:
        begun = collections.deque()
        for words in each:
            begun.append(pool.submit(task, *words))
            if len(begun) >= jobs:
                yield begun.popleft().result()
        while begun:
            yield begun.popleft().result()
