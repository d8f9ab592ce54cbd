"""Answers about many items by threads, in their order. Read by pureefjord and ion_compare_trees."""
import collections
import concurrent.futures

AHEAD = 64  # so many items for each thread are begun before the first of them is taken


def in_order(function, items, jobs, at_once=lambda item: None):
    """What a function answers of each item, in their order, by so many threads; those that `at_once` answers need none."""
    pool, waiting = concurrent.futures.ThreadPoolExecutor(jobs), collections.deque()
    try:
        for item in items:
            answer = at_once(item)
            waiting.append(pool.submit(function, item) if answer is None else answer)
            while len(waiting) > AHEAD * jobs or waiting and not isinstance(waiting[0], concurrent.futures.Future):
                yield taken(waiting.popleft())
        while waiting:
            yield taken(waiting.popleft())
    finally:
        for each in waiting:
            if isinstance(each, concurrent.futures.Future):
                each.cancel()
        pool.shutdown(wait=False)


def taken(answer):
    return answer.result() if isinstance(answer, concurrent.futures.Future) else answer
