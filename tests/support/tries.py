"""Bounds of speed that hold on a machine with other work: each is tried up to three times. Slow
code misses it every time, a busy machine now and then."""

TRIES = 3


def least(most, measure):
    """The least of up to three measurements. It ends with the first one below `most`."""
    found = []
    while len(found) < TRIES and min(found, default=most) >= most:
        found.append(measure())
    return min(found)


def in_time(attempt):
    """Whether one of up to three attempts succeeds. For a test that has to act in time itself: a
    client that sends a byte before it counts as silent."""
    return any(attempt() for _ in range(TRIES))
