"""A subscriber's connection: how many bytes have been sent on it and how many have arrived."""

from bisect import bisect_right

# The position before the first commit.
FIRST = 64


class Bytes:
    """Consecutive frames, each with its content, and how many of their bytes have arrived."""

    def __init__(self) -> None:
        self.ends: list[int] = []
        self.told: list[object] = []
        self.length = 0
        self.moved = 0

    def say(self, length: int, told: object) -> None:
        """Appends a frame."""
        self.length += length
        self.ends.append(self.length)
        self.told.append(told)

    def move(self, most: int) -> tuple[int, list[object]]:
        """Lets at most this many more bytes arrive. Returns how many did, and the content of the frames that are
        complete now."""
        before = self.moved
        self.moved = min(self.length, before + most)
        whole = self.told[bisect_right(self.ends, before):bisect_right(self.ends, self.moved)]
        return self.moved - before, whole

    def is_within_frame(self) -> bool:
        """Returns whether only a part of a frame has arrived."""
        return self.moved > 0 and self.moved not in self.ends


class Connection:
    """Both directions: the start and the statuses go up, the stream goes down."""

    def __init__(self, position: int, start_length: int) -> None:
        self.up = Bytes()
        self.up.say(start_length, "start")
        self.down = Bytes()
        self.opened_at = position
        self.started: int | None = None
        self.taken = 0
        self.sent = FIRST
        self.relations: set[int] = set()

    def start(self, position: int, copy_both: int) -> None:
        """Starts the stream at a position."""
        self.started = position
        self.taken = count_of(position)
        self.sent = position or FIRST
        self.down.say(copy_both, None)


def count_of(position: int) -> int:
    """Returns how many commits are before a position: commit n begins at 64 * n."""
    return max(0, (position - 1) // FIRST)


def end_of(commit: int) -> int:
    """Returns the end of a commit, or the position before the first one."""
    return FIRST * commit + FIRST
