"""Frames that are cut into pieces of each length, and the longest frames."""

from collections.abc import Iterator

from .table import Call

# What a publisher sends whose first commit inserts the row (7, 'eu') into `public.t`: CopyBothResponse, and then Begin,
# Relation, Insert and Commit as XLogData.
HEAD = b"w\0\0\0\0\0\0\0\x40\0\0\0\0\0\0\0\x40\0\0\0\0\0\0\0\x04"

FRAMES = [
    b"W\0\0\0\x07\0\0\0",
    b"d\0\0\0\x32" + HEAD + b"B\0\0\0\0\0\0\0\x40\0\0\0\0\0\0\0\x01\0\0\0\x03",
    b"d\0\0\0\x4a" + HEAD + b"R\0\0\x40\0public\0t\0f\0\x02\x01id\0\0\0\0\x17\xff\xff\xff\xff"
    b"\x01region\0\0\0\0\x19\xff\xff\xff\xff",
    b"d\0\0\0\x32" + HEAD + b"I\0\0\x40\0N\0\x02t\0\0\0\x017t\0\0\0\x02eu",
    b"d\0\0\0\x37" + HEAD + b"C\0\0\0\0\0\0\0\0\x40\0\0\0\0\0\0\0\x80\0\0\0\0\0\0\0\x01"]

STREAM = b"".join(FRAMES)

COPY_DONE = b"c\0\0\0\x04".hex()


def frames_come(frames: list[str]) -> Iterator[Call]:
    """Expects these frames next, and then none."""
    for frame in [*frames, "none"]:
        yield Call("frames.next", frame)


def cut() -> Iterator[Call]:
    """Checks that frames do not depend on the pieces: the stream is cut at each byte, and then sent byte by byte."""
    frames = [frame.hex() for frame in FRAMES]
    for place in range(len(STREAM) + 1):
        yield Call("frames.new 65536", "ok")
        for piece in [STREAM[:place], STREAM[place:]]:
            yield Call(f"frames.feed 1000 {piece.hex()}".rstrip(), "Ok(())")
        yield from frames_come(frames)
    yield Call("frames.new 65536", "ok")
    for frame in FRAMES:
        for byte in frame:
            yield Call("frames.next", "none")
            yield Call(f"frames.feed 1 {byte:02x}", "Ok(())")
        yield from frames_come([frame.hex()])


def longest() -> Iterator[Call]:
    """Checks that a frame may be as long as the limit. It is sent three times, in pieces of some length."""
    frame = (b"d\0\x01\0\0" + (65_537 - 5) * b"a").hex()
    for length in [1, 7, 65_536, 65_537]:
        yield Call("frames.new 65536", "ok")
        for _ in range(3):
            yield Call(f"frames.feed {length} {frame}", "Ok(())")
            yield from frames_come([frame])
    frame = (b"d\x01\0\0\0" + (16_777_217 - 5) * b"\0").hex()
    yield Call("frames.new 16777216", "ok")
    yield Call(f"frames.feed 20000000 {frame}", "Ok(())")
    yield from frames_come([frame])


def carried() -> Iterator[Call]:
    """Checks the longest message that a subscriber accepts, in a frame after another one."""
    end = 2 ** 64 - 1
    message = (b"I" + 16_777_186 * b"a").hex()
    head = b"d\x01\0\0\0w\0\0\0\0\0\0\0\x40\xff\xff\xff\xff\xff\xff\xff\xff\0\0\0\0\0\0\0\x04".hex()
    yield Call(f"frames.carry 64 {end} 4 {message}", head + message)
    yield Call(
        f"frames.read_carried {(head + message)[10:]}", f"XLogData {{ start: 64, end: {end}, clock: 4 }} {message}")
    yield Call("frames.new 16777216", "ok")
    yield Call(f"frames.feed 20000000 {COPY_DONE}{head}{message}", "Ok(())")
    yield from frames_come([COPY_DONE, head + message])


def calls() -> Iterator[Call]:
    """The calls of this topic."""
    yield from cut()
    yield from longest()
    yield from carried()
