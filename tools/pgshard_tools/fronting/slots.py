"""The slots of pgshard serve, as clients see them: created, started, confirmed, dropped and created again.

The slots themselves are fixed by the catalog, and a confirmation cannot be undone. So if a client drops a slot and
creates it again, it starts from the beginning, out of the recording of its streams.
"""

import asyncio
import re
from dataclasses import dataclass, field

from pgshard_tools.fronting import frames
from pgshard_tools.fronting.frames import position_text
from pgshard_tools.fronting.recording import BEGIN_OF_LOG, Recording, Spool
from pgshard_tools.fronting.starting import Start

# The slot with which a subscriber copies a table.
COPIES = re.compile(r"pg_[0-9]{1,10}_sync_[0-9]{1,10}_[0-9]{1,20}", re.ASCII)
# The most such slots; if there are more, the oldest is removed. And the most other slots, if no catalog names them.
MOST_COPIES = 1_000
MOST_UNNAMED = 1_000

ANEW = "Restart pgshard serve and pgshard front together to start all slots from the beginning."


class Refused(Exception):
    """A request about a slot is refused, with this ErrorResponse."""

    def __init__(self, code: str, words: str, hint: str = "") -> None:
        super().__init__(words)
        self.response = frames.error(code, words, hint)


@dataclass
class Slot:
    """A slot of the catalog that a client has used."""

    name: str
    recording: Recording
    publications: frozenset[str] = frozenset()
    # The position that clients have confirmed since the slot was created.
    confirmed: int = 0
    # The position up to which streams come from the recording, since the slot was dropped and pgshard serve continues
    # from there.
    before: int = 0
    # Whether a client was promised that the slot starts from the beginning, before that was known.
    is_promised: bool = False
    # Set while no client uses it.
    is_free: asyncio.Event = field(default_factory=asyncio.Event)

    def __post_init__(self) -> None:
        self.is_free.set()

    def begin_of(self, start: Start) -> int:
        """Returns where a stream starts that is requested from this position on."""
        return max(start.position, self.confirmed)

    def why_not_afresh(self) -> str | None:
        """Returns why the slot cannot be started from the beginning of the log, if that is known."""
        if self.recording.fault is not None:
            return self.recording.fault
        if self.recording.reach == 0 or self.recording.covers(BEGIN_OF_LOG):
            return None
        if self.recording.begin is None:
            return "pgshard serve did not report where its stream starts"
        return f"its stream is known only from {position_text(self.recording.begin)} on"


@dataclass
class Slots:
    """The slots that clients have used, by name."""

    # The names in the catalog, if it is known.
    names: list[str] | None
    spool: Spool = field(default_factory=Spool)
    known: dict[str, Slot] = field(default_factory=dict)
    # The slots of copies, and whether each exists. A dropped one may be started again: a subscriber that loses its
    # connection before it learns that its slot has been dropped retries from that slot until it succeeds.
    copies: dict[str, bool] = field(default_factory=dict)

    def slot(self, name: str) -> Slot:
        """A slot of the catalog, or one that pgshard serve will report as missing."""
        if self.names is not None and name not in self.names:
            raise Refused(
                "42704", f'replication slot "{name[:63]}" does not exist',
                f"pgshard serve has a slot for each subscription of its catalog: {', '.join(self.names)}.")
        return self.known.get(name) or Slot(name, Recording(self.spool))

    def keep(self, slot: Slot) -> None:
        """Keeps a slot that exists."""
        self.known[slot.name] = slot

    def make(self, name: str) -> None:
        """Creates the slot of a subscriber's copy, or promises that one of the catalog starts from the beginning."""
        if COPIES.fullmatch(name):
            self.copies[name] = True
            while len(self.copies) > MOST_COPIES:
                del self.copies[next(iter(self.copies))]
            return
        slot = self.slot(name)
        if not slot.is_free.is_set() or slot.confirmed > BEGIN_OF_LOG:
            raise Refused(
                "42710", f'replication slot "{name}" already exists',
                f"It is confirmed up to {position_text(slot.confirmed)}. Drop it to start from the beginning, or use "
                "create_slot = false to continue from there.")
        self.promise(slot, "made")

    def drop(self, name: str) -> None:
        """Drops the slot of a subscriber's copy, or lets one of the catalog start from the beginning."""
        if COPIES.fullmatch(name):
            if not self.copies.get(name):
                raise Refused("42704", f'replication slot "{name}" does not exist')
            self.copies[name] = False
            return
        slot = self.slot(name)
        if not slot.is_free.is_set():
            raise Refused("55006", f'replication slot "{name}" is active', "Stop the client that uses it.")
        self.promise(slot, "dropped")
        slot.confirmed, slot.before = 0, slot.recording.reach

    def promise(self, slot: Slot, done: str) -> None:
        """Promises that a slot starts from the beginning. If that is not yet known, the next start decides."""
        why = slot.why_not_afresh()
        if why is not None:
            raise Refused(
                "55000",
                f'replication slot "{slot.name}" cannot be {done}, since it would not start from the beginning: {why}',
                "To drop a subscription without its slot, use ALTER SUBSCRIPTION .. SET (slot_name = NONE) first. "
                f"{ANEW}")
        if self.names is None and len(self.known) >= MOST_UNNAMED and slot.name not in self.known:
            raise Refused("53400", "too many replication slots", "Start pgshard front with --catalog FILE.")
        slot.is_promised = True
        self.keep(slot)

    def copied(self, start: Start) -> Slot:
        """The slot whose stream a subscriber that copies a table needs."""
        if start.slot not in self.copies:
            raise Refused("42704", f'replication slot "{start.slot}" does not exist')
        for slot in self.known.values():
            if slot.publications == start.publications:
                if slot.recording.covers(start.position):
                    self.copies[start.slot] = True
                    return slot
                raise Refused(
                    "55000", f'the rows that "{slot.name}" was sent before {position_text(slot.recording.reach)} '
                    f"cannot be copied: {slot.why_not_afresh()}",
                    f"Write copy_data = false if they are not needed. {ANEW}")
        raise Refused(
            "55000", "no slot with these publications has a stream yet, so nothing can be copied",
            "The subscriber tries again by itself.")
