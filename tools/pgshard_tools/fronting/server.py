"""The front as a server: which clients it admits, how many at a time, and what it logs."""

import asyncio
import logging
import resource
from collections.abc import Callable
from dataclasses import dataclass, field
from functools import partial
from itertools import count

from pgshard_tools.fronting.answers import Answers
from pgshard_tools.fronting.greeting import Denied, Terms
from pgshard_tools.fronting.peer import LONGEST_FROM_CLIENT, Peer
from pgshard_tools.fronting.session import Backend, Session

# The most clients at a time, and how many files are open besides their connections. A client in a stream also has a
# connection to the publisher.
MOST_CLIENTS = 500
OTHER_FILES = 16
FILES = 2

BACKLOG = 256

TOO_MANY = Denied("53300", "sorry, too many clients already")
SHUT_DOWN = Denied("57P01", "terminating connection because pgshard front is shutting down")

logger = logging.getLogger("front")


@dataclass
class Front:
    """The clients of a front. When a connection ends, for whatever reason, the log gets one line."""

    answers: Answers
    backend: Backend
    terms: Terms
    most: int = field(default_factory=lambda: most_clients())
    sessions: dict[Session, "asyncio.Task[str]"] = field(default_factory=dict)
    numbers: "count[int]" = field(default_factory=lambda: count(1))

    async def listen(self, address: str, port: int, on_listening: Callable[[int], None]) -> None:
        """Serves clients until cancelled."""
        loop = asyncio.get_running_loop()
        loop.set_exception_handler(tell_fault)
        make = partial(Peer, "the client", LONGEST_FROM_CLIENT, self.backend.patience or 60, self.begin)
        server = await loop.create_server(make, address, port, backlog=BACKLOG)
        try:
            on_listening(server.sockets[0].getsockname()[1])
            await asyncio.Event().wait()
        finally:
            server.close()
            tasks = list(self.sessions.values())
            for session in list(self.sessions):
                self.end(session, SHUT_DOWN)
            await asyncio.gather(*tasks, return_exceptions=True)

    def begin(self, client: Peer) -> None:
        """Serves a client in a task of its own, if there is room or room can be made."""
        address = name_of(client)
        if len(self.sessions) >= self.most and not self.make_room():
            client.write(TOO_MANY.response)
            client.close()
            logger.info("%s %s", address, TOO_MANY)
            return
        session = Session(client, self.answers, self.backend, self.terms, next(self.numbers))
        task = asyncio.get_running_loop().create_task(session.run())
        self.sessions[session] = task
        task.add_done_callback(partial(self.ended, session, address))

    def make_room(self) -> bool:
        """Ends the oldest connection that is not in a stream, so that idle clients cannot keep subscribers out."""
        for session in self.sessions:
            if not session.is_streaming:
                self.end(session, TOO_MANY)
                return True
        return False

    def end(self, session: Session, farewell: Denied) -> None:
        """Ends a connection, and sends its client the reason."""
        session.client.write(farewell.response)
        session.client.close()
        self.sessions.pop(session).cancel(str(farewell))

    def ended(self, session: Session, address: str, task: "asyncio.Task[str]") -> None:
        """Logs how a connection ended. A fault of the front itself ends only that connection."""
        self.sessions.pop(session, None)
        session.client.close()
        if task.cancelled():
            logger.info("%s %s: ended by pgshard front", address, session.story)
        elif (fault := task.exception()) is not None:
            logger.error("%s %s: a fault of pgshard front: %r", address, session.story, fault)
        else:
            logger.info("%s %s: %s", address, session.story, task.result())


def name_of(client: Peer) -> str:
    """A client's address."""
    name = client.transport.get_extra_info("peername")
    return f"{name[0]}:{name[1]}" if name else "nowhere"


def most_clients() -> int:
    """Returns how many clients are possible with the number of files that the process may open."""
    most, _ = resource.getrlimit(resource.RLIMIT_NOFILE)
    if most == resource.RLIM_INFINITY:
        return MOST_CLIENTS
    return max(1, min(MOST_CLIENTS, (most - OTHER_FILES) // FILES))


def tell_fault(loop: asyncio.AbstractEventLoop, context: dict[str, object]) -> None:
    """Logs a fault that is not the end of a connection, such as that no more files can be opened."""
    fault = context.get("exception")
    logger.warning("%s%s", context["message"], f": {fault}" if fault else "")
