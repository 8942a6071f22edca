"""Tests which subscriptions `pgshard serve` names on standard error as not served."""

import re
import socket

from tally import Tally

from . import messages
from .clients import LITTLE, back_again, client
from .program import Started, serving, use_up
from .publisher import Publisher, Subscriber
from .shardings import S0, S1, halves, large
from .whole import TWO_COMMITS, stream_of, whole_stream

CONNECTIONS = 40


def check_unserved(tally: Tally) -> None:
    """Tests runs with two subscriptions."""
    check_strangers(tally)
    check_refused_start(tally)
    check_lost(tally)
    check_late_start(tally)


def never_started(*slots: str) -> list[str]:
    return [f"{slot}: no client started its stream\n" for slot in slots]


def check_whole(tally: Tally, port: int, publisher: Publisher, subscriber: Subscriber) -> None:
    """Runs a client that gets everything."""
    with client(port) as made:
        made.start(subscriber)
        found = stream_of(made, publisher, subscriber)
        tally.check(f"what {subscriber.slot} gets", found, whole_stream(publisher, subscriber))


def check_end(tally: Tally, name: str, program: Started, last: str, said: list[str]) -> None:
    """Checks how a run ends, and what it writes to standard error."""
    tally.check(f"{name}: the end", program.end(), (0, [last]))
    tally.check(f"{name}: standard error", program.whole_log(), said)


def check_strangers(tally: Tally) -> None:
    """Connections that request nothing take the place of no subscriber, of one, and of both."""
    sharding = halves(TWO_COMMITS)
    subscribers = S0, S1
    for served in 2, 1, 0:
        with serving(sharding.input()) as (program, port):
            for _ in subscribers[served:]:
                socket.create_connection(("127.0.0.1", port)).close()
            for subscriber in subscribers[:served]:
                check_whole(tally, port, sharding.publisher(), subscriber)
            said = never_started(*(it.slot for it in subscribers[served:]))
            check_end(tally, f"serve of {served} subscribers", program, "closed 2 2\n", said)


def check_refused_start(tally: Tally) -> None:
    """A client that asks for a slot in use has not started a stream."""
    sharding = halves(TWO_COMMITS)
    with serving(sharding.input()) as (program, port), client(port) as first, client(port) as second:
        first.start(S0)
        first.receive(len(messages.COPY_BOTH_RESPONSE))
        second.start(S0)
        refused = messages.error_response("55006", 'replication slot "s0" is active')
        tally.check("what the second client of a slot gets", second.receive_all(), refused)
        first.receive(len(sharding.publisher().stream(S0)) - len(messages.COPY_BOTH_RESPONSE))
        first.finish()
        check_end(tally, "serve of two clients of a slot", program, "closed 2 2\n", never_started("s1"))


def check_lost(tally: Tally) -> None:
    """A client whose connection is lost before it has everything."""
    sharding = large()
    publisher = sharding.publisher()
    with serving(sharding.input()) as (program, port):
        with client(port, LITTLE) as lost:
            lost.start(S1)
            lost.receive(len(messages.COPY_BOTH_RESPONSE))
            check_whole(tally, port, publisher, S0)
        tally.check("serve of a client that is lost: the end", program.end(), (0, [f"closed {len(publisher.log)} 2\n"]))
        end = messages.written(publisher.end())
        form = rf"s1: sent to 0/(\w+), and the log ends at {end}\n"
        found = re.fullmatch(form, "".join(program.whole_log()))
        tally.check("serve of a client that is lost: standard error", found is not None, True)
        tally.check("how far it was sent", found is not None and 64 <= int(found[1], 16) < publisher.end(), True)


def check_late_start(tally: Tally) -> None:
    """A client that already has the whole log counts as served."""
    sharding = halves(TWO_COMMITS)
    publisher = sharding.publisher()
    with serving(sharding.input(), "--connections", str(CONNECTIONS)) as (program, port):
        check_whole(tally, port, publisher, S1)
        with back_again(port, S0, publisher.end()) as late:
            late.receive(len(messages.COPY_BOTH_RESPONSE))
            late.finish()
        use_up(program, port)
        check_end(tally, "serve of a client that has all", program, f"closed 2 {CONNECTIONS}\n", [])
