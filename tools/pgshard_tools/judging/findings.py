"""Problems with subscriptions and slots."""

from collections.abc import Sequence

from pgshard_tools.judging.database import Database, Subscriber
from pgshard_tools.judging.faults import NOT_SOUND
from pgshard_tools.judging.subscribers import COPYING


def findings_of(db: Database, listed: Sequence[Subscriber]) -> list[str]:
    """Returns subscriptions that get nothing, and slots that nobody uses. A slot is reported together with its
    subscription if that has a problem."""
    told = {it.slot for it in listed if it.remarks}
    waiting = [it for it, is_active in db.slots.items()
               if not is_active and it not in told and not COPYING.fullmatch(it)]
    return [*(remark for it in listed for remark in it.remarks),
            *(f"nobody is connected to slot {it}, so the server keeps its unsent changes" for it in waiting)]


def status_with(status: int, findings: Sequence[str]) -> int:
    """Returns the exit status for tables, and for problems with subscriptions and slots."""
    return NOT_SOUND if findings else status
