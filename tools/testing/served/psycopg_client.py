#!/usr/bin/env python3
"""Reads messages of a slot with psycopg2, as a program would, and confirms a given position.

    psycopg_client.py PORT SLOT PUBLICATIONS COUNT CONFIRMED

It prints each message with its position, and ends after COUNT messages. CONFIRMED is a position in bytes, or 0 for
none.
"""

import select
import sys

import psycopg2
from psycopg2.extras import LogicalReplicationConnection

# How long it waits for a message, in seconds.
SECONDS = 60


def main(port: str, slot: str, publications: str, count: str, confirmed: str) -> int:
    connection = psycopg2.connect(
        host="127.0.0.1", port=port, user="postgres", dbname="shop", connection_factory=LogicalReplicationConnection)
    cursor = connection.cursor()
    try:
        cursor.start_replication(
            slot_name=slot, start_lsn=0, decode=False,
            options={"proto_version": "1", "publication_names": publications})
    except psycopg2.Error as error:
        print(error.pgcode)
        return 1
    for _ in range(int(count)):
        message = next_message(cursor)
        if message is None:
            print("no message")
            return 1
        print(message.data_start, message.payload.hex())
    if int(confirmed):
        cursor.send_feedback(flush_lsn=int(confirmed), force=True)
    connection.close()
    return 0


def next_message(cursor):
    """Returns the next message, or None if none comes."""
    message = cursor.read_message()
    while message is None:
        readable, _, _ = select.select([cursor], [], [], SECONDS)
        if not readable:
            return None
        message = cursor.read_message()
    return message


if __name__ == "__main__":
    sys.exit(main(*sys.argv[1:]))
