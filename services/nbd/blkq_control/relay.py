"""Relays lines from another host, over ssh, to the control here."""

import os
import select
import socket

from blkq_control.server import DONE


def relay(path):
    """Carries lines both ways until one side ends. That closes the connection, which ends its freezes."""
    with socket.socket(socket.AF_UNIX) as at:
        at.connect(path)
        poll, goes_to = select.poll(), {0: at.fileno(), at.fileno(): 1}
        for reads in goes_to:
            poll.register(reads, select.POLLIN)
        poll.register(1, 0)
        while True:
            for reads, _ in poll.poll():
                more = os.read(reads, 4096) if reads in goes_to else b""
                if not more and reads == at.fileno():
                    raise ConnectionError("the server has gone")
                if not more:
                    return DONE
                while more:
                    more = more[os.write(goes_to[reads], more) :]
