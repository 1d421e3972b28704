#!/usr/bin/env python3
"""A small host: it connects to a tool that serves, selects, establishes communication, and asks who is there.

    python3 examples/select_and_ask.py [PORT [CARRIER ..]]

PORT, at 127.0.0.1, is 5000 where it is left out. Of each CARRIER the host says that it does not want it, by S3F17 with CancelCarrier.
With the last one it says so without asking for an answer, and then waits for the end of the link: examples/serve.script ends the run
there, and so nothing is cut off that the host still waits for. The status is 0 exactly where the tool answered S1F1 by S1F2, and each
S3F17 by CAACK 0.
"""

import sys
import time

from hsms_host import A, PATIENCE, U1, U4, Inbox, LinkEnded, selected

# CAACK of a carrier that the tool does not know.
UNKNOWN = 3


def cancelled(carrier):
    """What S3F17 says of a carrier that the host does not want, at whatever port it is."""
    return [U4(0), A("CancelCarrier"), A(carrier), U1(0), []]


def cancel(link, carrier):
    """Says that a carrier is not wanted, again as long as it has not come. Whether it was answered CAACK 0."""
    end = time.monotonic() + PATIENCE
    while True:
        caack, _ = link.ask(3, 17, cancelled(carrier)).item()
        if caack.value[0] != UNKNOWN or time.monotonic() > end:
            return caack.value[0] == 0
        time.sleep(0.05)


def visit(link, carriers):
    """Does all that the head of this file says. Whether all was answered as it says."""
    link.ask(1, 13, [])
    answer = link.ask(1, 1)
    is_well = (answer.stream, answer.function) == (1, 2)
    for carrier in carriers[:-1]:
        is_well = cancel(link, carrier) and is_well
    if carriers:
        link.tell(3, 17, cancelled(carriers[-1]))
        link.await_end()
    else:
        link.separate()
    return is_well


def main(arguments):
    if not all(word.isdecimal() for word in arguments[:1]):
        print("usage: select_and_ask.py [PORT [CARRIER ..]]", file=sys.stderr)
        return 2
    port = int(arguments[0]) if arguments else 5000
    try:
        with selected(port, Inbox()) as link:
            return 0 if visit(link, arguments[1:]) else 1
    except (LinkEnded, OSError) as why:
        print(f"the link failed: {why}", file=sys.stderr)
        return 1


if __name__ == "__main__":
    sys.exit(main(sys.argv[1:]))
