#!/usr/bin/env python3
"""A host that runs a whole lot on a tool that serves, loses its link on the way, and misses no event.

    python3 examples/run_a_lot.py [PORT [CARRIER [LAST]]]

PORT, at 127.0.0.1, is 5000, CARRIER is CAR01 and LAST is CAR02 where they are left out. The host

1. selects, establishes communication, and asks whether the tool has its report: a tool that was started anew has none;
2. defines the report then, links it to events, enables these, and has them spooled, to be sent in portions;
3. waits for CARRIER, and verifies its id and its slot map;
4. creates a process job and a control job for it;
5. drops the link, comes back a second later, and empties the spool, portion by portion, until 1508 tells that the control job is
   COMPLETED;
6. waits until CARRIER was taken away, 405;
7. sends the carrier LAST away, to which examples/serve.script ends the run.

The status is 0 exactly where all of this happened.
"""

import sys
import time

from hsms_host import A, B, BOOL, U1, U4, Inbox, LinkEnded, selected

# The report, and its variables: the object of the event, and the clock.
REPORT = 1
EVENT_OBJECT, CLOCK = 100, 1

# Variables that the host asks for.
SPOOL_COUNT, PORT_CARRIERS = 4, (51, 52)

# The constant MaxSpoolTransmit: at most so many reports are sent of the spool at one request.
MAX_SPOOL_TRANSMIT, PORTION = 202, 4

# Events, by what they tell.
ID_WAITS = 803
REMOVED = 405
RUNS, ENDED, STOPPED, ABORTED = 1404, 1407, 1413, 1414
COMPLETED = 1508
MEANINGS = {
    301: "the spool is active",
    309: "the spool is empty again",
    404: "the carrier may be taken away",
    REMOVED: "the carrier was taken away",
    ID_WAITS: "the carrier's id waits for the host",
    804: "the carrier's id is verified",
    902: "the slot map waits for the host",
    903: "the slot map is verified",
    1303: "the wafer is processed",
    RUNS: "the process job runs",
    ENDED: "the process job has ended",
    STOPPED: "the process job was stopped",
    ABORTED: "the process job was aborted",
    COMPLETED: "the control job is completed",
}

ENABLED = [U4(ceid) for ceid in MEANINGS]


class Failed(Exception):
    """The tool refused something, or told what a whole lot does not have."""


def require(is_so, what):
    if not is_so:
        raise Failed(what)


class LotHost:
    """A host with a link, and with whether there may be reports in the spool."""

    def __init__(self, port):
        self.port = port
        self.inbox = Inbox()
        self.come()

    def come(self):
        """Connects, selects and establishes communication. What a spool has is asked for from then on."""
        self.link = selected(self.port, self.inbox)
        self.may_be_spooled = True
        self.link.ask(1, 13, [])

    def leave(self):
        """Drops the link, as a network does: whatever was on its way is lost."""
        self.link.close()
        print("the link is dropped", flush=True)

    def is_known(self):
        """Whether the tool has the report. It keeps reports over the end of a session, but not when it is started anew."""
        return self.link.ask(6, 19, U4(REPORT)).item() != []

    def prepare(self):
        """Has the tool tell all that this host wants to know."""
        define = [U4(1), [[U4(REPORT), [U4(EVENT_OBJECT), U4(CLOCK)]]]]
        link_events = [U4(2), [[ceid, [U4(REPORT)]] for ceid in ENABLED]]
        require(self.link.ask(2, 33, define).item() == B(0), "S2F33: the report is not defined")
        require(self.link.ask(2, 35, link_events).item() == B(0), "S2F35: the events are not linked")
        require(self.link.ask(2, 37, [BOOL(True), ENABLED]).item() == B(0), "S2F37: the events are not enabled")
        require(self.link.ask(2, 43, [[U1(6), []]]).item()[0] == B(0), "S2F43: events are not spooled")
        portion = [[U4(MAX_SPOOL_TRANSMIT), U4(PORTION)]]
        require(self.link.ask(2, 15, portion).item() == B(0), "S2F15: the portion is not set")

    def ask_portion(self):
        """Asks for the next portion of the spool, and receives it."""
        (count,) = self.link.ask(1, 3, [U4(SPOOL_COUNT)]).item()[0].value
        self.may_be_spooled = count > 0
        if count == 0:
            return
        require(self.link.ask(6, 23, U1(0)).item() == B(0), "S6F23: the spool is not sent")
        received = 0
        while received < min(count, PORTION):
            message = self.link.receive()
            received += (message.stream, message.function) == (6, 11)

    def next_event(self):
        """The next event: one that has come, else the first of the spool, else the next one that comes."""
        while not self.inbox.events:
            if self.may_be_spooled:
                self.ask_portion()
            else:
                self.link.receive()
        event = self.inbox.events.popleft()
        name, time = event.reports[0]
        print(f"   {time.value} {event.ceid} {name.value}: {MEANINGS[event.ceid]}", flush=True)
        require(event.ceid not in (STOPPED, ABORTED), "the process job did not run to its end")
        return event.ceid, name.value

    def await_event(self, ceid, name):
        while self.next_event() != (ceid, name):
            pass

    def act(self, action, carrier):
        """S3F17 of a carrier, which must be answered CAACK 0."""
        caack, _ = self.link.ask(3, 17, [U4(0), A(action), A(carrier), U1(0), []]).item()
        require(caack == U1(0), f"S3F17 {action} {carrier}: CAACK {caack.value[0]}")

    def verify(self, carrier):
        """Waits for the carrier, and proceeds with it for its id and then for its slot map. No message of the tool has that map: what
        the host says with the second one is that the map which was read is right."""
        ports = self.link.ask(1, 3, [U4(vid) for vid in PORT_CARRIERS]).item()
        if A(carrier) not in ports:
            self.await_event(ID_WAITS, carrier)
        self.act("ProceedWithCarrier", carrier)
        self.act("ProceedWithCarrier", carrier)

    def create_jobs(self, carrier, process_job, control_job):
        """A process job of the whole carrier that starts by itself, and a control job of it."""
        job = [U4(0), A(process_job), B(0x0D), [[A(carrier), []]], [U1(1), A("R1"), []], BOOL(True), []]
        _, (is_done, errors) = self.link.ask(16, 11, job).item()
        require(is_done == BOOL(True), f"S16F11: {errors}")
        attributes = [[A("ObjID"), A(control_job)], [A("ProcessingCtrlSpec"), [A(process_job)]], [A("StartMethod"), BOOL(True)]]
        _, _, (objack, errors) = self.link.ask(14, 9, [A("Equipment"), A("ControlJob"), attributes]).item()
        require(objack == U1(0), f"S14F9: {errors}")

    def send_away(self, carrier):
        """Wants no answer, since the tool's run ends behind it, and what waits to be sent then is lost."""
        self.link.tell(3, 17, [U4(0), A("CancelCarrier"), A(carrier), U1(0), []])
        self.link.await_end()


def run(port, carrier, last):
    """Does all that the head of this file says."""
    host = LotHost(port)
    if not host.is_known():
        host.prepare()
    host.verify(carrier)
    process_job, control_job = f"PJ-{carrier}", f"CJ-{carrier}"
    host.create_jobs(carrier, process_job, control_job)
    host.leave()
    time.sleep(1)
    host.come()
    require(host.is_known(), "the tool was started anew, and the lot is gone")
    host.await_event(COMPLETED, control_job)
    host.await_event(REMOVED, "P1")
    host.send_away(last)
    print("the lot is done", flush=True)


def main(arguments):
    if len(arguments) > 3 or not all(word.isdecimal() for word in arguments[:1]):
        print("usage: run_a_lot.py [PORT [CARRIER [LAST]]]", file=sys.stderr)
        return 2
    port, carrier, last = arguments + ["5000", "CAR01", "CAR02"][len(arguments) :]
    try:
        run(int(port), carrier, last)
        return 0
    except (Failed, LinkEnded, OSError) as why:
        print(f"the lot failed: {why}", file=sys.stderr)
        return 1


if __name__ == "__main__":
    sys.exit(main(sys.argv[1:]))
