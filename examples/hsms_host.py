"""The host's side of an HSMS link in plain Python 3, for the hosts beside it: select_and_ask.py and run_a_lot.py.

Items (SEMI E5) are made by A, B, BOOL, U1, U2, U4 and U8, and a list of items is a list: [U4(0), A("Bind")]. What is read is made of
the same. A Link connects, selects, asks and is told; it answers all that the tool asks by itself, and puts the events that the tool
reports into an Inbox, each once. Each frame that goes out (->) and that comes (<-) is printed in words.
"""

import collections
import itertools
import socket
import struct
import time

# So many seconds a host here tries to connect, and waits for a message.
PATIENCE = 20.0


class LinkEnded(Exception):
    """The tool has ended the link, or nothing came in time."""


# ---- Items (SEMI E5, item formats)

Item = collections.namedtuple("Item", "kind value")

# Each kind with its format code, and how struct spells one number of it.
CODES = {"B": 0o10, "BOOL": 0o11, "A": 0o20, "I8": 0o30, "I1": 0o31, "I2": 0o32, "I4": 0o34, "U8": 0o50, "U1": 0o51, "U2": 0o52, "U4": 0o54}
KINDS = {code: kind for kind, code in CODES.items()}
NUMBERS = {"BOOL": "?", "I1": "b", "I2": "h", "I4": "i", "I8": "q", "U1": "B", "U2": "H", "U4": "I", "U8": "Q"}


def A(text):
    return Item("A", text)


def B(*data):
    return Item("B", bytes(data))


def BOOL(*truths):
    return Item("BOOL", truths)


def U1(*numbers):
    return Item("U1", numbers)


def U2(*numbers):
    return Item("U2", numbers)


def U4(*numbers):
    return Item("U4", numbers)


def U8(*numbers):
    return Item("U8", numbers)


def head(code, length):
    """A format byte with the fewest length bytes, and these."""
    count = 1 if length < 0x100 else 2 if length < 0x10000 else 3
    return bytes([4 * code + count]) + length.to_bytes(count, "big")


def encoded(item):
    """The bytes of an item; none for None, a message without text."""
    if item is None:
        return b""
    if isinstance(item, list):
        return head(0, len(item)) + b"".join(map(encoded, item))
    if item.kind == "A":
        body = item.value.encode("ascii")
    elif item.kind == "B":
        body = item.value
    else:
        body = struct.pack(f">{len(item.value)}{NUMBERS[item.kind]}", *item.value)
    return head(CODES[item.kind], len(body)) + body


def decoded(data, place=0):
    """The item that stands at a place, and the place behind it."""
    code, count = data[place] >> 2, data[place] & 3
    length = int.from_bytes(data[place + 1 : place + 1 + count], "big")
    place += 1 + count
    if code == 0:
        items = []
        for _ in range(length):
            item, place = decoded(data, place)
            items.append(item)
        return items, place
    kind, body = KINDS[code], data[place : place + length]
    if kind == "A":
        value = body.decode("ascii")
    elif kind == "B":
        value = body
    else:
        value = struct.unpack(f">{length // struct.calcsize('>' + NUMBERS[kind])}{NUMBERS[kind]}", body)
    return Item(kind, value), place + length


def words(item):
    """An item as the pages of docs/profile write it."""
    if isinstance(item, list):
        return "L[" + ", ".join(map(words, item)) + "]"
    if item.kind == "A":
        return f"A {item.value}" if item.value else "A"
    if item.kind == "B":
        return " ".join(["B"] + [f"{byte:02X}" for byte in item.value])
    return " ".join([item.kind] + [str(number).lower() for number in item.value])


# ---- Messages (SEMI E37, message format)

CONTROL = {1: "Select.req", 2: "Select.rsp", 5: "Linktest.req", 6: "Linktest.rsp", 7: "Reject.req", 9: "Separate.req"}


class Message:
    """A message of a link: its header and its text."""

    def __init__(self, session, byte2, byte3, ptype, stype, system, text=b""):
        self.session = session
        self.byte2 = byte2
        self.byte3 = byte3
        self.ptype = ptype
        self.stype = stype
        self.system = system
        self.text = text

    def frame(self):
        header = (self.session, self.byte2, self.byte3, self.ptype, self.stype, self.system)
        return struct.pack(">IHBBBBI", 10 + len(self.text), *header) + self.text

    @property
    def stream(self):
        return self.byte2 & 0x7F

    @property
    def function(self):
        return self.byte3

    @property
    def wants_answer(self):
        return self.stype == 0 and self.byte2 & 0x80 != 0

    @property
    def is_request(self):
        """Whether it is no answer to anything."""
        return self.stype in (1, 3, 5, 9) or (self.stype == 0 and self.function % 2 == 1)

    def item(self):
        """The item that its text is; None where it has no text."""
        return decoded(self.text)[0] if self.text else None

    def __str__(self):
        if self.stype != 0:
            return f"{CONTROL.get(self.stype, f'SType {self.stype}')} {self.system}"
        wanted = " W" if self.wants_answer else ""
        body = f" {words(self.item())}" if self.text else ""
        return f"S{self.stream}F{self.function}{wanted} {self.system}{body}"


# ---- A link that is up

# What a host here answers to primaries of the tool, by stream and function: S1F2 L[], S1F14 L[B 00, L[]], S5F2 and S6F12 B 00.
ANSWERS = {(1, 1): [], (1, 13): [B(0), []], (5, 1): B(0), (6, 11): B(0)}

# An event that the tool reported: DATAID, CEID, and for each report the values of its variables.
Event = collections.namedtuple("Event", "dataid ceid reports")


class Inbox:
    """The events that were reported, the oldest first, over all links to one tool. DATAIDs rise, and a report that is sent again has the
    one that it had: so it is told apart."""

    def __init__(self):
        self.events = collections.deque()
        self.last_dataid = 0

    def put(self, item):
        dataid, ceid, reports = item
        if dataid.value[0] > self.last_dataid:
            self.last_dataid = dataid.value[0]
            self.events.append(Event(dataid.value[0], ceid.value[0], [values for _, values in reports]))


def selected(port, inbox):
    """A link to the tool that is selected. The tool may be listening only in a moment, and it turns others away while a session is up: so
    the host tries again for a while."""
    end = time.monotonic() + PATIENCE
    while True:
        try:
            link = Link(port, inbox)
            link.select()
            return link
        except (LinkEnded, ConnectionRefusedError):
            if time.monotonic() > end:
                raise
            time.sleep(0.2)


class Link:
    """A link to the tool, for device 0. It is closed at the end of a `with`."""

    def __init__(self, port, inbox):
        self.socket = socket.create_connection(("127.0.0.1", port), timeout=PATIENCE)
        self.systems = itertools.count(1)
        self.inbox = inbox

    def __enter__(self):
        return self

    def __exit__(self, *_):
        self.close()

    def send(self, message):
        print(f"-> {message}", flush=True)
        try:
            self.socket.sendall(message.frame())
        except OSError as fault:
            raise LinkEnded(str(fault)) from fault

    def read(self, count):
        """So many bytes."""
        data = b""
        while len(data) < count:
            try:
                piece = self.socket.recv(count - len(data))
            except OSError as fault:
                raise LinkEnded(str(fault)) from fault
            if not piece:
                raise LinkEnded("the tool has ended the link")
            data += piece
        return data

    def receive(self):
        """The next message of the tool. What the tool asks is answered, and an event goes to the inbox."""
        (length,) = struct.unpack(">I", self.read(4))
        body = self.read(length)
        message = Message(*struct.unpack(">HBBBBI", body[:10]), text=body[10:])
        print(f"<- {message}", flush=True)
        self.answer(message)
        if message.stype == 0 and (message.stream, message.function) == (6, 11):
            self.inbox.put(message.item())
        return message

    def answer(self, message):
        """Answers what the tool asks by itself, if it wants an answer."""
        if message.stype == 5:
            self.send(Message(0xFFFF, 0, 0, 0, 6, message.system))
        elif message.is_request and message.wants_answer:
            item = ANSWERS.get((message.stream, message.function))
            self.send(Message(message.session, message.stream, message.function + 1, 0, 0, message.system, encoded(item)))

    def await_answer(self, asked):
        """The message that answers: no request, and under the same system bytes."""
        while True:
            message = self.receive()
            if not message.is_request and message.system == asked.system:
                return message

    def select(self):
        request = Message(0xFFFF, 0, 0, 0, 1, next(self.systems))
        self.send(request)
        return self.await_answer(request)

    def close(self):
        self.socket.close()

    def ask(self, stream, function, item=None):
        """A primary that wants an answer. The answer, a message."""
        primary = Message(0, 0x80 | stream, function, 0, 0, next(self.systems), encoded(item))
        self.send(primary)
        return self.await_answer(primary)

    def tell(self, stream, function, item=None):
        """A primary that wants no answer."""
        self.send(Message(0, stream, function, 0, 0, next(self.systems), encoded(item)))

    def await_end(self):
        """Receives until the tool ends the link."""
        try:
            while True:
                self.receive()
        except LinkEnded as why:
            print(why, flush=True)

    def separate(self):
        self.send(Message(0xFFFF, 0, 0, 0, 9, next(self.systems)))
