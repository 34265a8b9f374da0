#!/usr/bin/env python3
"""Joins a unit to sockets: takes frames in and gives frames out by UDP or TCP, over the named pipes of keep_unit.py.

    bridge.py SETTINGS
    bridge.py --ask CONTROL < INPUT > ANSWERS

SETTINGS is a file such as `ground.ini`; docs/STATION.md says what stands in it. Each section but [bridge] is a way:
frames come from one address, become records to protect or to open, and what the unit made of them goes to another. A
segment ends after so many records, or so many milliseconds after its first one has come. Each answer is a line of the
log: a JSON object with a time. SIGTERM ends the bridge in order, SIGHUP has it open its log anew.

With --ask it hands a recorded input to the control socket of a bridge that runs, and writes the answers, both as
octets: so commands and monitoring messages are handed in beside the frames. The status is then 0, or 3 if records have
no answer. Else it is 1 if a socket, a pipe or a file is at fault, and 2 if the settings are.
"""
import argparse
import asyncio
import collections
import configparser
import contextlib
import datetime
import errno
import json
import os
import pathlib
import signal
import socket
import struct
import sys
import threading
from dataclasses import dataclass

HERE = pathlib.Path(__file__).absolute().parent
sys.path[:0] = [str(HERE), str(HERE.parent)]
import ground  # noqa: E402
from keep_unit import BEGINNING, PIECE, Items, open_pipe, open_reader, open_writer  # noqa: E402

ITEM = struct.Struct(">BBBBH")
ANSWER = struct.Struct(">BBHIQQ")
LONGEST = 2048  # octets of a record
BUFFER = 1 << 20  # octets that wait in a socket
PATIENCE = 10  # seconds for each of the last answers

# The words of details: docs/RECORDS.md, "Answers as text".
FAULTS = ("NoLink", "Short", "Long", "LengthField", "Version", "Spare", "SecondaryHeader", "Fecf")
STATES = ("none", "unkeyed", "keyed", "operational")
REFUSALS = {
    first + place: word for first, words in {
        0x11: "AlreadyLoaded DuplicateKey BookFull KeyInState KeyInUse UnknownKey",
        0x21: "UnknownSpi SpiTaken SaInState ChannelTaken KeyNotActive BelowFloor",
        0x27: "TableFull WrongSuite PastEnd UnknownChannel KeyTaken",
        0x31: "BadTag BadItems Exhausted PduFault NotMaster NotSession",
    }.items() for place, word in enumerate(words.split())
}  # fmt: skip


class BadSettings(Exception):
    """What is wrong with the settings."""


@dataclass(frozen=True)
class Answer(ground.Answer):
    position: int
    octets: bytes


async def read_answer(reader):
    """The next answer. IncompleteReadError: the run was cut off."""
    header = await reader.readexactly(ANSWER.size)
    code, detail, key, length, position, number = ANSWER.unpack(header)
    body = await reader.readexactly(length)
    return Answer(ground.CODES[code], detail, key, number, body, position, header + body)


def described(answer):
    """The members of an answer's JSON object, named as in docs/RECORDS.md, "As JSON objects".

    Of a frame or a data field stands its length, in `octets`; a reply stands as its octets, in `body`.
    """
    word, number, position = answer.word, answer.number, answer.position
    said = {"code": word}
    if word in ("protected", "exhausted"):
        said.update(key=answer.key, number=number, epoch=position)
    elif word == "accepted":
        said.update(key=answer.key, number=number, entry=position)
    elif word == "number":
        high, width = struct.unpack(">QQ", answer.body)
        return {**said, "key": answer.key, "number": number, "entry": position, "high": high, "width": width}
    elif word == "done":
        drawn = {"drawn": {"key": answer.key, "number": number}} if answer.key else {}
        return {**said, "entry": position, **drawn, "body": answer.body.hex()}
    elif word == "refused":
        said.update(refusal=REFUSALS.get(answer.detail, answer.detail), number=number, entry=position)
    elif word == "monitored":
        return {**said, "entries": position, "body": answer.body.hex()}
    elif word == "monitor-fault":
        said.update(offset=number, entries=position)
    elif word == "layout":
        said.update(fault=FAULTS[answer.detail], position=position)
    elif word == "state":
        said.update(state=STATES[answer.detail], position=position)
    elif word in ("spi", "direction", "coverage", "mac"):
        said.update(entry=position)
    elif word in ("site-fault", "stopped"):
        said.update(faults=number, entries=position)
    elif word == "end":
        said.update(status=answer.detail, entries=position)
        said.update({"offset": number} if answer.detail in (3, 7) else {"faults": number} if number else {})
    elif word != "no-memory":
        said.update(position=position)
    return {**said, "octets": len(answer.body)} if answer.body else said


class Log:
    """A file of JSON lines, each with a time. A disk that is full stops no frame."""

    def __init__(self, path):
        self.path, self.file = path, None
        self.open()

    def open(self):
        before = self.file
        self.file = sys.stdout if self.path == "-" else open(self.path, "a", encoding="ascii")
        if before not in (None, sys.stdout):
            before.close()

    def note(self, **members):
        now = datetime.datetime.now(datetime.timezone.utc).strftime("%Y-%m-%dT%H:%M:%S.%fZ")
        try:
            print(json.dumps({"time": now, **members}, separators=(",", ":")), file=self.file, flush=True)
        except OSError as fault:
            print(f"bridge: a line of the log is lost: {fault}", file=sys.stderr, flush=True)


# -- ends: where frames come from, and where they go ------------------------------------------------------------------


@dataclass(frozen=True)
class Address:
    """`udp HOST:PORT`, `listen HOST:PORT` or `connect HOST:PORT`; the last two are TCP."""

    word: str
    host: str
    port: int

    @staticmethod
    def read(text):
        word, _, place = text.partition(" ")
        host, _, port = place.strip().rpartition(":")
        if word not in ("udp", "listen", "connect") or not host or not port.isdigit():
            raise BadSettings(f"'{text}' is not `udp HOST:PORT`, `listen HOST:PORT` or `connect HOST:PORT`")
        return Address(word, host.strip("[]"), int(port))


class Datagrams(asyncio.DatagramProtocol):
    """An end of UDP: a datagram is a frame."""

    def __init__(self, address, take=None):
        self.address, self.take, self.transport = address, take, None

    async def open(self):
        place = (self.address.host, self.address.port)
        places = {"local_addr": place} if self.take else {"remote_addr": place}
        self.transport, _ = await asyncio.get_running_loop().create_datagram_endpoint(lambda: self, **places)
        with contextlib.suppress(OSError):
            self.transport.get_extra_info("socket").setsockopt(socket.SOL_SOCKET, socket.SO_RCVBUF, BUFFER)

    def datagram_received(self, data, addr):
        if self.take:
            self.take(data)

    def give(self, octets):
        """Sends a frame. Returns whether it could be."""
        self.transport.sendto(octets)
        return True

    def close(self):
        self.transport.close()

    async def finish(self):
        self.close()


class Connections:
    """An end of TCP: frames one behind the other, over the connections that come, or the one that it makes."""

    def __init__(self, address, take=None, read_frame=None):
        self.address, self.take, self.read_frame = address, take, read_frame
        self.writers, self.server, self.connecting = set(), None, None

    async def open(self):
        if self.address.word == "listen":
            self.server = await asyncio.start_server(self.serve, self.address.host, self.address.port)
        else:
            self.connecting = asyncio.create_task(self.connect())

    async def connect(self):
        """Makes a connection, and another when it has ended."""
        while True:
            with contextlib.suppress(OSError):
                await self.serve(*await asyncio.open_connection(self.address.host, self.address.port))
            await asyncio.sleep(0.2)

    async def serve(self, reader, writer):
        self.writers.add(writer)
        try:
            while self.take:
                self.take(await self.read_frame(reader))
            while await reader.read(PIECE):  # whoever only gets frames has nothing to say
                pass
        except (asyncio.IncompleteReadError, ConnectionError, ground.Refused):
            pass
        finally:
            self.writers.discard(writer)
            writer.close()

    def give(self, octets):
        """Sends a frame to whoever is connected. Returns whether anybody is, and takes what is sent."""
        ready = [writer for writer in self.writers if writer.transport.get_write_buffer_size() < BUFFER]
        for writer in ready:
            writer.write(octets)
        return bool(ready)

    def close(self):
        if self.connecting:
            self.connecting.cancel()
        if self.server:
            self.server.close()
        for writer in self.writers:
            writer.close()

    async def finish(self):
        """Closes the end when what was given is sent."""
        writers = list(self.writers)
        self.close()
        for writer in writers:
            with contextlib.suppress(OSError, asyncio.TimeoutError):
                await asyncio.wait_for(writer.wait_closed(), 1)


def make_end(address, take=None, read_frame=None):
    return Datagrams(address, take) if address.word == "udp" else Connections(address, take, read_frame)


# -- ways -------------------------------------------------------------------------------------------------------------


def read_layout(text):
    """The layout that these words of a plan's `link` line say, and the octets of its frames: of TC none."""
    word, *words = text.split()
    flags = {"seg": True, "noseg": False, "ocf": True, "noocf": False, "fecf": True, "nofecf": False}
    try:
        if word == "tc":
            segment, error_control = words
            return ground.Link("tc", has_segment=flags[segment], has_error_control=flags[error_control]), None
        if word == "tm":
            length, error_control = words
            return ground.Link("tm", has_error_control=flags[error_control]), int(length)
        if word == "aos":
            length, insert, control, error_control = words
            layout = ground.Link("aos", has_error_control=flags[error_control], insert=int(insert),
                                 has_control_field=flags[control])  # fmt: skip
            return layout, int(length)
    except (KeyError, ValueError):
        pass
    raise BadSettings(f"'{text}' is not `tc SEG FECF`, `tm LEN FECF` or `aos LEN INSERT OCF FECF`, as in a plan")


async def read_tc_frame(reader):
    """A TC frame from a stream, by its length field."""
    header = await reader.readexactly(5)
    length = (header[2] & 3) << 8 | header[3]
    if length < 4:
        raise ground.Refused("layout")
    return header + await reader.readexactly(length - 4)


def clear_frame(layout, frame, data):
    """The frame in clear, without error control, of a protected frame that was opened."""
    prefix, _, control = layout.split(layout.without_error_control(frame))
    prefix = layout.with_length(prefix, len(prefix) + len(data) + len(control))
    return prefix + data + control


@dataclass
class Task:
    """A record that was handed in, or waits for it."""

    owner: object
    item: bytes
    frame: bytes
    came: float


class Way:
    """Frames of one kind, in one direction: a section of the settings."""

    is_given_again = True
    WORDS = {"word", "lane", "link", "frames", "length", "from", "to", "clear", "give"}

    def __init__(self, name, section, bridge):
        check_words(section, self.WORDS)
        self.name, self.bridge, self.counts, self.high = name, bridge, collections.Counter(), {}
        if section.get("word") not in ("protect", "open"):
            raise BadSettings("word is neither protect nor open")
        self.kind = ground.PROTECT if section["word"] == "protect" else ground.OPEN
        self.lane, self.link = read_number(section, "lane", 0, 15), read_number(section, "link", 0, 15)
        self.layout, self.length = read_layout(section.get("frames", ""))
        self.gives_frames = section.get("give", "frame") == "frame"
        self.source = self.make_source(section)
        self.sink = make_end(Address.read(section.get("to", "")))
        self.clear_sink = make_end(Address.read(section["clear"])) if "clear" in section else None
        if section.get("give", "frame") not in ("frame", "data"):
            raise BadSettings("give is neither frame nor data")
        if not self.gives_frames and self.sink.address.word != "udp":
            raise BadSettings("data fields have no length of their own: they go out by udp alone")

    def make_source(self, section):
        address = Address.read(section.get("from", ""))
        if self.layout.kind == "tc":
            return make_end(address, self.take, read_tc_frame)
        length = self.length
        if address.word != "udp" and self.kind == ground.PROTECT:
            length = read_number(section, "length", 6, LONGEST)  # of the frame in clear
        return make_end(address, self.take, lambda reader: reader.readexactly(length))

    def ends(self):
        return [end for end in (self.source, self.sink, self.clear_sink) if end]

    def take(self, frame):
        """Takes a frame that came."""
        self.counts["came"] += 1
        if len(frame) > LONGEST:
            return self.lose("too long", frame)
        item = ITEM.pack(self.kind, self.lane, self.link, 0, len(frame)) + frame
        if not self.bridge.take(Task(self, item, frame, asyncio.get_running_loop().time())):
            self.lose("too many wait", frame)

    def answered(self, task, answer):
        """Gives out what the unit made of a frame."""
        self.counts[answer.word] += 1
        if answer.word == "protected":
            self.give(self.sink, answer.body)
        elif answer.word == "accepted":
            self.note_gap(answer.key, answer.number)
            data = answer.body
            self.give(self.sink, clear_frame(self.layout, task.frame, data) if self.gives_frames else data)
        elif answer.word == "clear" and self.clear_sink:
            is_sent = self.kind == ground.PROTECT
            self.give(self.clear_sink, self.layout.with_error_control(task.frame) if is_sent else task.frame)

    def note_gap(self, key, number):
        """Notes numbers that were passed over: of frames that were lost, and those that a sender's crash has lost."""
        before = self.high.get(key, number - 1)
        if number > before + 1:
            self.counts["missed"] += number - before - 1
            self.bridge.log.note(way=self.name, event="gap", key=key, number=number, missed=number - before - 1)
        self.high[key] = max(number, before)

    def give(self, sink, octets):
        if not sink.give(octets):
            self.lose("not connected", octets)

    def lose(self, cause, frame):
        self.counts[cause] += 1
        self.bridge.log.note(way=self.name, event="lost", cause=cause, octets=len(frame))


class NoItem(Exception):
    """Why a client of the control socket is sent away."""


class Asker:
    """A client of the control socket, which hands in a recorded input and gets the answers to its records."""

    is_given_again = False
    name = "control"

    def __init__(self, bridge, reader, writer):
        self.bridge, self.reader, self.writer = bridge, reader, writer
        self.due = 0
        self.is_answered = asyncio.Event()

    async def serve(self):
        items = Items()
        try:
            while octets := await self.reader.read(PIECE):
                for piece in items.take(octets):
                    self.take(piece)
                await self.writer.drain()
            if items.rest:
                raise NoItem("an item is cut")
            while self.due:
                self.is_answered.clear()
                await self.is_answered.wait()
        except (NoItem, ConnectionError) as fault:
            self.bridge.log.note(way=self.name, event="closed", cause=str(fault))
        finally:
            self.writer.close()

    def take(self, piece):
        if piece == BEGINNING:
            return
        kind, lane, _, zero, length = ITEM.unpack(piece[: ITEM.size])
        is_right = length >= 3 if kind == ground.MONITOR else kind < ground.MONITOR and lane < 16
        if not is_right or zero or length > LONGEST:
            raise NoItem("no item of recorded input")
        if kind == ground.FENCE:
            return
        if not self.bridge.take(Task(self, piece, b"", 0.0)):
            raise NoItem("too many wait")
        self.due += 1

    def answered(self, _, answer):
        self.writer.write(answer.octets)
        self.settle()

    def settle(self):
        self.due -= 1
        self.is_answered.set()


# -- the unit's pipes -------------------------------------------------------------------------------------------------


class Session:
    """One opening of the unit's pipes, and so one run."""

    def __init__(self, reader, reading, writer):
        self.reader, self.reading, self.writer = reader, reading, writer
        self.tasks = collections.deque()  # handed in, and without an answer
        self.records = self.answers = 0
        self.is_ending = False

    def close(self):
        self.writer.close()
        self.reading.close()


class Bridge:
    """Hands records in, segment by segment, and gives each answer to whom it belongs."""

    WORDS = {"pipes", "log", "control", "records", "milliseconds", "waiting", "seconds", "run", "counts"}

    def __init__(self, settings):
        section = settings["bridge"]
        check_words(section, self.WORDS)
        self.pipes = pathlib.Path(section.get("pipes", "."))
        self.control = section.get("control")
        self.records = read_number(section, "records", 1, 1024)
        self.delay = read_number(section, "milliseconds", 0, 1000) / 1000
        self.most = read_number(section, "waiting", 1, 1 << 20, 4096)
        self.seconds = read_number(section, "seconds", 2, 86_400, 10)
        self.records_of_run = read_number(section, "run", 1, 522_239, 500_000)
        self.interval = read_number(section, "counts", 1, 86_400, 60)
        self.ways = []
        for name in settings.sections():
            if name != "bridge":
                with naming(name):
                    self.ways.append(Way(name, settings[name], self))
        self.log = Log(section.get("log", "-"))
        self.waiting, self.changed, self.is_stopping = collections.deque(), asyncio.Event(), asyncio.Event()
        self.session, self.entries, self.numbers = None, 0, {}

    async def run(self):
        """Serves until it is told to stop."""
        counting = asyncio.create_task(self.note_counts())
        server = await self.open_control()
        for way in self.ways:
            for end in way.ends():
                await end.open()
        while session := await self.open_session():
            await self.serve(session)
        counting.cancel()
        for task in self.waiting:
            if task.owner.is_given_again:
                task.owner.lose("stopped", task.frame)
        self.note_count()
        if server:
            server.close()
        for way in self.ways:
            for end in way.ends():
                await end.finish()

    async def open_control(self):
        if not self.control:
            return None
        with contextlib.suppress(FileNotFoundError):
            os.unlink(self.control)
        return await asyncio.start_unix_server(lambda *streams: Asker(self, *streams).serve(), self.control)

    def stop(self):
        for way in self.ways:
            way.source.close()
        self.is_stopping.set()
        self.changed.set()

    def take(self, task):
        """Takes a record, if not too many wait. Returns whether it was taken."""
        if len(self.waiting) + (len(self.session.tasks) if self.session else 0) >= self.most:
            return False
        self.waiting.append(task)
        self.changed.set()
        return True

    async def open_session(self):
        """Waits for the unit's pipes. Returns nothing if it is told to stop before."""
        while not self.is_stopping.is_set():
            session = await self.try_to_open()
            if session:
                self.log.note(event="run")
                return session
            with contextlib.suppress(asyncio.TimeoutError):
                await asyncio.wait_for(self.is_stopping.wait(), 0.05)
        return None

    async def try_to_open(self):
        names = self.pipes / "answers", self.pipes / "input"
        files = []
        try:
            files.append(open_pipe(names[0], os.O_RDONLY))
            files.append(open_pipe(names[1], os.O_WRONLY))
            # both are of one run if both have their names still
            if all(os.path.samestat(os.fstat(file.fileno()), os.stat(name)) for file, name in zip(files, names)):
                reader, reading = await open_reader(files[0])
                return Session(reader, reading, await open_writer(files[1]))
        except OSError as fault:
            if fault.errno not in (errno.ENOENT, errno.ENXIO):
                raise
        for file in files:
            file.close()
        return None

    def drop_old(self):
        """Frames that have waited too long are not handed in: nobody expects them any more."""
        oldest = asyncio.get_running_loop().time() - self.seconds
        while self.waiting and self.waiting[0].owner.is_given_again and self.waiting[0].came < oldest:
            task = self.waiting.popleft()
            task.owner.lose("too old", task.frame)

    async def serve(self, session):
        """Serves over these pipes until the run has ended, or has to end."""
        self.session = session
        handing = asyncio.create_task(self.hand_in(session))
        reading = asyncio.create_task(self.read_answers(session))
        losing = asyncio.create_task(session.writer.wait_closed())
        await asyncio.wait([handing, reading, losing], return_when=asyncio.FIRST_COMPLETED)
        # a keeper that no longer reads has given all answers, or it has gone before it opened their pipe
        patience = 1 if session.writer.transport.is_closing() else PATIENCE
        handing.cancel()
        session.writer.close()
        await self.wait_for_answers(session, reading, patience)
        reading.cancel()
        session.close()
        for task in (handing, reading, losing):
            with contextlib.suppress(asyncio.CancelledError, ConnectionError, asyncio.IncompleteReadError):
                await task
        self.session = None
        self.give_back(session.tasks)

    async def wait_for_answers(self, session, reading, patience):
        """Waits for the last answers, as long as each comes within these seconds."""
        seen = None
        while not reading.done() and seen != session.answers:
            seen = session.answers
            await asyncio.wait([reading], timeout=patience)

    def give_back(self, tasks):
        """Has the frames without an answer handed in again, before all others. Commands are not: they may be done."""
        if tasks:
            self.log.note(event="unanswered", records=len(tasks))
        for task in tasks:
            if not task.owner.is_given_again:
                task.owner.settle()
        self.waiting.extendleft(task for task in reversed(tasks) if task.owner.is_given_again)

    async def hand_in(self, session):
        """Hands in segment after segment, each with its fence, until the run has to end."""
        session.writer.write(BEGINNING)
        fence = ITEM.pack(ground.FENCE, 0, 0, 0, 0)
        while segment := await self.next_segment(session):
            session.tasks.extend(segment)
            session.records += len(segment)
            session.writer.write(b"".join(task.item for task in segment) + fence)
            await session.writer.drain()
            session.is_ending = session.is_ending or session.records >= self.records_of_run

    async def next_segment(self, session):
        """The records of the next segment: when there are enough, or when the first has waited long enough."""
        loop = asyncio.get_running_loop()
        while not session.is_ending:
            self.changed.clear()
            self.drop_old()
            left = self.waiting[0].came + self.delay - loop.time() if self.waiting else None
            if len(self.waiting) >= self.records or self.waiting and (left <= 0 or self.is_stopping.is_set()):
                return [self.waiting.popleft() for _ in range(min(len(self.waiting), self.records))]
            if self.is_stopping.is_set():
                break
            with contextlib.suppress(asyncio.TimeoutError):
                await asyncio.wait_for(self.changed.wait(), left)
        return []

    async def read_answers(self, session):
        """Notes each answer and gives it to whom it belongs, to the end of the run."""
        while True:
            answer = await read_answer(session.reader)
            session.answers += 1
            if answer.word == "end" or not session.tasks:  # the latter if another client was at the pipes
                self.log.note(**described(answer))
                return
            task = session.tasks.popleft()
            self.note(answer, task)
            task.owner.answered(task, answer)
            if answer.word in ("site-fault", "stopped"):  # the disk has failed: the run has to end
                session.is_ending = True
                self.changed.set()

    def note(self, answer, task):
        now = asyncio.get_running_loop().time()
        took = {"milliseconds": round(1000 * (now - task.came), 3)} if task.came else {}
        self.log.note(way=task.owner.name, **described(answer), **took)
        if answer.word in ("protected", "accepted"):
            self.numbers[answer.key] = max(answer.number, self.numbers.get(answer.key, 0))
        if task.item[0] != ground.PROTECT:
            self.entries = answer.position or self.entries

    async def note_counts(self):
        while True:
            await asyncio.sleep(self.interval)
            self.note_count()

    def note_count(self):
        """Notes what has been seen since the start: what to watch (docs/STATION.md)."""
        self.log.note(event="counts", entries=self.entries, waiting=len(self.waiting), numbers=self.numbers,
                      ways={way.name: way.counts for way in self.ways})  # fmt: skip


# -- settings and words -----------------------------------------------------------------------------------------------


def check_words(section, known):
    for word in section:
        if word not in known:
            raise BadSettings(f"there is no setting `{word}`")


def read_number(section, word, least, most, usual=None):
    text = section.get(word, None if usual is None else str(usual))
    if text is None or not text.isdigit() or not least <= int(text) <= most:
        raise BadSettings(f"{word} is no number from {least} to {most}")
    return int(text)


@contextlib.contextmanager
def naming(section):
    """Names the section of the settings that is at fault."""
    try:
        yield
    except BadSettings as fault:
        raise BadSettings(f"[{section}] {fault}") from None


def read_settings(path):
    settings = configparser.ConfigParser(interpolation=None)
    try:
        with open(path, encoding="utf-8") as file:
            settings.read_file(file)
    except (OSError, configparser.Error) as fault:
        raise BadSettings(str(fault)) from None
    if "bridge" not in settings or len(settings.sections()) < 2:
        raise BadSettings("there has to be a section [bridge], and one for each way")
    return settings


async def run_bridge(path):
    os.umask(0o077)  # log and control socket are for their owner alone
    bridge = Bridge(read_settings(path))
    loop = asyncio.get_running_loop()
    for number in (signal.SIGTERM, signal.SIGINT):
        loop.add_signal_handler(number, bridge.stop)
    loop.add_signal_handler(signal.SIGHUP, bridge.log.open)
    await bridge.run()


def ask(path):
    """Hands standard input to the control socket of a bridge, and writes the answers. Returns how many are missing."""
    given, items, answers = sys.stdin.buffer.read(), Items(), b""
    records = sum(piece != BEGINNING and piece[0] != ground.FENCE for piece in items.take(given)) + bool(items.rest)
    with socket.socket(socket.AF_UNIX) as control:
        control.connect(path)
        threading.Thread(target=lambda: (control.sendall(given), control.shutdown(socket.SHUT_WR)), daemon=True).start()
        while octets := control.recv(PIECE):
            sys.stdout.buffer.write(octets)
            answers += octets
    return records - count_answers(answers)


def count_answers(octets):
    """How many whole answers stand in these octets."""
    count = at = 0
    while at + ANSWER.size <= len(octets):
        at += ANSWER.size + ANSWER.unpack_from(octets, at)[3]
        count += at <= len(octets)
    return count


def main():
    words = argparse.ArgumentParser(description=__doc__.splitlines()[0])
    words.add_argument("--ask", action="store_true", help="hand standard input to the control socket of a bridge")
    words.add_argument("path", metavar="SETTINGS", help="the settings; with --ask the control socket")
    given = words.parse_args()
    try:
        if given.ask:
            missing = ask(given.path)
            if missing:
                print(f"bridge: {missing} records have no answer, and may have been done", file=sys.stderr)
                return 3
        else:
            asyncio.run(run_bridge(given.path))
    except (BadSettings, OSError) as fault:
        print(f"bridge: {fault}", file=sys.stderr)
        return 2 if isinstance(fault, BadSettings) else 1
    return 0


if __name__ == "__main__":
    sys.exit(main())
