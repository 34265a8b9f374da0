#!/usr/bin/env python3
"""Keeps a unit at work: holds the input of `sdls run` open, and closes it when it is told to stop.

    keep_unit.py [--sdls PROGRAM] [--keep FOLDER] UNIT PIPES

UNIT is the folder of a unit. In the folder PIPES it makes two named pipes, `input` and `answers`, for one client at a
time, such as `bridge.py`. The client writes a recorded input into the one, and reads the answers from the other. When
it closes `input`, or no longer reads `answers`, its run ends in order. The next run begins at once, with new pipes.
While a client is there the names of its pipes are gone, so no other client comes between. With --keep the answers of
each run are kept too, in a file of its own, for `sdls_text recording` and `sdls audit`.

SIGTERM, SIGINT and SIGHUP tell it to stop: it hands in no further item, closes the unit's input, and waits for the
status. To the unit each of them would be a crash. So it is started with all three ignored, and in a session of its own.
The exit status is for a supervisor:

    0                        it was told to stop, and the unit has ended in order
    6, 8, 128 and a signal   the run ended so: start again
    1, 2                     pipes, program or words are at fault: call a person
    75                       another unit holds the folder or the image, or another keeper the pipes: call a person
    others                   the run ended so: call a person

A run that ends with 0 or 3 is the client's end: its input was closed, or malformed. Then the next run begins.
"""
import argparse
import asyncio
import contextlib
import datetime
import errno
import fcntl
import os
import pathlib
import shutil
import signal
import subprocess
import sys
import threading

BEGINNING = b"SDLSREC1"
HEADER_LENGTH = 6  # of an item
PIECE = 65536
PATIENCE = 5  # seconds that a client has for the last answers, once the keeper is told to stop
START_AGAIN = (6, 8)  # and each signal
# What is ignored when bash begins stays so in all that it starts: it can be neither trapped nor set back.
DEAF = ("bash", "-c", 'trap "" HUP INT TERM && exec "$@"', "bash")


def say(text):
    print(f"keep_unit: {text}", file=sys.stderr, flush=True)


class Items:
    """Cuts a recorded input into its beginning and its items, as the octets come (RECORDS.md, "The recorded input")."""

    def __init__(self):
        self.rest, self.is_begun = b"", False

    def take(self, octets):
        """What is whole with these octets, piece by piece: the beginning, then items. The rest waits for more."""
        octets, at, whole = self.rest + octets, 0, []
        while True:
            end = at + self.length_at(octets, at)
            if end > len(octets):
                self.rest = octets[at:]
                return whole
            whole.append(octets[at:end])
            at, self.is_begun = end, True

    def length_at(self, octets, at):
        """The length of the piece that begins there, or at least that of its header if the end cuts it."""
        if not self.is_begun:
            return len(BEGINNING)
        if at + HEADER_LENGTH > len(octets):
            return HEADER_LENGTH
        return HEADER_LENGTH + int.from_bytes(octets[at + 4 : at + 6], "big")


async def open_reader(file):
    """A stream that reads from this pipe, and the transport that closes it."""
    reader = asyncio.StreamReader()
    loop = asyncio.get_running_loop()
    transport, _ = await loop.connect_read_pipe(lambda: asyncio.StreamReaderProtocol(reader), file)
    return reader, transport


async def open_writer(file):
    """A stream that writes to this pipe."""
    reader = asyncio.StreamReader()  # of which only the end is of use: the other side has closed the pipe
    protocol = asyncio.StreamReaderProtocol(reader)
    loop = asyncio.get_running_loop()
    transport, _ = await loop.connect_write_pipe(lambda: protocol, file)
    return asyncio.StreamWriter(transport, protocol, reader, loop)


def open_pipe(path, flags):
    """A named pipe, opened without waiting. OSError ENXIO: it is opened for writing, and nobody reads."""
    descriptor = os.open(path, flags | os.O_NONBLOCK)
    return open(descriptor, "rb" if flags == os.O_RDONLY else "wb", buffering=0)


class Client:
    """Whoever uses the two named pipes, one client at a time."""

    def __init__(self, folder):
        self.input, self.answers = folder / "input", folder / "answers"
        self.reader = self.reading = self.writer = None
        self.is_gone = asyncio.Event()
        self.remove_names()
        for path in (self.input, self.answers):
            os.mkfifo(path, 0o600)

    def remove_names(self):
        for path in (self.input, self.answers):
            with contextlib.suppress(FileNotFoundError):
                path.unlink()

    async def come(self):
        """Waits until somebody has written and somebody reads. Returns the first octets."""
        octets = b""
        while not octets:
            before = self.reading
            self.reader, self.reading = await open_reader(open_pipe(self.input, os.O_RDONLY))
            if before:
                before.close()
            octets = await self.reader.read(PIECE)
        while self.writer is None:
            try:
                self.writer = await open_writer(open_pipe(self.answers, os.O_WRONLY))
            except OSError as fault:
                if fault.errno != errno.ENXIO:
                    raise
                await asyncio.sleep(0.02)
        self.remove_names()
        return octets

    async def give(self, octets):
        """Hands answers to the client, unless it is gone."""
        if self.writer is None or self.is_gone.is_set():
            return
        try:
            self.writer.write(octets)
            await self.writer.drain()
        except ConnectionError:
            self.is_gone.set()

    def abandon(self):
        """Waits for this client no longer."""
        self.is_gone.set()
        if self.writer is not None:
            self.writer.transport.abort()

    async def close(self):
        self.remove_names()
        if self.reading is not None:
            self.reading.close()
        if self.writer is not None:
            self.writer.close()
            with contextlib.suppress(ConnectionError, asyncio.TimeoutError):
                await asyncio.wait_for(self.writer.wait_closed(), PATIENCE)


class Run:
    """A run of the unit, over pipes that nobody else holds."""

    def __init__(self, program, unit):
        self.process = subprocess.Popen([*DEAF, program, "run"], cwd=unit, bufsize=0, start_new_session=True,
                                        stdin=subprocess.PIPE, stdout=subprocess.PIPE)  # fmt: skip
        self.input = self.answers = None
        self.has_ended = asyncio.Event()

    async def open(self):
        self.input = await open_writer(self.process.stdin)
        self.answers, _ = await open_reader(self.process.stdout)
        self.input.write(BEGINNING)  # so that a run without a client ends in order too
        threading.Thread(target=self.wait, args=(asyncio.get_running_loop(),), daemon=True).start()

    def wait(self, loop):
        self.process.wait()
        with contextlib.suppress(RuntimeError):  # the loop is closed
            loop.call_soon_threadsafe(self.has_ended.set)

    async def status(self):
        await self.has_ended.wait()
        status = self.process.returncode
        return status if status >= 0 else 128 - status


def open_secret(path, flags):
    """Makes a file for its owner alone: answers hold opened data."""
    return os.open(path, flags, 0o600)


class KeptAnswers:
    """A file with the answers of a run, if they are to be kept."""

    def __init__(self, folder):
        self.folder, self.file = folder, None

    def write(self, octets):
        if self.folder is None:
            return
        try:
            self.file = self.file or open(self.folder / self.name(), "xb", buffering=0, opener=open_secret)
            self.file.write(octets)
        except OSError as fault:
            say(f"the rest of the answers of this run is not kept: {fault}")
            self.close()
            self.folder = None

    def name(self):
        return datetime.datetime.now(datetime.timezone.utc).strftime("%Y%m%dT%H%M%S.%fZ.bin")

    def close(self):
        if self.file:
            self.file.close()


class Keeper:
    """Serves one client after the other, each by a run of its own."""

    def __init__(self, program, unit, pipes, kept):
        self.program, self.unit, self.pipes, self.kept = program, unit, pipes, kept
        self.is_stopping = asyncio.Event()

    async def keep(self):
        """Serves until it is told to stop, or a run ends as no client ends it. Returns the exit status."""
        while not self.is_stopping.is_set():
            status = await self.serve()
            if status not in (0, 3):
                again = status in START_AGAIN or status > 128
                say(f"the unit has ended with status {status}: {'start it again' if again else 'call a person'}")
                return status
        return 0

    async def serve(self):
        """Makes a run for the client that comes. Returns its status."""
        client = Client(self.pipes)
        try:
            run = Run(self.program, self.unit)
            await run.open()
            return await self.serve_by(run, client)
        finally:
            await client.close()

    async def serve_by(self, run, client):
        handing = asyncio.create_task(self.hand_in(run, client))
        giving = asyncio.create_task(self.give_out(run, client))
        stopping, leaving, ending = (asyncio.create_task(event.wait()) for event in (
            self.is_stopping, client.is_gone, run.has_ended))  # fmt: skip
        await asyncio.wait([handing, giving, stopping, leaving, ending], return_when=asyncio.FIRST_COMPLETED)
        for task in (handing, leaving, ending):
            task.cancel()
        run.input.close()
        await asyncio.wait([giving, stopping], return_when=asyncio.FIRST_COMPLETED)
        await asyncio.wait([giving], timeout=PATIENCE)
        if not giving.done():
            client.abandon()
        await giving
        stopping.cancel()
        with contextlib.suppress(asyncio.CancelledError):
            await handing  # raises what stopped it, if it was not cancelled
        return await run.status()

    async def hand_in(self, run, client):
        """Hands on what the client writes, whole items alone, until it has closed its pipe."""
        items = Items()
        octets = await client.come()
        with contextlib.suppress(ConnectionError):  # the run has ended
            while octets:
                run.input.write(b"".join(piece for piece in items.take(octets) if piece != BEGINNING))
                await run.input.drain()
                octets = await client.reader.read(PIECE)
            run.input.write(items.rest)  # an item that the client has cut: the unit says where

    async def give_out(self, run, client):
        """Hands the answers to the client, and keeps them, to the end of the run."""
        kept = KeptAnswers(self.kept)
        while octets := await run.answers.read(PIECE):
            kept.write(octets)
            await client.give(octets)
        kept.close()


def folder_of(word):
    path = pathlib.Path(word)
    if not path.is_dir():
        raise argparse.ArgumentTypeError(f"{word} is no folder")
    return path


def lock(folder):
    """Locks a folder until this process ends. Returns whether it could be."""
    try:
        fcntl.flock(os.open(folder, os.O_RDONLY), fcntl.LOCK_EX | fcntl.LOCK_NB)
    except BlockingIOError:
        return False
    return True


async def main():
    words = argparse.ArgumentParser(description=__doc__.splitlines()[0])
    words.add_argument("--sdls", default="sdls", help="the launcher, if not the one on the path")
    words.add_argument("--keep", type=folder_of, help="a folder for the answers of each run")
    words.add_argument("unit", type=folder_of, help="the folder of the unit")
    words.add_argument("pipes", type=folder_of, help="a folder for the named pipes")
    given = words.parse_args()
    program = shutil.which(given.sdls)
    if program is None:
        words.error(f"there is no program {given.sdls}: name the launcher by --sdls")
    if not lock(given.pipes):
        say("another keeper holds the pipes")
        return 75
    keeper = Keeper(os.path.abspath(program), given.unit, given.pipes, given.keep)
    for number in (signal.SIGTERM, signal.SIGINT, signal.SIGHUP):
        asyncio.get_running_loop().add_signal_handler(number, keeper.is_stopping.set)
    try:
        return await keeper.keep()
    except OSError as fault:
        say(f"pipes or program are at fault: {fault}")
        return 1


if __name__ == "__main__":
    sys.exit(asyncio.run(main()))
