"""A connection to a server through the database's own client program, which runs one query after another.

The client finds the server as usual, and Python needs no driver.
"""
import os
import re
import subprocess
import threading

from recording import Unreachable

CHUNK = 65_536
NUMBER = re.compile(r"-?[0-9]+")
SHORT = 4  # characters of the longest cached text


class Values(dict):
    """The values of texts in results. Short texts recur often, so they are cached."""

    def __missing__(self, text):
        found = int(text) if NUMBER.fullmatch(text) else text
        if len(text) <= SHORT:
            self[text] = found
        return found


class Client:
    """A running client, in its own process session, so that an interrupt of the recorder doesn't end it first. Threads
    that query it at the same time wait for each other; `lock` keeps several queries together."""

    PROGRAM = ()  # the program with its arguments
    BETWEEN, NULL = "|", ""  # the separator of values in a result, and the text of a null
    END, DONE = "", b""  # what is sent after a query, and the end of its result
    LOST = re.compile(rb"$^")  # the message of a client that goes on after losing its connection

    id = None  # the connection's number at the server, once it is known

    def __init__(self, words):
        self.lock, self.values = threading.RLock(), Values({self.NULL: None})
        streams = {"stdin": subprocess.PIPE, "stdout": subprocess.PIPE, "stderr": subprocess.STDOUT}
        try:
            self.process = subprocess.Popen([*self.PROGRAM, *words], start_new_session=True, **streams)
        except OSError as error:
            raise Unreachable(f"{self.PROGRAM[0]} can't be run: {error.strerror}") from None

    def ask(self, question):
        """The rows of a result, each a list of numbers, texts and None; raises Refused."""
        with self.lock:
            try:
                self.process.stdin.write(f"{question};\n{self.END}".encode())
                self.process.stdin.flush()
            except OSError:
                pass  # (the client's last message has the reason)
            read = b"\n"
            while not read.endswith(self.DONE):
                more = os.read(self.process.stdout.fileno(), CHUNK)
                read += more
                if not more or self.LOST.search(read):
                    raise Unreachable(self.last_said(read.decode(errors="replace")))
        return [list(map(self.values.__getitem__, line.split(self.BETWEEN))) for line in self.answered(read.decode())]

    def answered(self, text):
        """The lines of a result that have rows; raises Refused."""
        raise NotImplementedError

    def last_said(self, text):
        # (A continuation line begins with a tab.)
        lines = [line for line in text.splitlines() if line[:1].strip()]
        return lines[-1] if lines else "the connection is lost"

    def close(self):
        try:
            self.process.stdin.close()
        except OSError:
            pass
        self.process.wait()
        with self.lock:
            self.process.stdout.close()
