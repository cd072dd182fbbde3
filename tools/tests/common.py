"""What the tests of the tools share: running a tool in a folder of its own, and what is there to test with."""
import contextlib
import http.client
import importlib
import io
import json
import os
import signal
import tempfile
import unittest
from unittest import mock

from shadowtools.needs import is_there
from shadowtools.places import BUILT as PROGRAM
from shadowtools.places import TOOLS, TOP as ROOT

needs_numpy = unittest.skipUnless(is_there("numpy"), "needs python3-numpy")
needs_scipy = unittest.skipUnless(is_there("numpy", "scipy"), "needs python3-numpy and python3-scipy")
PAGE = ("numpy", "scipy", "matplotlib", "pandas", "jinja2")
needs_page = unittest.skipUnless(is_there(*PAGE), "needs " + ", ".join("python3-" + name for name in PAGE))
needs_program = unittest.skipUnless(os.path.exists(PROGRAM), "needs the built program")


def asked(port, method, path, body=None, limit=60, fields=None):
    """The status and the JSON of a response, over a connection of its own to a server on this machine."""
    with contextlib.closing(http.client.HTTPConnection("127.0.0.1", port, timeout=limit)) as connection:
        connection.request(method, path, None if body is None else json.dumps(body), fields or {})
        response = connection.getresponse()
        return response.status, json.loads(response.read())


def heed_interruptions():
    """For a child that is to be interrupted: a shell that starts these tests in its background has it ignore SIGINT."""
    signal.signal(signal.SIGINT, signal.SIG_DFL)


class Folder(unittest.TestCase):
    """A test with a folder of its own."""

    def setUp(self):
        holder = tempfile.TemporaryDirectory()
        self.addCleanup(holder.cleanup)
        slow = mock.patch("shadowtools.agency.drivers.PAUSE", 1e9)    # no notes on progress, however busy the machine is
        slow.start()
        self.addCleanup(slow.stop)
        self.folder = holder.name

    def path(self, name):
        return os.path.join(self.folder, name)

    def write(self, name, text):
        with open(self.path(name), "w", encoding="utf-8", newline="") as file:
            file.write(text)
        return self.path(name)

    def read(self, name):
        with open(self.path(name), encoding="utf-8", newline="") as file:
            return file.read()

    def takes_all(self):
        """A program that takes any texts, and has a form of them."""
        path = self.write("takes_all", "#!/bin/sh\ncase $1 in check) echo bank items 1 ;; *) printf 'form 0\\nobjective 1 proved nodes 1\\ntree 00\\n' ;; esac\n")
        os.chmod(path, 0o755)
        return path

    def tool(self, name, *words):
        """Status, standard output and standard error of a tool, called within this process in the test's folder."""
        said, errors, before = io.StringIO(), io.StringIO(), os.getcwd()
        os.chdir(self.folder)
        try:
            with contextlib.redirect_stdout(said), contextlib.redirect_stderr(errors):
                status = importlib.import_module(name).command(list(words))
        except SystemExit as end:
            status = end.code
        finally:
            os.chdir(before)
        return status, said.getvalue(), errors.getvalue()
