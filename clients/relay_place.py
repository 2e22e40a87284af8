"""The socket at which the clients of `clients/relay` come."""
from __future__ import annotations

import os
import socket
import stat
import sys
from contextlib import suppress
from dataclasses import dataclass
from pathlib import Path

# the first of the files that systemd hands over
HANDED_OVER = 3


@dataclass
class Place:
    """Where clients come: a socket that the relay makes at a path, or the one that is handed over, which has none."""

    path: str | None
    mode: int
    group: int
    made: tuple[int, int] | None = None

    def fault(self):
        """Why no socket can be made at the path, or None. One that nobody listens at is left of a relay that was killed."""
        try:
            if not stat.S_ISSOCK(os.lstat(self.path).st_mode):
                return "it is there, and is no socket"
            with socket.socket(socket.AF_UNIX, socket.SOCK_STREAM) as trial:
                trial.setblocking(False)
                trial.connect(self.path)
        except (FileNotFoundError, ConnectionRefusedError):
            return None
        except BlockingIOError:
            pass
        except OSError as fault:
            return str(fault)
        return "a relay listens there already"

    def listen(self):
        """A socket to which clients can connect, none before it has its mode and its group. One that is left at the path is removed."""
        if self.path is None:
            return socket.socket(fileno=HANDED_OVER)
        if fault := self.fault():
            sys.exit(f"relay: {self.path}: {fault}")
        server = socket.socket(socket.AF_UNIX, socket.SOCK_STREAM)
        before = os.umask(0o777 & ~self.mode)
        try:
            Path(self.path).unlink(missing_ok=True)
            server.bind(self.path)
            there = os.lstat(self.path)
            self.made = there.st_dev, there.st_ino
            if self.group >= 0:
                os.chown(self.path, -1, self.group, follow_symlinks=False)
            server.listen(socket.SOMAXCONN)
        except OSError as fault:
            sys.exit(f"relay: {self.path}: {fault.strerror or fault}")
        finally:
            os.umask(before)
        return server

    def remove(self):
        """Removes the socket that the relay made, unless another one stands there now."""
        with suppress(OSError):
            there = os.lstat(self.path) if self.made else None
            if there and (there.st_dev, there.st_ino) == self.made:
                os.unlink(self.path)
        self.made = None


def is_handed_over():
    """Whether systemd hands one socket over to this process."""
    return os.environ.get("LISTEN_PID") == str(os.getpid()) and os.environ.get("LISTEN_FDS") == "1"
