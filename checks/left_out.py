"""What a check couldn't do where it ran, as a tool or a leave is missing: noted for the gate's last lines."""
from __future__ import annotations

import os


def note_left_out(check, what):
    """Adds a line to the file that LEFT_OUT names, where the gate has set it."""
    if name := os.environ.get("LEFT_OUT"):
        with open(name, "a", encoding="utf-8") as file:
            file.write(f"{check}: {what}\n")
