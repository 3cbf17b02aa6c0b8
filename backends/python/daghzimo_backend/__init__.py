"""Lets a program that was written for python-socketio's server drive a Daghzimo server."""
from .commands import CommandError
from .handlers import Missing
from .shells import AsyncBackend, Backend

__all__ = ["AsyncBackend", "Backend", "CommandError", "Missing"]
