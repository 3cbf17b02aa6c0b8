"""Does at a Daghzimo server what Socket.IO's Redis emitters publish."""
from .bridge import Bridge
from .forms import Malformed

__all__ = ["Bridge", "Malformed"]
