"""Sessions with `xth serve`, and mounts of Refskold inside a program."""
from .files import Files
from .library import VERSION, Fault, load
from .mount import Mount
from .recovery import BrokenLog, Recovery, recover
from .session import Refused, Session, spell

__all__ = ['BrokenLog', 'Fault', 'Files', 'Mount', 'Recovery', 'Refused', 'Session', 'VERSION', 'load', 'recover', 'spell']
