"""Sessions with a service, by the client of `examples`."""
import os
import sys

from common import ROOT

sys.path.insert(0, os.path.join(ROOT, 'examples'))
from client import Client, Refused, spell  # noqa: E402
from refskold.session import unspell  # noqa: E402

__all__ = ['Client', 'Refused', 'refusal', 'spell', 'unspell']


def refusal(ask, *words):
    """The refusal with which something is answered that a client asks: its errno, and the blocks that are left held; None and none where it is done."""
    try:
        ask(*words)
    except Refused as refused:
        return refused.errno, refused.held
    return None, []
