"""What tests from outside share, each thing once: comparisons, processes, services, sessions, terminals, files, texts of checkpoints."""
import os

TOOLS = os.path.dirname(os.path.dirname(os.path.realpath(__file__)))
ROOT = os.path.dirname(TOOLS)
