"""The parts of the commands in tools/, a folder a command; common/ has what several of them use."""
import os

PARTS = os.path.dirname(os.path.realpath(__file__))
TOP = os.path.dirname(os.path.dirname(PARTS))
