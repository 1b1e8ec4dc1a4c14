"""How paths are walked by plain names, for the search alone."""
from parts.linux.at_once.state import ROOT

MAX_NAME = 255


class Refused(Exception):
    """A call is refused with this name, or with one of several separated by `|`."""


def check_part(state, directory, part):
    """A part is looked up in a directory."""
    if state.nodes[directory].kind != "dir":
        raise Refused("not-dir")
    if len(part) > MAX_NAME:
        raise Refused("name-too-long")


def walked(state, linux, path):
    """The node at a path."""
    at = ROOT
    for part in path:
        check_part(state, at, part)
        at = state.child(at, part, linux)
        if at is None:
            raise Refused("not-found")
    return at


def parent(state, linux, path):
    """The directory of a path's last part."""
    found = walked(state, linux, path[:-1])
    check_part(state, found, path[-1])
    return found
