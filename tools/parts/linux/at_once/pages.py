"""What is not one point on Linux in contents: a write ends page by page, and reads take no lock on ext4."""

PAGE = 4_096
MIN_TEXT = 21  # characters; names of scripts are shorter


def is_text(name):
    """Whether a listed name is a no-key text."""
    return len(name) >= MIN_TEXT


def beside(state, call, node):
    """The offsets and bytes of the writes to a node that overlap a call."""
    return [
        write.arguments[1:] for write in call.writes
        if state.handles.get((write.caller, write.arguments[0])) == node
    ]


def ends(offset, data):
    """The ends of the pages of a write, and its own."""
    end = offset + len(data)
    return {*range((offset // PAGE + 1) * PAGE, end, PAGE), end}


def sizes_beside(state, call, node):
    """The sizes that a file may have within the writes that overlap a call."""
    return {end for write in beside(state, call, node) for end in ends(*write)}


def is_torn(state, call):
    """Whether each byte of a read is the file's, or one that an overlapping write puts there."""
    handle, offset, length = call.arguments
    node = state.handles.get((call.caller, handle))
    if node is None or state.nodes[node].kind != "file" or not call.reply.startswith("data "):
        return False
    data, body = bytes.fromhex(call.reply[5:].replace("-", "")), state.nodes[node].body
    writes = beside(state, call, node)
    sizes = {len(body), *sizes_beside(state, call, node)}
    if not writes or len(data) not in {max(0, min(size - offset, length)) for size in sizes}:
        return False
    return all(byte in bytes_at(body, writes, offset + at) for at, byte in enumerate(data))


def bytes_at(body, writes, position):
    """The bytes that a file may have at a position beside some writes."""
    found = {body[position] if position < len(body) else 0}
    return found | {
        data[position - offset] for offset, data in writes if offset <= position < offset + len(data)
    }
