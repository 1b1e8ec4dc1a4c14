"""The calls that each command of a script makes (docs/FORMATS.md, Scripts)."""

# The calls of each session command in order: the verb and, of a call on a record, the record. A number in
# braces is the command's argument with the record's label.
SESSION_CALLS = {
    "protector": ["meta-put protector/{1}"],
    "protector-change": ["meta-get protector/{1}", "meta-put protector/{1}"],
    "protector-link": ["meta-put protector/{1}"],
    "policy-new": ["meta-get protector/{2}", "meta-put policy/{1}"],
    "policy-add": ["meta-get protector/{2}", "meta-get policy/{1}", "meta-get protector/{4}",
                   "meta-put policy/{1}"],
    "policy-drop": ["meta-get policy/{1}", "meta-put policy/{1}"],
    "unlock": ["meta-get protector/{2}", "meta-get policy/{1}", "add-key"],
    "lock": ["meta-get policy/{1}", "remove-key"],
    "status": ["meta-get policy/{1}", "key-status"],
    "encrypt": ["meta-get policy/{2}", "set-policy"],
    "migrate": ["meta-get policy/{1}", "meta-put policy/{1}"],
}
# Plain commands whose call has another name.
OTHER_NAMES = {"set-policy-bytes": "set-policy", "fill": "write"}
# No argument after this one names a record.
LAST_LABEL = 4


def is_session(name):
    """Whether commands of this name are session commands, which have a note each."""
    return name in SESSION_CALLS


def calls_of(words):
    """How the calls of a command begin, in order, if none ends it; the command is its name and its
    arguments."""
    calls = SESSION_CALLS.get(words[0])
    if calls is None:
        return [OTHER_NAMES.get(words[0], words[0])]
    padded = [*words, *[""] * LAST_LABEL]
    return [call.format(*padded) for call in calls]


def begins(call, beginning):
    """Whether a call, as a log has it, begins with these words."""
    return (call + " ").startswith(beginning + " ")
