"""Lists and scripts of any size, for the scripts that try limits and count costs."""

import json


def listed(fields, slots):
    """A list with these fields, and these of each slot."""
    def table(of):
        return "".join(f"{name} = {json.dumps(value)}\n" for name, value in of.items())
    return table(fields) + "".join(f"[[slot]]\n{table(slot)}" for slot in slots)


def list_text(nodes, *, kinds="NX", data=16, buffers=4, modes=1, drift=1, error=1, window=None, comment=0, requests=False):
    """A list in which all nodes are alike, but that node 0 alone may start."""
    fields = {"version": 1 if nodes <= 16 else 2, "rounds": len(kinds), "schedule": 77, "buffers": buffers, "drift": drift,
              "error": error, "window": 12 * nodes + 10 if window is None else window, "modes": modes}
    slots = ({"kinds": kinds, "data": data, "sync": True, "start": k == 0, "requests": requests and data > 0} for k in range(nodes))
    return filled(listed(fields, slots), comment)


def script_text(nodes, slots, lines=(), comment=0):
    """A script that switches all nodes on in slot 0, and has these lines."""
    on = (f"on {k} 0" for k in range(nodes))
    return filled("".join(f"{line}\n" for line in (f"slots {slots}", *on, *lines)), comment)


def filled(text, size):
    """The text with comments behind it, so that it has this size, if it is smaller."""
    line = "# a line of a comment, as people write them into such files.\n"
    more = max(0, size - len(text))
    return text + line * (more // len(line)) + "#" * (more % len(line))


def host_lines(nodes, slots, data, buffers):
    """In each slot one node's host writes, where it can, and another one reads its status and what came from that one."""
    for t in range(slots):
        sender, reader = t % nodes, (t + 1) % nodes
        if buffers > 1 and data:
            yield f"write {sender} {t} {'%02x' % (t % 256) * data}"
        if data:
            yield f"read {reader} {t} {sender}"
        yield f"read {reader} {t} status"
