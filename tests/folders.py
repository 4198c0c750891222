"""Files that are laid into a folder and found there, and the order in which the program writes."""

import os


def path_in(folder, name):
    """Returns the path of a name, which is bytes or a text, as the system takes it."""
    return os.path.join(os.fsencode(folder), name if isinstance(name, bytes) else name.encode())


def lay(folder, files, folders):
    for name in folders:
        os.makedirs(path_in(folder, name))
    for name, held in files.items():
        path = path_in(folder, name)
        os.makedirs(os.path.dirname(path), exist_ok=True)
        with open(path, "wb") as it:
            it.write(held)


def found_in(folder):
    """Returns what each file in the folder holds, by its name in bytes."""
    top, held = os.fsencode(folder), {}
    for at, _, names in os.walk(top):
        for name in names:
            path = os.path.join(at, name)
            with open(path, "rb") as it:
                held[os.path.relpath(path, top)] = it.read()
    return held


MADE = ["case.json", "net.json", "basic.p4", "path.indus", "entries.json", "control.json"] + [f"h{it}.pcap" for it in range(16)]
ORDER = ["linked", "tables", "frame", "wire", "out", "reports", "digests", "registers", "summary"]


def place(name, switches):
    """Returns where a written file stands in the order of docs/FORMATS.md. Names begin with `o.`."""
    name = name.decode().removeprefix("o.")
    if name in MADE:
        return (-1, MADE.index(name), 0)
    kind, *rest = name.split(".")
    where = switches.index(rest[0]) if kind in ("linked", "wire", "out") else 0
    return (ORDER.index(kind), where, int(rest[1]) if kind in ("wire", "out") else 0)
