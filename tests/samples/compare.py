"""Holds the library's paths of a volume to those of fls: compare.py VOLUME MFT LISTED PRINTED

VOLUME is the volume's name in what is printed, MFT its MFT, LISTED what `fls -u -r -p` says of it and PRINTED what the program
paths says. Every entry in use that has a name is compared, but for the root. One that differs is left out where its own name or
that of a folder above it stands in an extension record, which a carver does not join to its entry; any other ends the run with
status 1.
"""

import sys

import mft

SHOWN = 10
ROOT = 5


def listed(text):
    """The paths of fls for each entry, as the library writes them.

    A line begins with the type that the folder's index has and the one that the entry has. Where a name is longer than 255 bytes
    of UTF-8, fls takes the entry for one that the index lacks and lists it once more, with no type of the index and the name cut
    there, and so all that is below it; these lines are left out.
    """
    paths, folders = {}, {b""}
    for line in text.split(b"\n")[:-1]:
        head, path = line.split(b"\t", 1)
        kind, inode = head.split()
        folder, slash, name = path.rpartition(b"/")
        if kind.startswith(b"-") or folder not in folders:
            continue
        if kind.startswith(b"d"):
            folders.add(path)
        # A file's stream is listed as its name, a colon and the stream's name.
        path = folder + slash + name.split(b":")[0]
        paths.setdefault(int(inode.split(b"-")[0].rstrip(b":")), set()).add(b".\\" + path.replace(b"/", b"\\"))
    return paths


def printed(text):
    """The library's path for each key."""
    paths = {}
    for line in text.split(b"\n")[1:-1]:
        numbers, _, path = line.split(b"\t")
        _, entry, sequence, *_ = map(int, numbers.split())
        paths[entry, sequence] = path
    return paths


class Volume:
    """The entries of a volume with their names: those in the entry's own record, or where it has none those in its extension
    records."""

    def __init__(self, entries):
        self.entries = entries
        self.names = {number: entry.names for number, entry in entries.items() if entry.base is None}
        self.extended = set()
        for entry in entries.values():
            if entry.in_use and entry.base in self.names and entry.names and not entries[entry.base].names:
                self.names[entry.base] = self.names[entry.base] + entry.names
                self.extended.add(entry.base)

    def in_use(self):
        """The entries in use that have a name, in order, but for the root, whose path is the same on every volume."""
        return [n for n, names in self.names.items() if self.entries[n].in_use and names and n != ROOT]

    def above(self, number):
        """The entry and all folders above it but the root, which has no name in a path."""
        seen, left = {ROOT}, [number]
        while left:
            entry = left.pop()
            if entry not in seen:
                seen.add(entry)
                left.extend(name.parent for name in self.names.get(entry, []))
        return seen - {ROOT}

    def has_extension(self, number):
        """Whether its own name or that of a folder above it stands in an extension record."""
        return any(entry in self.extended for entry in self.above(number))

    def is_across(self, number):
        """Whether its own name or that of a folder above it lies across a sector's end."""
        return any(name.across for entry in self.above(number) for name in self.names.get(entry, []))


def main():
    name, *files = sys.argv[1:]
    entries, fls, ours = [open(file, "rb").read() for file in files]
    volume = Volume(mft.read(entries))
    fls, ours = listed(fls), printed(ours)
    compared = volume.in_use()
    path = {number: ours.get((number, volume.entries[number].sequence), b"none") for number in compared}
    unlike = [number for number in compared if path[number] not in fls.get(number, set())]
    different = [number for number in unlike if not volume.has_extension(number)]
    for number in different[:SHOWN]:
        print(f"{name}: entry {number} is {path[number].decode()}")
        for line in sorted(fls.get(number, {b"none"})):
            print(f"    fls has {line.decode()}")
    across = sum(map(volume.is_across, compared))
    print(
        f"{name}: entries in use compared {len(compared)}, equal {len(compared) - len(unlike)}, "
        f"left out for extension records {len(unlike) - len(different)}, different {len(different)}; "
        f"paths with a name across a sector's end {across}"
    )
    sys.exit(1 if different else 0)


main()
