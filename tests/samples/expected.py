"""What a carver must give for entries that are cut out of a volume's MFT, from istat and fls alone: expected.py VOLUME ENTRY...

Prints what the program paths prints. An entry without a name, which is an extension record here, must be rejected; no entry may
have two.
"""

import re
import subprocess
import sys

ENTRY = 1024
ROOT = "5"


def said(*command):
    return subprocess.run(command, check=True, capture_output=True).stdout.decode("utf-8", "replace")


def paths(volume):
    """The path of each entry, deleted ones too."""
    lines = said("fls", "-r", "-p", volume).split("\n")[:-1]
    found = {ROOT: "."}
    for line in lines:
        head, path = line.split("\t", 1)
        # A name that is cut has half a letter at its end.
        if "\ufffd" not in path:
            number = re.match(r"\S+ (?:\* )?(\d+)", head)[1]
            found.setdefault(number, ".\\" + path.split(":")[0].replace("/", "\\"))
    return found


def row(volume, number):
    """The words of an entry, but for its offset, and its name; None where it has no name."""
    text = said("istat", volume, number)
    entry, sequence = re.search(r"^Entry: (\d+) +Sequence: (\d+)", text, re.M).groups()
    state = re.search(r"^(Not Allocated|Allocated) (File|Directory)", text, re.M)
    names = re.findall(r"^Name: (.*)\nParent MFT Entry: (\d+) \tSequence: (\d+)", text, re.M)
    if not names:
        return None
    (name,) = names
    directory, in_use = int(state[2] == "Directory"), int(state[1] == "Allocated")
    return f"{entry} {sequence} {name[1]} {name[2]} {directory} {in_use}", name[0]


def main():
    volume, *numbers = sys.argv[1:]
    found = paths(volume)
    rows = [(ENTRY * at, number, row(volume, number)) for at, number in enumerate(numbers)]
    carved = [(offset, number, *carved) for offset, number, carved in rows if carved is not None]
    rejected = len(numbers) - len(carved)
    print(f"entries {len(carved)} candidates {len(numbers)} rejected {rejected} bytes {ENTRY * len(numbers)}")
    for offset, number, words, name in carved:
        # istat and fls read the name from the entry and from the folder's index.
        assert number == ROOT or found[number].endswith("\\" + name), number
        print(f"{offset} {words}\t{name}\t{found[number]}")


main()
