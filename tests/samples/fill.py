"""Fills a volume with folders and files whose names are of many scripts and of all lengths.

    fill.py mounted FOLDER SEED FILES [BALLAST]   in a folder where the volume is mounted
    fill.py copied NTFSCP IMAGE SEED FILES        by ntfscp, which makes no folder, no rename and no deletion
    fill.py chain FOLDER                          the folders and files of which sector-ends.bin is cut

The same seed makes the same calls.
"""

import os
import random
import subprocess
import sys

SCRIPTS = [
    "abcdefghijklmnopqrstuvwxyz ABCDEFGHIJKLMNOPQRSTUVWXYZ 0123456789",
    "äöüßéèñçåøæœłźžćőűğışâêîôû",
    "αβγδεζηθικλμνξοπρστυφχψω",
    "абвгдежзийклмнопрстуфхцчшщъыьэюя",
    "אבגדהוזחטיכלמנסעפצקרשת",
    "ابتثجحخدذرزسشصضطظعغفقكلمنهوي",
    "अआइईउऊएऐओऔकखगघचछजझटठडढणतथदधन",
    "กขคงจฉชซฌญฎฏฐฑฒณดตถทธนบปผฝพฟภมยรลวศษสหฬอฮ",
    "あいうえおかきくけこさしすせそたちつてとなにぬねの",
    "名字文件目録資料報告会議年度予算契約書類写真",
    "가나다라마바사아자차카타파하거너더러머버서어저처커터퍼허",
    "😀😁😂🤣😃📄📁📂🎉🚀🌍🐘",
    "𝒜𝒞𝒟𝒢𝒥𝒦𝒩𝒪𝒫𝒬𝒮𝒯𝒰𝒱𝒲𝒳𝒴𝒵",
    "𠮷𡈽𡌛𡑮𡢽𠮟𡚴𡸴𣇄𣗄𣜿𣝣𣳾",
]

# A name has at most 255 units. The driver moves the name of a folder into an extension record where it finds no room beside the
# folder's index, so that most folders have shorter ones. Paths stay below what fls follows: 4096 bytes, and 128 folders in each
# other.
LONGEST_NAME = 255
LONGEST_FOLDER = 170
LONGEST_PATH = 3800
DEEPEST = 100


def units(text):
    """How many UTF-16 units a text has."""
    return len(text.encode("utf-16-le")) // 2


class Names:
    """Names, no two of them equal."""

    def __init__(self, seed):
        self.random = random.Random(seed)
        self.made = 0

    def text(self, letters, length, tail):
        """So many units of these letters, with the tail at the end; fewer where the last would be half a letter or a space."""
        text = ""
        while True:
            letter = self.random.choice(letters)
            if units(text + letter + tail) > length:
                return text.strip() + tail
            text += letter

    def next(self, longest=LONGEST_NAME):
        """Another name: short, middling, or so long that it lies across the first sector's end of its entry."""
        self.made += 1
        low, high = self.random.choice([(8, 20), (8, 60), (60, 140), (130, 160), (140, LONGEST_NAME)])
        length = self.random.randint(low, min(high, longest))
        return self.text(self.random.choice(SCRIPTS), length, f"-{self.made}")


class Tree:
    """The folders and files of a mounted volume."""

    def __init__(self, folder, seed):
        self.names = Names(seed)
        self.random = self.names.random
        self.top = folder
        self.folders = [folder]
        self.files = []

    def place(self, longest=LONGEST_NAME):
        """A path for something new, in any folder that is not too deep for it."""
        while True:
            path = os.path.join(self.random.choice(self.folders), self.names.next(longest))
            inner = os.path.relpath(path, self.top)
            if len(inner.encode()) <= LONGEST_PATH and inner.count("/") < DEEPEST:
                return path

    def add_folders(self, count):
        for _ in range(count):
            path = self.place(LONGEST_FOLDER)
            os.mkdir(path)
            self.folders.append(path)

    def add_ladder(self, depth):
        """Folders in each other, with short names."""
        path = self.top
        for level in range(depth):
            path = os.path.join(path, f"{level} {self.random.choice(SCRIPTS[3])}")
            os.mkdir(path)
            self.folders.append(path)

    def add_files(self, count):
        """Files of 0 to 3000 bytes, most of them so small that their contents lie in the entry."""
        for _ in range(count):
            path = self.place()
            with open(path, "wb") as file:
                file.write(b"x" * self.random.choice([0, 10, 100, 100, 100, 3000]))
            self.files.append(path)

    def rename(self, count):
        """Other names for some files, in the same folder or in another."""
        for at in self.random.sample(range(len(self.files)), count):
            path = self.place()
            os.rename(self.files[at], path)
            self.files[at] = path

    def rename_folders(self, count):
        """Other names for some folders that have no folder in them, and with them other paths for their files."""
        parents = {os.path.dirname(folder) for folder in self.folders}
        leaves = [at for at, folder in enumerate(self.folders) if folder not in parents and folder != self.top]
        for at in self.random.sample(leaves, count):
            old = self.folders[at]
            new = os.path.join(os.path.dirname(old), self.names.next(LONGEST_FOLDER))
            longest = max((len(file.encode()) for file in self.files if file.startswith(old + "/")), default=0)
            if longest + LONGEST_NAME * 3 <= LONGEST_PATH:
                os.rename(old, new)
                self.folders[at] = new
                self.files = [new + file[len(old) :] if file.startswith(old + "/") else file for file in self.files]

    def delete(self, count):
        """Fewer files. What is made next takes their entries, with the next sequence number."""
        self.random.shuffle(self.files)
        for path in self.files[-count:]:
            os.remove(path)
        del self.files[-count:]

    def link(self, count, names):
        """So many further names for some files. Many long ones do not find room in one record."""
        for file in self.random.sample(self.files, count):
            for _ in range(names):
                os.link(file, self.place())


def mounted(folder, seed, files, ballast=0):
    """A tree with a history. The ballast are files of 4096 bytes, of which every other one is deleted, so that the MFT grows into
    holes."""
    tree = Tree(folder, int(seed))
    files = int(files)
    for at in range(int(ballast)):
        with open(os.path.join(folder, f"ballast {at}"), "wb") as file:
            file.write(b"y" * 4096)
    for at in range(0, int(ballast), 2):
        os.remove(os.path.join(folder, f"ballast {at}"))
    tree.add_folders(files // 20)
    tree.add_ladder(80)
    tree.add_files(files // 2)
    tree.rename(files // 8)
    tree.delete(files // 8)
    tree.add_folders(files // 20)
    tree.add_files(files * 5 // 8)
    tree.rename(files // 8)
    tree.rename_folders(files // 100)
    tree.delete(files // 16)
    tree.link(files // 100, 1)
    tree.link(5, 12)


def copied(ntfscp, image, seed, files):
    """Files in the root folder."""
    names = Names(int(seed))
    for _ in range(int(files)):
        subprocess.run([ntfscp, "--force", "--quiet", image, os.devnull, "/" + names.next()], check=True)


def chain(folder):
    """Folders in each other, and files in the last of them, most with a name across the first sector's end, which is unit 146 of a
    file's name. Of the last names some end there or next to it, and some have the first or the second half of a letter of two units
    there. One file is renamed, and one is deleted."""
    names = Names(5)
    for script, length in ((9, 170), (3, 160), (11, 150), (6, 165)):
        folder = os.path.join(folder, names.text(SCRIPTS[script], length, ""))
        os.mkdir(folder)
    made = [names.text(SCRIPTS[script], 255 - 10 * script, "") for script in (0, 1, 2, 3, 4, 5, 6, 7, 8, 10)]
    made += [names.text(SCRIPTS[0], length, "") for length in (146, 147, 148)]
    made += [names.text(SCRIPTS[11], 148, ""), "a" + names.text(SCRIPTS[12], 146, ""), "short"]
    for name in made:
        open(os.path.join(folder, name), "wb").close()
    os.rename(os.path.join(folder, made[-1]), os.path.join(folder, names.text(SCRIPTS[9], 180, "")))
    os.remove(os.path.join(folder, made[12]))


{"mounted": mounted, "copied": copied, "chain": chain}[sys.argv[1]](*sys.argv[2:])
