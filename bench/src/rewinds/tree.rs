//! The folders and files of a volume while they come and go. A folder stays as deep as it was made, so that none comes into itself.

use crate::random::Random;

/// The volume's root, by its entry, its sequence and its node.
const ROOT_ENTRY: u64 = 5;
const ROOT_SEQUENCE: u16 = 5;
const ROOT: usize = 0;

/// The entries up to this one are the volume's own.
const OWN_ENTRIES: u64 = 63;

/// How deep the folder of a file or folder lies, each number as frequent as it stands here: most files are 3 to 8 names deep.
const DEPTHS: [usize; 20] = [0, 1, 2, 2, 2, 3, 3, 3, 3, 4, 4, 4, 4, 5, 5, 5, 6, 6, 7, 8];

/// One in so many that are made is a folder, and of those that are renamed or deleted.
const FOLDER: usize = 8;

/// An MFT entry's file or folder.
#[derive(Debug, Clone, Copy)]
pub struct Node {
    /// Its MFT entry.
    pub entry: u64,
    pub sequence: u16,
    /// The node of its folder.
    pub parent: usize,
    /// What its name is made from.
    pub name: u64,
    /// How deep a folder lies; none where it is a file.
    pub folder: Option<usize>,
    pub in_use: bool,
    /// How many are in a folder.
    held: usize,
}

impl Node {
    /// Its file reference.
    pub fn reference(&self) -> u64 {
        self.entry | u64::from(self.sequence) << 48
    }
}

pub struct Tree {
    pub nodes: Vec<Node>,
    /// The folders by their depth.
    folders: Vec<Vec<usize>>,
    files: Vec<usize>,
    /// The nodes that are not in use.
    free: Vec<usize>,
}

impl Tree {
    /// A tree of the root and so many files and folders.
    pub fn new(random: &mut Random, nodes: usize) -> Self {
        let root = Node {
            entry: ROOT_ENTRY,
            sequence: ROOT_SEQUENCE,
            parent: ROOT,
            name: 0,
            folder: Some(0),
            in_use: true,
            held: 0,
        };
        let mut tree = Self {
            nodes: vec![root],
            folders: vec![vec![ROOT]],
            files: Vec::new(),
            free: Vec::new(),
        };
        while tree.nodes.len() <= nodes {
            tree.create(random);
        }
        tree
    }

    /// Makes a file or folder, half of the time of an entry that is not in use, with the next sequence. Gives its node.
    pub fn create(&mut self, random: &mut Random) -> Node {
        let parent = self.folder(random);
        let depth = self.nodes[parent].folder.expect("a parent is a folder") + 1;
        let reused = if random.one_in(2) { self.free.pop() } else { None };
        let at = reused.unwrap_or(self.nodes.len());
        let node = Node {
            entry: OWN_ENTRIES + at as u64,
            sequence: reused.map_or(1, |at| self.nodes[at].sequence % u16::MAX + 1),
            parent,
            name: random.number(),
            folder: random.one_in(FOLDER).then_some(depth),
            in_use: true,
            held: 0,
        };
        match reused {
            Some(at) => self.nodes[at] = node,
            None => self.nodes.push(node),
        }
        self.nodes[parent].held += 1;
        match node.folder {
            Some(_) if depth == self.folders.len() => self.folders.push(vec![at]),
            Some(_) => self.folders[depth].push(at),
            None => self.files.push(at),
        }
        node
    }

    /// Deletes a file or an empty folder. Gives its node; nothing where there is none.
    pub fn delete(&mut self, random: &mut Random) -> Option<Node> {
        let at = self.remove_folder(random).or_else(|| self.remove_file(random))?;
        let node = &mut self.nodes[at];
        node.in_use = false;
        let node = *node;
        self.nodes[node.parent].held -= 1;
        self.free.push(at);
        Some(node)
    }

    /// Gives a file or folder another name, moves it, or does both. Gives its node before and after; nothing where there is none.
    pub fn rename(&mut self, random: &mut Random) -> Option<[Node; 2]> {
        let folder = if random.one_in(FOLDER) {
            self.any_folder(random)
        } else {
            None
        };
        let at = folder.or_else(|| self.file(random))?;
        let old = self.nodes[at];
        let mut new = old;
        let kind = random.below(4);
        if kind != 0 {
            new.name = random.number();
        }
        if kind < 2 {
            new.parent = match old.folder {
                Some(depth) => random.pick(&self.folders[depth - 1]),
                None => self.folder(random),
            };
            self.nodes[old.parent].held -= 1;
            self.nodes[new.parent].held += 1;
            new.held = self.nodes[at].held;
        }
        self.nodes[at] = new;
        Some([old, new])
    }

    /// A file that is written to; nothing where there is none.
    pub fn written(&self, random: &mut Random) -> Option<Node> {
        self.file(random).map(|at| self.nodes[at])
    }

    fn file(&self, random: &mut Random) -> Option<usize> {
        (!self.files.is_empty()).then(|| random.pick(&self.files))
    }

    /// A folder of any depth; nothing where that is the root's, or has none.
    fn any_folder(&self, random: &mut Random) -> Option<usize> {
        let depth = random.below(self.folders.len());
        let folders = &self.folders[depth];
        (depth > 0 && !folders.is_empty()).then(|| random.pick(folders))
    }

    /// A folder to put something into.
    fn folder(&self, random: &mut Random) -> usize {
        let deepest = random.pick(&DEPTHS).min(self.folders.len() - 1);
        let folders = self.folders[..=deepest]
            .iter()
            .rev()
            .find(|folders| !folders.is_empty());
        random.pick(folders.expect("the root is a folder"))
    }

    /// Takes a file from the list of files.
    fn remove_file(&mut self, random: &mut Random) -> Option<usize> {
        (!self.files.is_empty()).then(|| self.files.swap_remove(random.below(self.files.len())))
    }

    /// Now and then takes a folder that is empty from the list of folders.
    fn remove_folder(&mut self, random: &mut Random) -> Option<usize> {
        if !random.one_in(FOLDER) {
            return None;
        }
        let depth = random.pick(&DEPTHS).min(self.folders.len() - 1);
        let folders = &mut self.folders[depth];
        let at = random.below(folders.len().max(1));
        let node = *folders
            .get(at)
            .filter(|&&node| node != ROOT && self.nodes[node].held == 0)?;
        folders.swap_remove(at);
        Some(node)
    }
}
