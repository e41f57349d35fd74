"""The objects that the requests of a log make, by name: which index and generation each name leads to.

This follows the rules of docs/DECISIONS.md: an object takes the lowest free index and raises its generation by one, a
call that is refused changes nothing, and an object goes with its last name."""
from .calls import object_of

FILE, DIRECTORY, LINK = "file", "directory", "link"
FILE_LIMIT = 1048576
NAME_SPACE = 512
LAST_GENERATION = 0xFFFFFFFF


class Entry:
    """An entry: its generation, and its kind, bytes, names and count of links where it is an object."""

    def __init__(self):
        self.generation = 0
        self.clear()

    def clear(self):
        """No object, and the generation stays."""
        self.kind, self.size, self.links, self.names = None, 0, 0, {}


class Tree:
    """All entries, after the requests so far."""

    def __init__(self, entries, most):
        self.entries = [Entry() for _ in range(entries)]
        self.most = most
        self.used = 0
        self.known = None
        self.entries[0].generation, self.entries[0].kind = 1, DIRECTORY

    def find(self, handle):
        """The index of the live object of a handle, or None."""
        index, generation = object_of(handle) or (len(self.entries), 0)
        if index >= len(self.entries):
            return None
        entry = self.entries[index]
        return index if entry.kind and entry.generation == generation else None

    def at_path(self, path):
        """The index and generation at a path from the root, or None."""
        index = 0
        for name in path.split(b"/"):
            if name:
                index = self.entries[index].names.get(name)
                if index is None:
                    return None
        return index, self.entries[index].generation

    def paths(self):
        """The first path of each object, by its index."""
        if self.known is None:
            self.known, todo = {0: b"/"}, [(0, b"")]
            for index, path in todo:
                for name, found in sorted(self.entries[index].names.items()):
                    if found not in self.known:
                        self.known[found] = path + b"/" + name
                        todo.append((found, path + b"/" + name))
        return self.known

    def path_of(self, handle):
        """The path of the object of a handle, or None."""
        index = self.find(handle)
        return None if index is None else self.paths().get(index)

    # Small steps.

    def has_room(self, goes, comes):
        """Whether there is space after so many bytes go and so many come."""
        return self.used + comes - goes <= self.most

    def resize(self, entry, size):
        """A file has this size from now on."""
        self.used += size - entry.size
        entry.size = size

    def place(self, handle, name):
        """The directory in which a name may be made or taken out, or None."""
        index = self.find(handle)
        if index is None or self.entries[index].kind != DIRECTORY:
            return None
        bad = name in (b"", b".", b"..") or b"/" in name or b"\0" in name
        return None if bad else self.entries[index]

    def add(self, directory, name, kind, size):
        """A new object with a name, where an index and space are free."""
        free = [i for i, entry in enumerate(self.entries) if not entry.kind and entry.generation < LAST_GENERATION]
        if name in directory.names or not free or not self.has_room(0, NAME_SPACE + size):
            return
        entry = self.entries[free[0]]
        entry.generation += 1
        entry.kind = kind
        self.resize(entry, size)
        self.lead(directory, name, free[0])

    def lead(self, directory, name, index):
        """A name leads to an object."""
        directory.names[name] = index
        self.entries[index].links += 1
        self.used += NAME_SPACE
        self.known = None

    def take(self, directory, name):
        """A name goes, and with its last name the object."""
        entry = self.entries[directory.names.pop(name)]
        entry.links -= 1
        self.used -= NAME_SPACE
        self.known = None
        return entry

    def drop(self, directory, name):
        """A name goes, and the object where it has no other."""
        entry = self.take(directory, name)
        if entry.links == 0:
            self.resize(entry, 0)
            entry.clear()

    # Calls.

    def apply(self, word, values):
        """What a call changes."""
        change = getattr(self, "call_" + word.replace("-", "_"), None)
        if change:
            change(*values)

    def call_setattr(self, handle, attributes):
        """A size cuts or fills a file."""
        index = self.find(handle)
        if index is None or attributes.size is None:
            return
        self.set_size(self.entries[index], attributes.size)

    def set_size(self, entry, size):
        """A file is cut or filled, where that is allowed."""
        if entry.kind == FILE and size <= FILE_LIMIT and self.has_room(entry.size, size):
            self.resize(entry, size)

    def call_write(self, handle, _begin, offset, _total, data):
        """Bytes at an offset may make a file longer."""
        index = self.find(handle)
        if index is not None and data:
            self.set_size(self.entries[index], max(self.entries[index].size, offset + len(data)))

    def call_create(self, handle, name, attributes):
        """A new file, or a new size of the file that is there."""
        directory = self.place(handle, name)
        if directory is None or (attributes.size or 0) > FILE_LIMIT:
            return
        if name not in directory.names:
            self.add(directory, name, FILE, attributes.size or 0)
        elif attributes.size is not None:
            self.set_size(self.entries[directory.names[name]], attributes.size)

    def call_mkdir(self, handle, name, _attributes):
        """A new directory."""
        directory = self.place(handle, name)
        if directory is not None:
            self.add(directory, name, DIRECTORY, 0)

    def call_symlink(self, handle, name, text, _attributes):
        """A new link."""
        directory = self.place(handle, name)
        if directory is not None:
            self.add(directory, name, LINK, len(text))

    def call_link(self, node, handle, name):
        """One name more of a file or a link."""
        index, directory = self.find(node), self.place(handle, name)
        if index is None or directory is None or self.entries[index].kind == DIRECTORY:
            return
        if name not in directory.names and self.has_room(0, NAME_SPACE):
            self.lead(directory, name, index)

    def call_remove(self, handle, name):
        """A name of a file or a link goes."""
        directory = self.place(handle, name)
        if directory is not None and name in directory.names:
            if self.entries[directory.names[name]].kind != DIRECTORY:
                self.drop(directory, name)

    def call_rmdir(self, handle, name):
        """An empty directory goes."""
        directory = self.place(handle, name)
        if directory is not None and name in directory.names:
            entry = self.entries[directory.names[name]]
            if entry.kind == DIRECTORY and not entry.names:
                self.drop(directory, name)

    def call_rename(self, old, name, new, new_name):
        """A name moves, and an object of the new name goes."""
        source, goal = self.place(old, name), self.place(new, new_name)
        if source is None or goal is None or name not in source.names:
            return
        index, other = source.names[name], goal.names.get(new_name)
        if index == other or not self.may_replace(index, other) or self.is_below(self.find(new), index):
            return
        if other is not None:
            self.drop(goal, new_name)
        self.take(source, name)
        self.lead(goal, new_name, index)

    def may_replace(self, index, other):
        """Whether an object may take the name of another: both no directories, or both, and the other one empty."""
        if other is None:
            return True
        moved, replaced = self.entries[index], self.entries[other]
        if moved.kind == DIRECTORY:
            return replaced.kind == DIRECTORY and not replaced.names
        return replaced.kind != DIRECTORY

    def is_below(self, index, top):
        """Whether a directory is another, or lies below it."""
        todo = [top] if self.entries[top].kind == DIRECTORY else []
        for found in todo:
            todo += [child for child in self.entries[found].names.values() if self.entries[child].kind == DIRECTORY]
        return index in todo
