"""The memory of a task by a cgroup of its own, where there is one that may be written to."""
import os
import sys
import uuid
from pathlib import Path

MOUNTED = Path("/sys/fs/cgroup")
# The files of a group, of both versions: its limits, its processes, and where its kills are counted.
VERSIONS = {
    "2": {"limits": [("memory.max", "{}"), ("memory.swap.max", "0")], "kills": "memory.events"},
    "1": {"limits": [("memory.limit_in_bytes", "{}"), ("memory.memsw.limit_in_bytes", "{}")], "kills": "memory.oom_control"},
}
# Puts itself into a group, and becomes the program.
JOIN = 'echo $$ > "$0" && exec "$@"'


def own_group():
    """The folder of the memory cgroup of this process, or nothing."""
    try:
        lines = Path("/proc/self/cgroup").read_text().splitlines()
    except OSError:
        return None
    for _, names, path in (line.split(":", 2) for line in lines):
        if "memory" in names.split(","):
            return MOUNTED / "memory" / path.lstrip("/")
    path = next((line.split(":", 2)[2] for line in lines if line.startswith("0::")), None)
    return MOUNTED / path.lstrip("/") if path is not None else None


class Nothing:
    """No group: the memory is looked at."""

    def words(self, words):
        return words

    def kills(self):
        return 0


class Group:
    """A cgroup for the process of a task and all below it."""

    known = {}

    def __init__(self, parent, limit):
        self.folder = Path(parent) / f"fast-check-{os.getpid()}-{uuid.uuid4().hex[:8]}"
        self.folder.mkdir()
        try:
            self.version = "2" if (self.folder / "memory.max").exists() else "1"
            first, *others = VERSIONS[self.version]["limits"]
            self.write(first, limit)
            # Where swap is not counted, that file is not there.
            for each in others:
                if (self.folder / each[0]).exists():
                    self.write(each, limit)
            self.kills()
        except (OSError, ValueError):
            self.folder.rmdir()
            raise

    def write(self, named, limit):
        name, text = named
        with open(self.folder / name, "r+") as file:
            file.write(text.format(limit))

    def words(self, words):
        """The words that run a program in the group."""
        return ["sh", "-c", JOIN, str(self.folder / "cgroup.procs"), *words]

    def kills(self):
        """How many processes of the group were killed since it had no memory left."""
        for line in (self.folder / VERSIONS[self.version]["kills"]).read_text().splitlines():
            name, value = line.split()
            if name == "oom_kill":
                return int(value)
        raise ValueError("kills are not counted")

    @classmethod
    def of(cls, limits):
        """The group of this worker for a limit, made where it may be; else nothing."""
        asked, limit = limits.get("cgroup", "none"), limits["memory"]
        key = (os.getpid(), asked, limit)
        if key not in cls.known:
            cls.known[key] = cls.made(asked, limit)
        return cls.known[key]

    @classmethod
    def made(cls, asked, limit):
        parent = None if asked == "none" else asked or own_group()
        try:
            group = cls(parent, limit) if parent else None
        except (OSError, ValueError) as error:
            if asked:
                print(f"registry: no cgroup in {asked}: {error}", file=sys.stderr)
            return Nothing()
        if not group:
            return Nothing()
        atexit_remove(group.folder)
        return group


def atexit_remove(folder):
    """Removes a group at the end of the worker, once its processes are gone."""
    import atexit

    def remove():
        try:
            folder.rmdir()
        except OSError:
            pass

    atexit.register(remove)
