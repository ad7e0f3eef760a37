#!/usr/bin/python3
"""Runs fast check on many packages, on one machine or many, over Dask (Debian: python3-distributed, python3-dask).

A package is a folder of TypeScript, which is checked as `fast-check-ts check` does, in a process of the worker that goes on from folder to folder, or a file with
the input of `fast-check build`. A task is one package, or up to 32 where there are many. The results are lines of JSON, each written as its task ends:

    {"package": "hello", "status": 0, "messages": [], "seconds": 0.02}
    {"package": "canvas", "status": 1, "messages": [{"code": "missing-explicit-type", ..}], "seconds": 0.03}
    {"package": "nowhere", "status": 2, "messages": [{"code": "no-package", ..}], "seconds": 0}
    {"package": "broken", "error": "killed by SIGKILL, tried 3 times"}

`status` is that of the command (0 nothing to tell but warnings, 1 messages, 2 refused or not there, above 2 failed: 5 no program, 70 a fault of the tool). A package
whose process is killed or takes more memory than it may is tried again, as is one whose worker is lost; one that does not end in time is not. In the end it
is reported by its name, in the results and on standard error.

Usage: tools/registry/registry.py [OPTION ..] PACKAGE ..
       tools/registry/registry.py [OPTION ..] --list FILE        (a package a line)
"""
import argparse
import contextlib
import json
import os
import signal
import subprocess
import sys
import tempfile
import threading
import time
from pathlib import Path

try:
    import dask
    import psutil
    from distributed import Client, LocalCluster, as_completed
    from distributed.scheduler import KilledWorker
except ImportError as lacking:
    sys.exit(f"registry: {lacking.name} is not there for {sys.executable}: apt-get install -y python3-distributed python3-dask")

import cgroups

TOP = Path(__file__).resolve().parent.parent.parent
# How often a task's memory is looked at, in seconds.
LOOK = 0.05
# Of how many packages a task is at most, and how many tasks there are at least for each worker.
MOST, SHARE = 32, 16
# How many bytes a pipe takes that nobody reads.
PIPE = 32768


class Lost(Exception):
    """A package that was not done: its process was killed, or took too much memory or time. `is_final` says that another try takes as long."""

    def __init__(self, why, is_final=False):
        super().__init__(why, is_final)
        self.why, self.is_final = why, is_final


# ---- one package, on a worker


def messages_of(out):
    """The messages in an answer of `build`, each once: the list of a package stands at each of its entry points."""
    told = {}
    for _, answer in json.loads(out or "[]"):
        for each in answer.get("Err", []):
            told[json.dumps(each)] = each
    return list(told.values())


def memory_of(process):
    """The memory of a process and of all below it, in bytes."""
    total = 0
    for each in [process, *process.children(recursive=True)]:
        try:
            total += each.memory_info().rss
        except psutil.Error:
            pass
    return total


def end(process):
    """Kills a process and all below it."""
    for each in [*process.children(recursive=True), process]:
        try:
            each.kill()
        except psutil.Error:
            pass


def watch(child, limits, why, done):
    """Kills a process that takes more memory or time than it may before `done`, and says so in `why`."""
    begun = time.monotonic()
    try:
        process = psutil.Process(child.pid)
        while not done.wait(LOOK) and child.poll() is None:
            if memory_of(process) > limits["memory"]:
                why.append("out of memory")
            elif time.monotonic() - begun > limits["seconds"]:
                why.append("out of time")
            if why:
                end(process)
                return
    except psutil.Error:
        pass


@contextlib.contextmanager
def within(child, limits, group):
    """Watches a process as long as something is done with it. Where that was too much, it is an exception."""
    why, done, before = [], threading.Event(), group.kills()
    watcher = threading.Thread(target=watch, args=(child, limits, why, done), daemon=True)
    watcher.start()
    try:
        yield
    finally:
        done.set()
        watcher.join()
        if group.kills() > before:
            why.insert(0, "out of memory")
        if why:
            raise Lost(why[0], is_final=why[0] == "out of time")


def signal_of(status):
    """The name of the signal that ended a process, or nothing."""
    number = -status if status < 0 else status - 128
    return signal.Signals(number).name if number in iter(signal.Signals) else None


def run_build(package, program, limits):
    """What `fast-check build` answers to a file."""
    words = [*([program["path"]] if program["path"] else [f"{program['top']}/fast-check"]), "build", package]
    group = cgroups.Group.of(limits)
    with tempfile.TemporaryFile() as out, tempfile.TemporaryFile() as err:
        child = subprocess.Popen(group.words(words), stdin=subprocess.DEVNULL, stdout=out, stderr=err)
        with within(child, limits, group):
            status = child.wait()
        out.seek(0), err.seek(0)
        text, said = out.read().decode(), err.read().decode(errors="replace").strip()
    if signal_of(status):
        raise Lost(f"killed by {signal_of(status)}")
    return {"status": status, "messages": messages_of(text) if status in (0, 1) else [], "said": said}


class Server:
    """The process of a worker that checks folders, one after another, and keeps the compiler meanwhile."""

    one = None

    def __init__(self, program, limits):
        self.key, self.group = (program["top"], program["path"]), cgroups.Group.of(limits)
        environment = {**os.environ, **({"FAST_CHECK": program["path"]} if program["path"] else {})}
        words = self.group.words(["node", f"{program['top']}/tools/typescript/bin/fast-check-ts.js", "serve"])
        self.child = subprocess.Popen(words, stdin=subprocess.PIPE, stdout=subprocess.PIPE, stderr=subprocess.DEVNULL, text=True, env=environment)

    @classmethod
    def of(cls, program, limits):
        """The one of this worker: another one where the last has ended, or holds much."""
        if cls.one and (cls.one.key != (program["top"], program["path"]) or cls.one.is_used_up(limits)):
            cls.one.close()
        if not cls.one:
            cls.one = cls(program, limits)
        return cls.one

    def is_used_up(self, limits):
        return self.child.poll() is not None or psutil.Process(self.child.pid).memory_info().rss > limits["memory"] / 2

    def close(self):
        self.child.kill()
        self.child.wait()
        Server.one = None

    def ask(self, lines):
        """Asks for folders by their lines."""
        with contextlib.suppress(BrokenPipeError):
            self.child.stdin.write(lines)
            self.child.stdin.flush()

    def answer(self, limits):
        """What is said of the next folder that was asked for, with its skeletons or declaration files where these are wanted."""
        try:
            with within(self.child, limits, self.group):
                line = self.child.stdout.readline()
        except Lost:
            self.close()
            raise
        if line.endswith("\n"):
            answer = json.loads(line)
            if answer["status"] == 3:
                raise Lost("out of memory")
            return answer
        status = self.child.wait()
        self.close()
        raise Lost(f"killed by {signal_of(status)}" if signal_of(status) else f"its process ended with status {status}")


NOT_THERE = {"level": "error", "code": "no-package", "message": "there is no folder and no file of this name", "file": None}


def asked_for(package, want):
    """The line that asks for a folder."""
    return json.dumps({"dir": package, **({"want": want} if want else {})}) + "\n"


def timed(answer, begun):
    """An answer as the result of a package."""
    said = answer.pop("said")
    made = {**answer, "seconds": round(time.monotonic() - begun, 3)}
    return {**made, "said": said.splitlines()[-1]} if said and made["status"] > 1 else made


def run_package(package, program, limits, want=None):
    """What one package is answered."""
    begun = time.monotonic()
    if not os.path.exists(package):
        return {"status": 2, "messages": [{**NOT_THERE, "file": package}], "seconds": 0}
    if os.path.isdir(package):
        server = Server.of(program, limits)
        server.ask(asked_for(package, want))
        return timed(server.answer(limits), begun)
    answer = run_build(package, program, limits)
    if answer["status"] == 3:
        raise Lost("out of memory")
    return timed(answer, begun)


def run_folders(folders, program, limits, want=None):
    """What folders are answered that are asked for together. Where one is lost, the answers before it: which one it is the others by themselves will say."""
    made, lines = [], "".join(asked_for(it, want) for it in folders)
    if len(folders) < 2 or len(lines) > PIPE or not all(map(os.path.isdir, folders)):
        return made
    with contextlib.suppress(Lost):
        server = Server.of(program, limits)
        server.ask(lines)
        for _ in folders:
            begun = time.monotonic()
            made.append(timed(server.answer(limits), begun))
    if len(made) < len(folders) and Server.one:
        Server.one.close()
    return made


def run_packages(packages, program, limits, want=None):
    """What packages are answered one after another, each an answer or why it is lost."""
    made = run_folders(packages, program, limits, want)
    for package in packages[len(made):]:
        try:
            made.append(run_package(package, program, limits, want))
        except Lost as lost:
            made.append(lost)
    return made


# ---- all packages


class Bar:
    """How far the work is, on standard error where that is a terminal."""

    def __init__(self, total):
        self.total, self.begun, self.shown = total, time.monotonic(), 0.0
        self.is_on = sys.stderr.isatty()

    def show(self, done, lost, last=False):
        now = time.monotonic()
        if not self.is_on or (now - self.shown < 0.1 and not last):
            return
        self.shown, spent = now, max(now - self.begun, 0.001)
        filled = 30 * done // max(self.total, 1)
        print(f"\r[{'#' * filled}{'.' * (30 - filled)}] {done}/{self.total}, {lost} lost, {done / spent:.0f} a second", end="\n" if last else "", file=sys.stderr, flush=True)


KINDS = ["clean", "with messages", "refused", "failed", "lost"]


def kind_of(result):
    """What a result counts as."""
    return KINDS[min(result["status"], 3)] if "status" in result else "lost"


class Texts:
    """Where skeletons (`skeletons`) or declaration files (`declarations`) of the packages go: below a folder, each package by its own path."""

    def __init__(self, want, folder):
        self.want, self.folder = want, Path(folder)

    def write(self, package, modules):
        """Writes what a package was answered, but for previews, which are none of its skeletons. A name that leads out of the folder of the package is passed over."""
        below = (self.folder / os.path.relpath(os.path.normpath("/" + package), "/")).resolve()
        for module in modules:
            file = (below / module["path"]).resolve()
            if module["isPreview"] or below not in file.parents:
                continue
            file.parent.mkdir(parents=True, exist_ok=True)
            file.write_text(module["text"])


class Registry:
    """Packages and the tasks for them on a cluster."""

    def __init__(self, client, packages, program, limits, tries, texts=None):
        self.client, self.packages, self.program, self.limits, self.tries, self.texts = client, packages, program, limits, tries, texts
        self.left = [tries - 1] * len(packages)

    def submit(self, places):
        """A task, under a key of its own: a package that stands twice is asked for twice."""
        key = f"packages-{places[0]}-{self.left[places[0]]}-{os.getpid()}-{id(self)}"
        want = self.texts.want if self.texts else None
        return self.client.submit(run_packages, [self.packages[it] for it in places], self.program, self.limits, want, key=key, pure=False)

    def run(self, out, on_done=lambda done: None):
        """Writes each result as its task ends, and answers how many there are of each kind, and what was lost."""
        counts, lost, bar, done = dict.fromkeys(KINDS, 0), [], Bar(len(self.packages)), 0
        workers = max(len(self.client.scheduler_info()["workers"]), 1)
        size = min(max(len(self.packages) // (workers * SHARE), 1), MOST)
        tasks = [range(len(self.packages))[start:start + size] for start in range(0, len(self.packages), size)]
        at = {self.submit(places): places for places in tasks}
        waiting = as_completed(list(at))
        for future in waiting:
            places = at.pop(future)
            for place, answer in zip(places, self.answers(future, places)):
                result = self.result(answer, place)
                if result is None:
                    self.left[place] -= 1
                    again = self.submit([place])
                    at[again] = [place]
                    waiting.add(again)
                    continue
                done += 1
                modules = result.pop("modules", [])
                if self.texts:
                    self.texts.write(self.packages[place], modules)
                counts[kind_of(result)] += 1
                if "error" in result:
                    lost.append((self.packages[place], result["error"]))
                out.write(json.dumps({"package": self.packages[place], **result}) + "\n")
                on_done(done)
            out.flush()
            bar.show(done, len(lost))
        bar.show(done, len(lost), last=True)
        return counts, lost

    def answers(self, future, places):
        """What a task answers of each of its packages: where it was lost itself, why."""
        if future.status == "finished":
            return future.result()
        error = future.exception() if future.status == "error" else None
        return [error] * len(places)

    def result(self, answer, place):
        """The result of a package; none where it is to be tried again."""
        if isinstance(answer, dict):
            return answer
        is_final = isinstance(answer, Lost) and answer.is_final
        if self.left[place] > 0 and not is_final:
            return None
        why = "its worker was lost" if isinstance(answer, KilledWorker) else answer.why if isinstance(answer, Lost) else repr(answer)
        tried = self.tries - self.left[place]
        return {"error": f"{why}, tried {tried} time{'s' if tried != 1 else ''}"}


def resumed(name, packages):
    """The packages that a file has no result of, and how many of the others are of each kind. A line that was not written whole is taken away."""
    kinds, whole = {}, 0
    with open(name, "rb+") as file:
        for line in file:
            if not line.endswith(b"\n"):
                break
            whole += len(line)
            result = json.loads(line)
            kinds.setdefault(result["package"], []).append(kind_of(result))
        file.truncate(whole)
    counts, left = dict.fromkeys(KINDS, 0), []
    for each in packages:
        if kinds.get(each):
            counts[kinds[each].pop(0)] += 1
        else:
            left.append(each)
    return left, counts


# ---- the command


def size(text):
    """Bytes of a text as 512M or 2G."""
    units = {"K": 2**10, "M": 2**20, "G": 2**30}
    unit = text[-1:].upper()
    return int(float(text[:-1]) * units[unit]) if unit in units else int(text)


def words():
    made = argparse.ArgumentParser(description="Runs fast check on many packages over Dask.", epilog="Results are lines of JSON, each written as its task ends.")
    made.add_argument("packages", nargs="*", metavar="PACKAGE", help="a folder of TypeScript, or a file with the input of `fast-check build`")
    made.add_argument("--list", metavar="FILE", help="a file that names a package a line")
    made.add_argument("--scheduler", metavar="ADDRESS", help="a Dask cluster that is there, as tcp://host:8786; its workers need this folder and the packages under the same paths")
    made.add_argument("--workers", type=int, default=os.cpu_count(), metavar="N", help="how many workers a local cluster has (as many as processors)")
    made.add_argument("--memory", type=size, default=size("2G"), metavar="SIZE", help="the most memory of a task (2G)")
    made.add_argument("--cgroup", metavar="FOLDER", help="the memory cgroup below which tasks have their own (that of the worker, where it may be written to; `none` for none)")
    made.add_argument("--seconds", type=float, default=600, metavar="N", help="the most time of a task (600)")
    made.add_argument("--tries", type=int, default=3, metavar="N", help="how often a task that is lost is tried (3)")
    made.add_argument("--out", metavar="FILE", help="where the results go (standard output)")
    texts = made.add_mutually_exclusive_group()
    texts.add_argument("--skeletons", metavar="FOLDER", help="also write the skeletons of packages that are folders, each package below its own path in FOLDER")
    texts.add_argument("--dts", metavar="FOLDER", help="also write their declaration files")
    made.add_argument("--resume", action="store_true", help="go on with the results in FILE: packages that it has are passed over")
    return made


def local(workers):
    """A cluster on this machine: one process a worker, one task at a time in each."""
    os.environ["PYTHONPATH"] = os.pathsep.join([str(TOP / "tools" / "registry"), *filter(None, [os.environ.get("PYTHONPATH")])])
    dask.config.set({"distributed.worker.memory.terminate": False, "distributed.worker.daemon": False, "logging": {"distributed": "error", "distributed.nanny": "error", "distributed.diskutils": "error"}})
    return LocalCluster(n_workers=workers, threads_per_worker=1, processes=True, dashboard_address=None, memory_limit=0, silence_logs=50)


def run(asked, packages, out):
    """Runs the packages on the cluster that is asked for, and answers the counts and what was lost."""
    program = {"top": str(TOP), "path": os.environ.get("FAST_CHECK", "")}
    limits = {"memory": asked.memory, "seconds": asked.seconds, "cgroup": asked.cgroup}
    cluster = None if asked.scheduler else local(max(min(asked.workers, len(packages)), 1))
    with Client(asked.scheduler or cluster) as client:
        # What a worker has to find by its name.
        if asked.scheduler:
            for name in ("cgroups.py", "registry.py"):
                client.upload_file(str(TOP / "tools" / "registry" / name))
        texts = Texts("skeletons", asked.skeletons) if asked.skeletons else Texts("declarations", asked.dts) if asked.dts else None
        counts, lost = Registry(client, packages, program, limits, max(asked.tries, 1), texts).run(out)
    if cluster:
        cluster.close()
    return counts, lost


def main():
    asked = words().parse_args()
    packages = asked.packages + ([line for line in Path(asked.list).read_text().splitlines() if line.strip()] if asked.list else [])
    packages = left = [os.path.abspath(each) for each in packages]
    if asked.resume and not asked.out:
        sys.exit("registry: --resume wants --out, the file with the results")
    before = dict.fromkeys(KINDS, 0)
    if asked.resume and os.path.exists(asked.out):
        left, before = resumed(asked.out, packages)
    begun = time.monotonic()
    with open(asked.out, "a" if asked.resume else "w") if asked.out else contextlib.nullcontext(sys.stdout) as out:
        counts, lost = run(asked, left, out) if left else (dict.fromkeys(KINDS, 0), [])
    for name, why in lost:
        print(f"lost: {name}: {why}", file=sys.stderr)
    sums = {kind: counts[kind] + before[kind] for kind in KINDS}
    print(f"{len(packages)} packages: {', '.join(f'{sums[kind]} {kind}' for kind in KINDS)}, {time.monotonic() - begun:.1f} s", file=sys.stderr)
    return 1 if sums["failed"] or sums["lost"] else 0


if __name__ == "__main__":
    # Workers find what they run by the name of the module.
    import registry

    sys.exit(registry.main())
