#!/usr/bin/python3
"""Tests of registry.py, with small programs in the place of fast check. Prints a line for each test, and `N passed, M failed` at the end."""
import io
import json
import os
import signal
import subprocess
import sys
import tempfile
import time
from pathlib import Path

HERE = Path(__file__).resolve().parent
sys.dont_write_bytecode = True
sys.path.insert(0, str(HERE))
# So that the workers find the module too.
os.environ["PYTHONPATH"] = str(HERE)
os.environ["PYTHONDONTWRITEBYTECODE"] = "1"
# The program of these tests stands in the place of both.
os.environ.pop("FAST_CHECK_SOURCE", None)

import cgroups
import registry
from distributed import Client

# What stands in the place of fast check: it does what the file that it is given says.
PROGRAM = """#!/bin/sh
[ "$1" = build ] || exit 2
read -r word more < "$2"
echo "$2" >> "$0.runs"
case $word in
  plain) echo '[]' ;;
  faults) echo '[["a",{"Err":[{"code":"x"}]}],["b",{"Err":[{"code":"x"}]}]]'; exit 1 ;;
  refused) echo 'error: input refused: bad-form' >&2; exit 2 ;;
  slow) sleep "$more"; echo '[]' ;;
  killed) kill -9 $$ ;;
  once) [ -e "$2.seen" ] || { : > "$2.seen"; kill -9 $$; }; echo '[]' ;;
  wants) exec python3 -c 'x = bytearray(400_000_000); x[::4096] = b"1" * len(x[::4096]); import time; time.sleep(30)' ;;
  endless) sleep 60 ;;
  '{'*) case $(cat "$2") in *wants*) exec "$0" build "${0%/*}/wants.json" ;; *fails*) exit 9 ;; *) echo '[]' ;; esac ;;
esac
"""


class Room:
    """A folder with the program and packages."""

    def __init__(self, folder):
        self.folder = Path(folder)
        self.path = self.folder / "program"
        self.path.write_text(PROGRAM)
        self.path.chmod(0o755)

    def packages(self, *texts):
        made = []
        for place, text in enumerate(texts):
            file = self.folder / f"{place}.json"
            file.write_text(text + "\n")
            made.append(str(file))
        return made

    def folder_of(self, name, text):
        made = self.folder / name
        made.mkdir()
        (made / "mod.ts").write_text(text)
        return str(made)

    def runs(self, package):
        return (self.folder / "program.runs").read_text().splitlines().count(package)


def run(client, room, packages, memory=200_000_000, seconds=20, tries=3, on_done=lambda done: None, cgroup="none"):
    """The results, in the order of the packages, and what was lost."""
    out = io.StringIO()
    program = {"top": str(registry.TOP), "path": str(room.path)}
    _, lost = registry.Registry(client, packages, program, {"memory": memory, "seconds": seconds, "cgroup": cgroup}, tries).run(out, on_done)
    return sorted([json.loads(line) for line in out.getvalue().splitlines()], key=lambda it: packages.index(it["package"])), lost


def many_packages_are_few_tasks(client, room):
    packages = room.packages(*["plain", "once", "killed", "faults"] * 40)
    results, lost = run(client, room, packages, tries=2)
    assert sorted(it["package"] for it in results) == sorted(packages)
    assert [it.get("status") for it in results] == [0, 0, None, 1] * 40
    assert sorted(lost) == sorted((it, "killed by SIGKILL, tried 2 times") for it in packages[2::4])
    assert [room.runs(it) for it in packages] == [1, 2, 2, 1] * 40, "a package that is done is not tried again with one that is lost"


def results_are_written_as_they_come(client, room):
    packages, out = room.packages("slow 3", "plain"), io.StringIO()
    program = {"top": str(registry.TOP), "path": str(room.path)}
    registry.Registry(client, packages, program, {"memory": 200_000_000, "seconds": 20}, 1).run(out)
    assert [json.loads(line)["package"] for line in out.getvalue().splitlines()] == packages[::-1]


def each_package_has_a_result(client, room):
    packages = room.packages("slow 1", "plain", "faults", "refused", "plain")
    results, lost = run(client, room, packages)
    assert [it["package"] for it in results] == packages and not lost
    assert [it["status"] for it in results] == [0, 0, 1, 2, 0]
    assert results[2]["messages"] == [{"code": "x"}], "a list that stands at two entry points is reported once"
    assert results[3]["said"] == "error: input refused: bad-form"


def a_killed_task_is_tried_again(client, room):
    packages = room.packages("plain", "once", "plain")
    results, lost = run(client, room, packages)
    assert [it["status"] for it in results] == [0, 0, 0] and not lost
    assert room.runs(packages[1]) == 2


def a_task_that_is_always_killed_is_told_by_name(client, room):
    packages = room.packages("plain", "killed", "plain")
    results, lost = run(client, room, packages)
    assert results[1] == {"package": packages[1], "error": "killed by SIGKILL, tried 3 times"}
    assert lost == [(packages[1], "killed by SIGKILL, tried 3 times")]
    assert room.runs(packages[1]) == 3 and results[2]["status"] == 0


def a_task_that_takes_too_much_memory_is_told_by_name(client, room):
    packages = room.packages("wants", "plain")
    results, lost = run(client, room, packages, tries=2)
    assert lost == [(packages[0], "out of memory, tried 2 times")] and results[1]["status"] == 0
    assert room.runs(packages[0]) == 2


def a_task_without_end_is_not_tried_again(client, room):
    packages = room.packages("endless", "plain")
    results, lost = run(client, room, packages, seconds=1)
    assert lost == [(packages[0], "out of time, tried 1 time")] and results[1]["status"] == 0
    assert room.runs(packages[0]) == 1


def folders_are_checked_in_one_process(client, room):
    (room.folder / "wants.json").write_text("wants\n")
    folders = [room.folder_of(name, text) for name, text in (("a", "export const a: 1 = 1;"), ("b", "export const b = ;"), ("wants", "export const wants: 1 = 1;"),
                                                            ("fails", "export const fails: 1 = 1;"), ("c", "export const c: 1 = 1;"))]
    packages = [*folders, str(room.folder / "nowhere"), str(room.folder / "c")]
    results, lost = run(client, room, packages, memory=400_000_000, tries=2)
    assert [it.get("status") for it in results] == [0, 2, None, 5, 0, 0, 2], results
    assert lost == [(folders[2], "out of memory, tried 2 times")], lost
    assert [it["code"] for it in results[1]["messages"]] == ["syntax-error"] and results[1]["messages"][0]["line"] == 1
    assert [it["code"] for it in results[6]["messages"]] == ["no-package"]
    assert "status 9" in results[3]["said"], results[3]


def a_folder_that_is_lost_among_others_is_told_alone(client, room):
    (room.folder / "wants.json").write_text("wants\n")
    folders = [room.folder_of(f"p{at}", f"export const {'wants' if at == 33 else 'a'}: 1 = 1;") for at in range(70)]
    results, lost = run(client, room, folders, memory=400_000_000, tries=2)
    assert lost == [(folders[33], "out of memory, tried 2 times")], lost
    assert [it.get("status") for it in results] == [0] * 33 + [None] + [0] * 36, results


def texts_are_written(client, room):
    """By the program of the variable FAST_CHECK: the one of these tests answers no skeletons."""
    if "FAST_CHECK" not in os.environ:
        print("    not tried: FAST_CHECK names no program")
        return
    folders = [room.folder_of("good", "export const a: number = Math.max(1, 2);"), room.folder_of("slow", "export const a = Math.max(1, 2);")]
    program, limits = {"top": str(registry.TOP), "path": os.environ["FAST_CHECK"]}, {"memory": 2_000_000_000, "seconds": 60, "cgroup": "none"}
    for want, name, text in (("skeletons", "mod.ts", "export const a: number = {} as never;"), ("declarations", "mod.d.ts", "export declare const a: number;")):
        out, texts = io.StringIO(), room.folder / want
        registry.Registry(client, folders, program, limits, 1, registry.Texts(want, texts)).run(out)
        results = {it["package"]: it for it in map(json.loads, out.getvalue().splitlines())}
        assert [results[it]["status"] for it in folders] == [0, 1] and "modules" not in results[folders[0]], results
        assert [it["file"] for it in results[folders[1]]["messages"]] == ["mod.ts"]
        written = [str(file) for file in texts.rglob("*") if file.is_file()]
        assert written == [f"{texts}{folders[0]}/{name}"] and Path(written[0]).read_text().strip() == text, written


def folders_are_quick(client, room):
    text = "export function f(n: number): number { return n; }\n" * 20
    packages = [room.folder_of(f"p{at}", text.replace("f(", f"f{at}(")) for at in range(60)]
    run(client, room, packages[:4])
    begun = time.monotonic()
    results, lost = run(client, room, packages)
    assert not lost and all(it["status"] == 0 for it in results)
    rate = 60 / (time.monotonic() - begun)
    print(f"    {rate:.0f} folders a second on two workers")
    assert rate > 10, "the compiler is loaded for each folder"


def make_group(made):
    """Makes a folder that stands for that of a cgroup: its files are there, as those of a new group are."""
    os.mkdir(made)
    for name, text in (("memory.max", ""), ("memory.swap.max", ""), ("memory.events", "oom 0\noom_kill 0\n"), ("cgroup.procs", "")):
        (made / name).write_text(text)


def a_cgroup_is_made_where_it_may_be(client, room):
    parent = room.folder / "group"
    parent.mkdir()
    plain = Path.mkdir
    try:
        Path.mkdir = make_group
        group = cgroups.Group(parent, 5000)
    finally:
        Path.mkdir = plain
    ran = subprocess.run(group.words(["sh", "-c", "echo $$"]), capture_output=True, text=True, check=True)
    assert (group.folder / "memory.max").read_text() == "5000" and (group.folder / "memory.swap.max").read_text() == "0"
    assert (group.folder / "cgroup.procs").read_text() == ran.stdout, "the program is the process that was put into the group"
    (group.folder / "memory.events").write_text("oom 1\noom_kill 1\n")
    assert group.kills() == 1


def where_no_cgroup_may_be_made_memory_is_looked_at(client, room):
    packages = room.packages("wants", "plain")
    results, lost = run(client, room, packages, tries=1, cgroup=str(room.folder / "nowhere"))
    assert lost == [(packages[0], "out of memory, tried 1 time")] and results[1]["status"] == 0


def nothing_is_lost_with_a_worker(client, room):
    packages = room.packages(*["slow 0.1"] * 30)
    killed = []

    def on_done(done):
        if done == 8:
            worker = next(iter(client.run(os.getpid).values()))
            os.kill(worker, signal.SIGKILL)
            killed.append(worker)

    results, lost = run(client, room, packages, on_done=on_done)
    assert killed and not lost
    assert [it["package"] for it in results] == packages and all(it["status"] == 0 for it in results)


def a_package_that_stands_twice_is_answered_twice(client, room):
    packages = room.packages("plain") * 3
    results, lost = run(client, room, packages)
    assert len(results) == 3 and not lost


def command(room, *words):
    """Runs the command: its status, and what stands on standard error."""
    words = [HERE / "registry.py", "--workers", "1", "--tries", "1", "--cgroup", "none", *words]
    ran = subprocess.run(words, env={**os.environ, "FAST_CHECK": str(room.path)}, capture_output=True, text=True)
    return ran.returncode, ran.stderr


def the_command_says_what_is_lost(client, room):
    packages = room.packages("plain", "killed", "refused", "faults")
    (room.folder / "list").write_text("\n".join([*packages, "/nowhere/at/all"]) + "\n")
    status, said = command(room, "--list", room.folder / "list", "--out", room.folder / "out")
    assert status == 1, said
    assert f"lost: {packages[1]}: killed by SIGKILL, tried 1 time\n" in said, said
    assert "5 packages: 1 clean, 1 with messages, 2 refused, 0 failed, 1 lost, " in said.splitlines()[-1], said
    assert len((room.folder / "out").read_text().splitlines()) == 5


def a_run_that_was_stopped_goes_on(client, room):
    packages, out = room.packages("plain", "plain", "refused", "plain"), room.folder / "out"
    done = [json.dumps({"package": packages[at], "status": status, "messages": []}) for at, status in ((2, 2), (0, 0))]
    out.write_text("\n".join(done) + "\n" + '{"package": "half')
    status, said = command(room, "--resume", "--out", out, *packages, packages[0])
    results = [json.loads(line) for line in out.read_text().splitlines()]
    assert status == 0 and sorted(it["package"] for it in results) == sorted([*packages, packages[0]]), said
    assert "5 packages: 4 clean, 0 with messages, 1 refused, 0 failed, 0 lost, " in said.splitlines()[-1], said
    assert [room.runs(it) for it in packages] == [1, 1, 0, 1], "what has a result is not run again"
    assert command(room, "--resume", "--out", out, *packages, packages[0])[0] == 0
    said = command(room, "--resume", "--out", out, packages[0])[1]
    assert said.startswith("1 packages: 1 clean, 0 with messages, 0 refused, 0 failed, 0 lost, "), said
    assert command(room, "--resume", *packages)[0] == 1


def a_cluster_that_is_there_is_used(client, room):
    packages = room.packages("plain", "faults")
    words = [HERE / "registry.py", "--cgroup", "none", "--scheduler", client.scheduler.address, *packages]
    ran = subprocess.run(words, env={**os.environ, "FAST_CHECK": str(room.path)}, capture_output=True, text=True)
    assert ran.returncode == 0, ran.stderr
    assert sorted(json.loads(line)["status"] for line in ran.stdout.splitlines()) == [0, 1]


TESTS = [results_are_written_as_they_come, many_packages_are_few_tasks, each_package_has_a_result, folders_are_checked_in_one_process, a_folder_that_is_lost_among_others_is_told_alone, texts_are_written, folders_are_quick, a_cgroup_is_made_where_it_may_be,
         where_no_cgroup_may_be_made_memory_is_looked_at, a_run_that_was_stopped_goes_on, a_killed_task_is_tried_again, a_task_that_is_always_killed_is_told_by_name, a_task_that_takes_too_much_memory_is_told_by_name,
         a_task_without_end_is_not_tried_again, nothing_is_lost_with_a_worker, a_package_that_stands_twice_is_answered_twice, the_command_says_what_is_lost,
         a_cluster_that_is_there_is_used]


def main():
    failed = 0
    cluster = registry.local(2)
    with Client(cluster) as client:
        for test in TESTS:
            with tempfile.TemporaryDirectory() as folder:
                try:
                    test(client, Room(folder))
                    said = "ok"
                except AssertionError as error:
                    said, failed = f"FAILED {error}", failed + 1
            print(f"{test.__name__.replace('_', ' ')}: {said}", flush=True)
    cluster.close()
    print(f"{len(TESTS) - failed} passed, {failed} failed")
    return 1 if failed else 0


if __name__ == "__main__":
    sys.exit(main())
