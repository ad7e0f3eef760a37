#!/usr/bin/env python3
"""Says which calls that can run out of memory answer `Ok` in a run with ample memory, and lists those that do not.

A body that always answers that memory ran out meets its contract, so a run has to show that the call succeeds. The calls are all functions of the crates, but
for those of cases, whose result is a `Result` with an error that may be out of memory, and the copies that a derive writes. The program of all cases
and `fast-check`, whole and with one command, are compiled without being proved, each such function noting its answer where it returns, and run: the first
on all that it reads, with what it prints compared, the others on the examples and on a file whose name is not text. A generic function is reached if it is at
one type. Where one has no code in these programs, nothing calls it.

Usage: tools/repo/reached.py [--all]     with `--all` a line for each call; about six minutes of one processor. Needs `rt` and `cc`
"""
import os
import re
import shutil
import subprocess
import sys
import tempfile
from pathlib import Path

TOP = Path(__file__).resolve().parents[2]
CASES = ("fast_check_vectors", "fast_check_cases_example", "fast_check_cases_finder", "fast_check_cases", "fast_check_cases_cache")
VECTORS = TOP / "crates/fast_check_vectors"
OK = 1

NOTES = r"""
#include <fcntl.h>
#include <stdlib.h>
#include <unistd.h>
static unsigned char seen[%d];
/* 4 where the call is entered, 1 where it answers `Ok`, 2 where it answers an error */
void reached_note(unsigned call, unsigned char tag) { seen[call] |= tag == 0 ? 1 : tag == 255 ? 4 : 2; }
__attribute__((destructor)) static void tell(void) {
  int file = open(getenv("REACHED"), O_WRONLY | O_CREAT | O_TRUNC, 0600);
  if (file < 0 || write(file, seen, sizeof seen) != sizeof seen) abort();
}
"""

# ---- the calls of the sources


class Call:
    """A function that can run out of memory: its crate and modules, the words of its type and its trait, empty where it has none, and its name."""

    def __init__(self, crate, modules, owner, name, where, is_public):
        self.crate, self.modules, self.name, self.where, self.is_public = crate, modules, name, where, is_public
        self.owner, self.head, self.seen = owner[:2], owner[2], None

    def text(self):
        return f"{self.name} of {self.head}, {self.crate}" if self.head else f"{self.name}, {self.crate}"


def errors():
    """The error types that may be out of memory."""
    found = {"AllocError", "io::Error"}
    for file in sorted(TOP.glob("crates/*/src/**/*.rt")):
        for name, body in re.findall(r"\benum (\w+)\s*\{(.*?)\n\}", file.read_text(), re.S):
            if re.search(r"^\s*OutOfMemory\b", body, re.M):
                found.add(name)
    return found


def behind(text, at, opening, closing):
    """The place behind the bracket that closes the one at `at`. The `>` of an arrow closes none."""
    depth = 0
    while True:
        if text[at] == opening:
            depth += 1
        elif text[at] == closing and not (closing == ">" and text[at - 1] in "-="):
            depth -= 1
        at += 1
        if not depth:
            return at


def parts_of(text):
    """The parts of a list between commas, those in brackets aside."""
    found, depth = [""], 0
    for place, letter in enumerate(text):
        depth += letter in "(<[{"
        depth -= letter in ")]}" or (letter == ">" and text[place - 1] not in "-=")
        if letter == "," and not depth:
            found.append("")
        else:
            found[-1] += letter
    return [part.strip() for part in found if part.strip()]


def without_comments(text):
    """The text with comments and literals blanked, so that places and lines stay."""
    return re.sub(r'//[^\n]*|"(?:\\[\s\S]|[^"\\])*"|\'(?:\\.|[^\'\\])\'', lambda found: re.sub(r"[^\n]", " ", found[0]), text)


def type_word(text, parameters):
    """What stands for a type in the name of compiled code: the last word of its path, in lowercase; of a tuple how many there are."""
    text = text.strip().lstrip("&").removeprefix("mut ")
    if text.startswith("("):
        return f"tuple{len(parts_of(text[1:-1]))}"
    word = re.sub(r"<.*", "", text, flags=re.S).split("::")[-1].strip()
    return "any" if word in parameters else word.lower()


def owners(text):
    """The places of each block of an `impl` or a trait: of an `impl` with the words of its type and its trait and with its head, of a trait with None."""
    for found in re.finditer(r"^(?:impl|(?:pub )?trait)\b", text, re.M):
        at, parameters = found.end(), []
        if text[at] == "<":
            at = behind(text, at, "<", ">")
            parameters = [re.split(r"[:\s]", part)[0] for part in parts_of(text[found.end() + 1:at - 1])]
        head = re.split(r"\swhere\s", text[at:text.index("{", at)])[0]
        trait, is_for, of = head.rpartition(" for ")
        owner = None if "trait" in found[0] else (type_word(of, parameters), type_word(trait, ()) if is_for else "", " ".join(head.split()))
        yield found.start(), behind(text, text.index("{", at), "{", "}"), owner


def error_of(result):
    """The error type of a result, None where it is no `Result`."""
    found = re.match(r"((?:\w+::)*)Result<(.*)>$", result, re.S)
    if not found:
        return None
    parts = parts_of(found[2])
    return "io::Error" if found[1].endswith("io::") else parts[1].split("::")[-1] if len(parts) == 2 else None


def calls_of(file, kinds):
    """The calls of a file."""
    crate, within = file.relative_to(TOP / "crates").parts[0], file.relative_to(TOP / "crates").parts[2:]
    modules = [part.removesuffix(".rt") for part in within if part not in ("lib.rt", "main.rt")]
    text = without_comments(file.read_text())
    blocks = list(owners(text))
    for found in re.finditer(r"^[ \t]*(pub(?:\([^)]*\))? )?(?:const )?fn (\w+)", text, re.M):
        at = found.end()
        if text[at] == "<":
            at = behind(text, at, "<", ">")
        at = behind(text, at, "(", ")")
        result = re.match(r"\s*->\s*(.*?)\s*(?=\n\s*(?:ensures|requires|where|decreases)\b|\{|;)", text[at:], re.S)
        if not result or error_of(result[1]) not in kinds:
            continue
        owner = next((of for start, end, of in blocks if start < found.start() < end), ("", "", ""))
        if not owner:
            continue
        line = text.count("\n", 0, found.start(2)) + 1
        yield Call(crate, modules, owner, found[2], f"{file.relative_to(TOP)}:{line}", bool(found[1] or owner[1]))
    for found in re.finditer(r"#\[derive\(([^)]*)\)\]\s*(?:#\[[^\]]*\]\s*)*(?:pub(?:\([^)]*\))? )?(?:struct|enum) (\w+)", text):
        words = [word.strip() for word in found[1].split(",")]
        if "Clone" in words and "Copy" not in words:
            line = text.count("\n", 0, found.start(2)) + 1
            yield Call(crate, modules, (found[2].lower(), "clone", f"Clone for {found[2]}"), "clone", f"{file.relative_to(TOP)}:{line}", True)


def all_calls():
    kinds, found = errors(), []
    for file in sorted(TOP.glob("crates/*/src/**/*.rt")):
        if file.relative_to(TOP / "crates").parts[0] not in CASES:
            found += calls_of(file, kinds)
    return found


# ---- the programs


def say(text):
    print(f"reached.py: {text}", file=sys.stderr, flush=True)


def run(words, **how):
    ran = subprocess.run(words, stdin=subprocess.DEVNULL, stdout=subprocess.PIPE, stderr=subprocess.STDOUT, text=True, errors="replace", **how)
    if ran.returncode:
        sys.exit(f"reached.py: {words[0]} ends with status {ran.returncode}:\n{ran.stdout[-2000:]}")


def kit_beside(kit, folder):
    """A folder that stands for the kit, whose compiler keeps the module of the program and refuses it."""
    made = folder / "kit"
    for part in ("bin", "toolchain/bin"):
        (made / part).mkdir(parents=True)
        for file in (kit / part).iterdir():
            (made / part / file.name).symlink_to(file)
    for file in kit.iterdir():
        if file.name not in ("bin", "toolchain"):
            (made / file.name).symlink_to(file)
    (made / "toolchain/lib").symlink_to(kit / "toolchain/lib")
    for name in ("rt", "rtlib.py"):
        (made / "bin" / name).unlink()
        shutil.copy(kit / "bin" / name, made / "bin" / name)
    # It would only look for names that a check refuses.
    (made / "bin/rattle").unlink()
    (made / "bin/rattle").symlink_to("/bin/true")
    clang = made / "toolchain/bin/clang"
    clang.unlink()
    clang.write_text(f"""#!/bin/sh
if [ -f module.bc ] && [ "$(wc -c < module.bc)" -gt 1000000 ]; then cp module.bc '{folder}/module.bc'; exit 1; fi
exec '{kit}/toolchain/bin/clang' "$@"
""")
    clang.chmod(0o755)
    return made


def names_of(calls):
    """The calls by their crates and names."""
    found = {}
    for number, call in enumerate(calls):
        found.setdefault((call.crate, call.name), []).append((number, call))
    return found


def called_as(name, named):
    """The number of the call that a compiled function is made of, None where it is another one. A method of a type has the path of the type, and one of a
    trait that of the `impl`, with the type and the trait as one word."""
    if "::" not in name:
        return None
    crate, *inside, called = re.sub(r"::<.*", "", name).split("::")
    owner, best = inside[-1].lower() if inside else "", None
    for number, call in named.get((crate, called), ()):
        of, trait = call.owner
        if not of and inside == call.modules or of and not trait and owner.split("+")[0] == of:
            return number
        is_longer = best is None or len(of) > len(best[0])
        if trait and inside[:-1] == call.modules and owner.startswith(of) and trait in owner[len(of):] and is_longer:
            best = of, number
    return best and best[1]


def noting(lines, calls):
    """The text of a module, in which each call notes that it is entered, and its answer: its first byte tells `Ok`."""
    named, number, made = names_of(calls), None, 0
    for line in lines:
        if line.startswith("define "):
            found = re.search(r'@"([^"]*)"\(|@([\w.$]+)\(', line)
            number = called_as(found[1] or found[2], named)
            if number is not None:
                calls[number].seen = calls[number].seen or 0
        elif number is not None and line.startswith("  ret "):
            of, made = line[6:].strip(), made + 1
            if of == "void":
                yield f"  %reached.{made} = load i8, ptr %a0, align 1\n"
            elif of.startswith("{ i8, "):
                yield f"  %reached.{made} = extractvalue {of}, 0\n"
            elif of.startswith("i8 "):
                yield f"  %reached.{made} = add {of}, 0\n"
            else:
                sys.exit(f"reached.py: {calls[number].text()} answers {of}, which is not read here")
            yield f"  call void @reached_note(i32 {number}, i8 %reached.{made})\n"
        elif line.startswith("}"):
            number = None
        yield line
        if number is not None and line == "start:\n":
            yield f"  call void @reached_note(i32 {number}, i8 -1)\n"
    yield "declare void @reached_note(i32, i8)\n"


def build(kit, crate, calls, within):
    """The program of a crate, compiled unproved, whose calls note their answers."""
    say(f"compiling {crate}")
    folder = within / crate
    folder.mkdir()
    stand_in, module = kit_beside(kit, folder), folder / "module.bc"
    subprocess.run([stand_in / "bin/rt", "try"], cwd=TOP / "crates" / crate, stdin=subprocess.DEVNULL, stdout=subprocess.DEVNULL,
                   stderr=subprocess.DEVNULL)
    if not module.exists():
        sys.exit(f"reached.py: `rt try` in crates/{crate} compiles nothing")
    clang = [kit / "toolchain/bin/clang", "--target=x86_64-unknown-linux-gnu", "-x", "ir"]
    run([*clang, "-O0", "-S", "-emit-llvm", module, "-o", folder / "module.ll"])
    with open(folder / "module.ll") as text, open(folder / "noting.ll", "w") as made:
        made.writelines(noting(text, calls))
    run([*clang, "-O0", "-c", "-fPIE", folder / "noting.ll", "-o", folder / "module.o"])
    (folder / "notes.c").write_text(NOTES % len(calls))
    run(["cc", "-O2", "-c", "-fPIE", "-o", folder / "notes.o", folder / "notes.c"])
    program = folder / crate
    link = [kit / "bin/rattle-link", "--target", "x86_64-unknown-linux-gnu", "--toolchain", kit / "toolchain"]
    run([*link, "-o", program, folder / "module.o", folder / "notes.o", kit / "c/libos_c.a", kit / "c/liblibc_c.a"])
    for made in ("module.bc", "module.ll", "noting.ll", "module.o"):
        (folder / made).unlink()
    return program


def note(calls, program, words, inside):
    """Runs a program in a folder, and notes what its calls answered. Answers what it printed."""
    notes = program.parent / "notes"
    ran = subprocess.run([program, *words], cwd=inside, stdin=subprocess.DEVNULL, stdout=subprocess.PIPE, stderr=subprocess.DEVNULL,
                         env={**os.environ, "REACHED": str(notes)})
    if not notes.exists():
        sys.exit(f"reached.py: {program.name} {' '.join(words)} ends with status {ran.returncode} before its calls are told")
    for call, seen in zip(calls, notes.read_bytes()):
        if seen:
            call.seen = (call.seen or 0) | seen
    notes.unlink()
    return ran.stdout


def run_examples(calls, program):
    """Runs a program on all examples, by each command that one could be for, and on a file whose name is not text."""
    for file in sorted((TOP / "examples").glob("*.json")):
        if file.name.endswith(".answer.json"):
            continue
        for command in ("transform", "build", "pair"):
            note(calls, program, [command, file.name], TOP / "examples")
    note(calls, program, ["transform", os.fsdecode(b"\xff.json")], TOP / "examples")


def main(words):
    if words not in ([], ["--all"]):
        print(__doc__, file=sys.stderr)
        return 2
    for tool in ("rt", "cc"):
        if not shutil.which(tool):
            sys.exit(f"reached.py: there is no {tool} on the path")
    kit, calls = Path(os.path.realpath(shutil.which("rt"))).parent.parent, all_calls()
    with tempfile.TemporaryDirectory() as folder:
        program = build(kit, "fast_check_vectors", calls, Path(folder))
        is_as_stored = note(calls, program, [], VECTORS / "data") == (VECTORS / "stdout").read_bytes()
        print("the cases print what is stored" if is_as_stored else "THE CASES PRINT ANOTHER THING THAN IS STORED")
        for crate in ("fast_check_cli", "fast_check_program_transform_cli"):
            run_examples(calls, build(kit, crate, calls, Path(folder)))
    kinds = [("answers Ok", lambda it: (it or 0) & OK), ("is entered, and answers an error alone", lambda it: it and not it & OK),
             ("is not entered", lambda it: it == 0), ("has no code in the programs", lambda it: it is None)]
    print(f"{len(calls)} calls that can run out of memory, in {len({call.crate for call in calls})} crates")
    for told, has in kinds:
        of = [call for call in calls if has(call.seen)]
        print(f"{told}: {len(of)}")
        for call in of if words or told != kinds[0][0] else []:
            print(f"    {call.text()}{' (pub)' * call.is_public}  {call.where}")
    return 0 if is_as_stored else 1


if __name__ == "__main__":
    sys.exit(main(sys.argv[1:]))
