#!/usr/bin/env python3
"""What the pages name, and is not there: links, anchors, files and names in backticks, scripts and options of commands that are shown.

    tools/repo/pages.py             all pages of this repository; prints what is not there, and ends with 1 where something is not
    tools/repo/pages.py FOLDER      the links and anchors of the pages below a folder
    tools/repo/pages.py --run       runs the commands that read this repository alone, by the program of FAST_CHECK, each for at most two minutes
"""
import os
import re
import subprocess
import sys
import tempfile
from functools import cache
from pathlib import Path
from urllib.parse import unquote

TOP = Path(__file__).resolve().parents[2]
LINK = re.compile(r"!?\[(?:[^\]\[]|\[[^\]]*\])*\]\(([^)\s]+)\)")
FENCED = re.compile(r"^ *(```|~~~).*?^ *\1", re.M | re.S)
WORD = re.compile(r"[A-Za-z_][A-Za-z0-9_]*")
FILE = re.compile(r"[\w./-]+\.(antt|rt|py|js|sh|json|txt|md)")
# Commands that read files of this repository alone, and write nothing in it.
RUN = r"(\./fast-check(-ts)?|python3 -m bench stored|tools/repo/(edits|fragments|definitions)\.py|forms/write\.py --|tools/repo/pages\.py$)"
# Pages that name what is gone, or stands in other projects.
OF_OTHERS = {"CHANGELOG.md", "docs/DIFFERENCES.md", "docs/dev/evaluation.md"}


@cache
def listed(pattern="*"):
    found = subprocess.run(["git", "-C", TOP, "ls-files", "-co", "--exclude-standard", pattern], check=True, capture_output=True, text=True).stdout.split("\n")
    return [each for each in found if each and "/test/packages/" not in each and (TOP / each).is_file()]


def pages(folder):
    return sorted(folder.rglob("*.md")) if folder != TOP else [folder / each for each in listed("*.md")]


def anchors(page):
    """The anchors of a page's titles, as renderers of Markdown make them."""
    titles = re.findall(r"^#{1,6} +(.*?)\s*#*$", FENCED.sub("", page.read_text()), re.M)
    words = (re.sub(r"[`*]|\[([^\]]*)\]\([^)]*\)", r"\1", title) for title in titles)
    return {re.sub(r"[^\w\- ]", "", title.lower()).replace(" ", "-") for title in words}


def wrong_links(page):
    text = re.sub(r"`[^`\n]*`", "", FENCED.sub("", page.read_text()))
    for target in LINK.findall(text):
        if re.match(r"[a-z]+:", target):
            continue
        path, _, anchor = target.partition("#")
        file = (page.parent / unquote(path)).resolve() if path else page
        if not file.exists() or anchor and file.suffix == ".md" and anchor not in anchors(file):
            yield f"the link {target}"


@cache
def words_of_files():
    """Each word of the files that are no pages."""
    words = set()
    for each in listed():
        try:
            words.update([] if each.endswith(".md") else WORD.findall((TOP / each).read_text()))
        except UnicodeDecodeError:
            continue
    return words


def is_of_a_crate(word):
    """Whether a crate's name ends with a word, or begins with a group's as `source_`."""
    group = "fast_check_" + word.removeprefix("fast_check_")
    return any(crate.name.endswith("_" + word.strip("_")) or crate.name.startswith(group) for crate in Path(TOP, "crates").iterdir())


def wrong_names(page):
    """Files and names in backticks that no file is called by, or has. A crate may stand without the beginning that all share."""
    files = {Path(each).name for each in listed()} | {"deno.json"}
    for shown in re.findall(r"`([^`\n]+)`", FENCED.sub("", page.read_text())):
        if FILE.fullmatch(shown) and not re.search(r"NAME|CRATE|EDIT", shown) and Path(shown).name not in files:
            yield f"the file {shown}"
        for word in WORD.findall(shown):
            is_name = "_" in word.strip("_") or re.search(r"[a-z][A-Z]", word)
            if is_name and word not in words_of_files() and not is_of_a_crate(word):
                yield f"the name {word}"


@cache
def help_of(command):
    done = subprocess.run([TOP / "fast-check-ts", "help", command], capture_output=True, text=True)
    return done.stdout if done.returncode == 0 else None


def commands(page):
    """The words of each line that stands in a block of code, without the remark behind it."""
    text = page.read_text()
    lines = re.findall(r"^    +(\S.*)$", text, re.M) + [line for block in FENCED.finditer(text) for line in block[0].split("\n")]
    return [re.sub(r"\s(#|  ).*", "", line.removeprefix("$ ").removeprefix("npx ")).split() for line in lines]


def wrong_commands(page):
    """Scripts of this repository, commands and options that stand in blocks of code and are not there."""
    for words in commands(page):
        first = words[0] if words else ""
        if re.match(r"(\./)?(bench|tools|forms|examples|\.ci)/\S+$", first) and not (TOP / first).exists():
            yield f"the script {first}"
        if first in ("./fast-check-ts", "fast-check-ts", "nagdrez") and len(words) > 1 and re.fullmatch(r"[a-z]+", words[1]) and words[1] != "help":
            known = help_of(words[1])
            if known is None:
                yield f"the command {words[1]}"
            for option in re.findall(r"(?<=\s)--[a-z-]+", " ".join(words)) if known else []:
                if option not in known:
                    yield f"the option {option} of {words[1]}"


def run_commands():
    """Runs each command that is shown whole and reads files of this repository alone. One fails whose status is no answer's."""
    shown = {" ".join(words) for page in pages(TOP) for words in commands(page) if words and re.match(RUN, " ".join(words))}
    failed = 0
    with tempfile.TemporaryDirectory() as folder:
        for command in sorted(shown):
            made = re.sub(r"\bPROGRAM\b|\$program\b", os.environ["FAST_CHECK"], command).replace(" out", f" {folder}/out")
            if re.search(r"\b[A-Z]{3,}\b|\.\.( |$)|HEAD|[|>;]", made.replace(os.environ["FAST_CHECK"], "")):
                continue
            done = subprocess.run(made, shell=True, cwd=TOP, capture_output=True, text=True, timeout=120)
            failed += done.returncode > 1
            print(f"{done.returncode}  {command}" + (f"\n{done.stderr[-300:]}" if done.returncode > 1 else ""))
    print(f"{failed} commands fail")
    return min(failed, 1)


def main(folder):
    checks = [wrong_links] + ([wrong_names, wrong_commands] if folder == TOP else [])
    found = []
    for page in pages(folder):
        of_others = folder == TOP and str(page.relative_to(TOP)) in OF_OTHERS
        found += [(page, each) for check in checks if not (of_others and check == wrong_names) for each in check(page)]
    for page, each in found:
        print(f"{page.relative_to(folder)}: {each} is not there")
    print(f"{len(pages(folder))} pages name {len(found)} things that are not there")
    return 1 if found else 0


if __name__ == "__main__":
    sys.exit(run_commands() if sys.argv[1:] == ["--run"] else main(Path(sys.argv[1]).resolve() if len(sys.argv) > 1 else TOP))
