"""Compares what the documents say with what there is: the table of what to do with the faults of the program, the
scripts of docs/LANGUAGE.md and docs/SCRIPTS.md with the examples that they show, links with files and headings, the
list of pages with the pages, and their lengths; and runs the recipes of docs/RECIPES.md and the tour of README.md."""
import glob
import os
import re
import subprocess
import sys
import tempfile

import pytest
from conftest import ROOT, room_for_journals

# The types whose variants are the words of a fault, and those that stand after `! script` and `! journal`.
FAULTS = {"TextFault": "", "CheckFault": "", "CsvFault": "", "BatchFault": "", "ScriptFault": "script ", "JournalFault": "journal "}
# What is no word of a fault: want of memory ends a run, and a fault of the source or the disk is a line of its own.
UNTOLD = {"NoMemory", "Source", "script NoMemory", "script Source", "journal NoMemory", "journal Device"}
LINES = {"device", "broken", "usage", "source", "packet", "refused", "rows UnknownTable"}


def judge(name, is_right, found=""):
    assert is_right, f"{name}: {found}"


def text_of(path):
    with open(os.path.join(ROOT, path), encoding="utf-8") as file:
        return file.read()


def variants(name):
    """The names of the variants of an enum of the crates."""
    for path in glob.glob(f"{ROOT}/crates/*/src/**/*.rt", recursive=True):
        found = re.search(rf"^pub enum {name} \{{\n(.*?)^\}}", text_of(path), re.M | re.S)
        if found:
            return re.findall(r"^    ([A-Z]\w*)", found.group(1), re.M)
    return []


def found_of(told):
    """The faults that have a sentence for any case."""
    return {fault for fault, case in told if case == ""}


def test_the_table_has_each_fault():
    """Each fault has a sentence, and each sentence a fault; the cases are those that the command tells apart."""
    table = text_of("docs/FORMATS.md").split("\n## What to do\n")[1].split("\n## ")[0]
    rows = re.findall(r"^\| ([^|]+?) \| ?([^|]*?) ?\| ([^|]+) \|$", table, re.M)[1:]
    told = {(fault, case) for fault, case, _ in rows if not fault.startswith("-")}
    wanted = set(LINES)
    for name, front in FAULTS.items():
        names = variants(name)
        judge(f"the variants of {name}", names, "none were found")
        wanted |= {front + it for it in names}
    wanted -= UNTOLD
    front = "".join(text_of(it) for it in glob.glob(f"{ROOT}/python/src/timeline/*.py"))
    wanted |= {it for it in found_of(told) - wanted if f'"{it}"' in front}     # what the front itself refuses
    found = found_of(told)
    judge("faults without a sentence", not wanted - found, sorted(wanted - found))
    judge("sentences without a fault", not found - wanted, sorted(found - wanted))
    judge("a fault with two sentences", len(told) == len([it for it in rows if not it[0].startswith("-")]))
    command = text_of("python/src/timeline/explaining.py")
    for fault, case in sorted(told):
        is_told = case == "" or f'"{case}"' in command or re.search(rf"\b{case}\b", command)
        judge(f"the case '{case}' of {fault}", is_told, "the command does not tell it apart")
    formats = text_of("docs/FORMATS.md").split("\n## Fault words\n")[1].split("\n## ")[0]
    for fault in sorted(wanted - LINES):
        if " " not in fault:
            judge(f"the numbers of {fault}", re.search(rf"\b{fault}\b", formats), "docs/FORMATS.md does not have them")
    for fault in sorted(it.split()[1] for it in wanted if " " in it):
        judge(f"the closing line of {fault}", re.search(rf"\b{fault}\b", text_of("docs/SCRIPTS.md") + text_of("docs/FORMATS.md")))


def test_examples_are_as_shown():
    """What a page shows of an example is what stands in its files, and each example of examples/language with a script
    is shown; so is the script of README.md, but for its comments."""
    found = set()
    for page in ("docs/LANGUAGE.md", "docs/SCRIPTS.md"):
        shown = re.findall(r"\(\.\./(examples/[\w/]+)\.tl\)[^\n]*:\n\n```\n(.*?)```\n.*?\n```\n(.*?)```\n", text_of(page), re.S)
        for path, script, replies in shown:
            judge(f"{page}: {path}.tl", script == text_of(f"{path}.tl"), script)
            judge(f"{page}: {path}.expected", replies == text_of(f"{path}.expected"), replies)
            found.add(path)
    wanted = {os.path.relpath(it, ROOT)[:-3] for it in glob.glob(f"{ROOT}/examples/language/*.tl")}
    judge("the examples of examples/language", wanted and wanted <= found, sorted(wanted - found))
    scripts = re.findall(r"\n\n((?:    [^\n]*\n)+)", text_of("README.md"))
    wanted = [re.sub(r"^#.*\n", "", text_of("examples/first.tl"), flags=re.M)]
    judge("the script of README.md", [re.sub("^    ", "", it, flags=re.M) for it in scripts] == wanted, scripts)


def pages():
    return sorted(os.path.relpath(it, ROOT) for it in glob.glob(f"{ROOT}/docs/*.md"))


def anchors(page):
    """The places of a page that a link may name: its headings, as web sites that show Markdown spell them."""
    text = re.sub(r"^```.*?^```$", "", text_of(page), flags=re.M | re.S)
    return {re.sub(r"[^\w -]", "", it.lower()).replace(" ", "-") for it in re.findall(r"^#+ (.*)$", text, re.M)}


def test_links_lead_somewhere():
    for document in ["README.md", *pages()]:
        links = re.findall(r"\]\(([^)#]*)#?([^)]*)\)", text_of(document))
        for link, anchor in (it for it in links if "://" not in it[0]):
            path = os.path.relpath(os.path.join(ROOT, os.path.dirname(document), link), ROOT) if link else document
            judge(f"{document}: the link {link}", os.path.exists(os.path.join(ROOT, path)), "leads nowhere")
            judge(f"{document}: the link {link}#{anchor}", not anchor or anchor in anchors(path), "leads to no heading")
    for path in (it for kind in ("py", "txt", "rt", "sh") for it in glob.glob(f"{ROOT}/*/**/*.{kind}", recursive=True) if "/out/" not in it):
        for page in re.findall(r"\bdocs/[A-Z_]+\.md", text_of(path)):
            judge(f"{os.path.relpath(path, ROOT)}: {page}", os.path.exists(os.path.join(ROOT, page)), "is not there")


def test_pages_are_listed_and_short():
    """README.md and docs/ARCHITECTURE.md list each page, and no page has more than 6,000 words."""
    for page in pages():
        judge(f"{page} in README.md", f"]({page})" in text_of("README.md"), "is not listed")
        name = os.path.basename(page)
        judge(f"{page} in docs/ARCHITECTURE.md", name == "ARCHITECTURE.md" or f"]({name})" in text_of("docs/ARCHITECTURE.md"), "is not listed")
        judge(f"the length of {page}", len(text_of(page).split()) <= 6000, f"{len(text_of(page).split())} words")


# What a recipe needs beside the programs, and how to see whether it is there.
NEEDS = {"sqlite3 ": ["sqlite3", "--version"]}


def is_there(words):
    try:
        return subprocess.run(words, stdout=subprocess.DEVNULL, stderr=subprocess.DEVNULL, check=False).returncode == 0
    except OSError:
        return False


def bare(printed):
    """What was printed, but for the versions of replies."""
    return re.sub(r"^(\w+) @\d+", r"\1 @V", printed, flags=re.M)


def run_blocks(blocks, wanted):
    """Runs blocks of commands in a folder of their own, and compares what they print."""
    lacking = [words[0] for part, words in NEEDS.items() if part in "".join(blocks) and not is_there(words)]
    if lacking:
        pytest.skip(f"{' '.join(lacking)} is not here")
    with tempfile.TemporaryDirectory(dir=room_for_journals()) as room:
        os.symlink(f"{ROOT}/timeline", f"{room}/timeline")
        os.symlink(f"{ROOT}/examples", f"{room}/examples")
        around = {**os.environ, "PATH": f"{os.path.dirname(sys.executable)}:{os.environ['PATH']}"}
        run = subprocess.run(["bash", "-c", "".join(blocks)], cwd=room, env=around, capture_output=True, text=True, stdin=subprocess.DEVNULL)
    # Two loads within one second state one moment for both, so that later versions are less by one.
    assert run.stdout == wanted or bare(run.stdout) == bare(wanted), f"it printed\n{run.stdout}\nand not\n{wanted}\nand said {run.stderr}"


def blocks_of(text, kind):
    return re.findall(rf"```{kind}\n(.*?)```", text, re.S)


def recipes():
    """The sections of docs/RECIPES.md, each with the text at the beginning of its part."""
    for part in re.split(r"^# ", text_of("docs/RECIPES.md"), flags=re.M)[1:]:
        front, *sections = part.split("\n## ")
        yield from ((front, it) for it in sections)


@pytest.mark.parametrize("front, section", recipes(), ids=lambda it: it.split("\n")[0])
def test_a_recipe(front, section):
    run_blocks(blocks_of(front, "sh") + blocks_of(section, "sh"), "".join(blocks_of(section, "text")))


def test_the_tour_of_readme():
    tour = text_of("README.md").split("\n## ")[1]
    run_blocks(blocks_of(tour, "sh"), "".join(blocks_of(tour, "text")))
