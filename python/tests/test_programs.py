"""Which programs run, and how they are made: over a copy of the front with small sources of its own, and a kit that is a few
shell scripts, which take down how they are called."""
from __future__ import annotations

import os
import pty
import re
import shutil
import signal
import subprocess
import time
from typing import Iterator

import pytest
from conftest import ROOT, Done

# Stands in for `rt`: it says what the gate says of the crates that it finds, and leaves programs where they are; it
# compiles and links by its own folder's compiler.
RT = r"""#!/bin/sh
here=$(dirname "$0")/..
[ "$1" = version ] && echo a kit && exit
echo "$1 ${PWD##*/} $(shift; echo "$*")" >>"$CALLS"
[ -e "$CALLS.slow" ] && sleep 60
name=${PWD##*/}
case $1 in
    try)
        [ -e "$CALLS.fails" ] && echo 'error: no such name' >&2 && exit 1
        [ -e "$CALLS.killed" ] && echo 'run=none proved=no' >&2 && exit 2
        "$here/toolchain/bin/clang" -O0 -fsanitize=address -march=x86-64 -c "a b.c" -o a.o
        "$here/toolchain/bin/ld.lld" -o "$TMPDIR/linked" a.o --whole-archive asan.a --no-whole-archive -lc ;;
    ci)
        find . -type f | sort >"$CALLS.files"
        cp crates.txt "$CALLS.crates"
        echo 'rt: note: the disk has 7 MB left'
        for it in $(sed '/^#/d; s/[ :].*//' crates.txt); do
            [ -e "$CALLS.fails" ] && [ "$it" = timeline ] && echo "rt: $it NOT PROVED" && exit 1
            [ "$it" = low ] && echo "rt: $it is kept: an earlier run on this machine proved the same files" && continue
            mkdir "crates/$it/out"
            printf '#!/bin/sh\necho "proved %s: $*"\n' "$it" >"crates/$it/out/$it"
            chmod +x "crates/$it/out/$it"
            echo "rt: $it proved"
        done
        [ -e "$CALLS.edits" ] && echo 'meanwhile' >"$(cat "$CALLS.edits")"
        echo '4 passed, 0 failed' ;;
esac
"""
CLANG = '#!/bin/sh\nfor it do echo "clang [$it]" >>"$CALLS.words"; done\n'
LINKER = r"""#!/bin/sh
for it do echo "ld [$it]" >>"$CALLS.words"; done
while [ "$1" != -o ]; do shift; done
printf '#!/bin/sh\necho "checked: $*"\n' >"$2"
chmod +x "$2"
"""
NAMES = ("timeline", "timeline_log", "timeline_look")
SAID = "timeline: checked as it runs; ./timeline build proves it\n"
MAKING = "timeline: making timeline, checked as it runs, which takes two to three minutes\n"


class Copy:
    """A copy of the front over sources of its own, and its kit."""

    def __init__(self, room: str) -> None:
        self.room, self.root = room, f"{room}/root"
        self.around = {**os.environ, "PATH": f"{room}/kit/bin:{os.environ['PATH']}", "CALLS": f"{room}/calls"}
        self.around.pop("TIMELINE_PROGRAMS", None)
        for crate in (*NAMES, "low", "other"):
            self.write(f"crates/{crate}/src/main.rt", "\n")
        self.write("crates/low/must-fail/wrong.edit", "file: src/main.rt\n")
        self.write("crates/low/proofs/out/kept.antt", "\n")
        self.write("crates.txt", "# crates\nlow:\nother:\n" + "".join(f"{it} may_wait=1: low\n" for it in NAMES))
        self.write("HANDLES", "Handles allowed: none.\n")
        shutil.copy(f"{ROOT}/timeline", f"{self.root}/timeline")
        shutil.copytree(f"{ROOT}/python/src", f"{self.root}/python/src")
        with open(f"{ROOT}/python/src/timeline/building.py", encoding="utf-8") as file:
            text = file.read()
        assert text.count("\n_MEMORY = 2_000_000 ") == 1      # what a compilation takes of memory, and this kit's does not
        self.write("python/src/timeline/building.py", text.replace("\n_MEMORY = 2_000_000 ", "\n_MEMORY = 1 "))
        os.mkdir(f"{self.root}/docs")
        shutil.copy(f"{ROOT}/docs/FORMATS.md", f"{self.root}/docs/FORMATS.md")
        for path, text in {"bin/rt": RT, "bin/rtlib.py": "", "bin/rattle": "", "toolchain/bin/clang": CLANG, "toolchain/bin/ld.lld": LINKER,
                           "toolchain/lib/c": "", "rlibs/std": ""}.items():
            self.write(f"../kit/{path}", text)
            os.chmod(f"{room}/kit/{path}", 0o755)

    def write(self, path: str, text: str) -> None:
        os.makedirs(os.path.dirname(f"{self.root}/{path}"), exist_ok=True)
        with open(f"{self.root}/{path}", "w", encoding="utf-8") as file:
            file.write(text)

    def __call__(self, *words: str) -> Done:
        done = subprocess.run([f"{self.root}/timeline", *words], cwd=self.room, env=self.around, capture_output=True, text=True,
                              stdin=subprocess.DEVNULL, check=False)
        return Done(done.returncode, done.stdout, done.stderr)

    def calls(self, ending: str = "") -> list[str]:
        """How the kit was called so far, once nothing is made any more."""
        while subprocess.run(["pgrep", "-f", f"{self.root}/python/src"], stdout=subprocess.DEVNULL, check=False).returncode == 0:
            time.sleep(0.05)
        try:
            with open(f"{self.room}/calls{ending}", encoding="utf-8") as file:
                return file.read().splitlines()
        except FileNotFoundError:
            return []

    def has_no_kit(self) -> None:
        self.around["PATH"] = "/usr/bin:/bin"


@pytest.fixture
def copy(room: str) -> Iterator[Copy]:
    made = Copy(room)
    yield made
    made.calls()


@pytest.mark.parametrize("words", [("--version",), ("--help",), (), ("go",), ("--strict",), ("test",)])
def test_words_that_need_no_program_make_none(copy: Copy, words: tuple[str, ...]) -> None:
    copy(*words)
    assert copy.calls() == []


def test_the_first_command_makes_what_it_needs_and_the_others_beside_it(copy: Copy) -> None:
    first = copy("sample", "2", "7")
    assert first == (0, "checked: sample 2 7\n", MAKING + SAID)
    assert sorted(copy.calls()) == [f"try {it} " for it in NAMES]
    assert copy("sample", "2", "7") == (0, "checked: sample 2 7\n", "")
    copy("tables")
    assert len(copy.calls()) == 3


def test_the_compiler_optimizes_and_the_sanitizer_is_left_out(copy: Copy) -> None:
    copy("sample", "2", "7")
    said = copy.calls(".words")
    clang = [it for it in said if it.startswith("clang")]
    assert "clang [-O1]" in clang and "clang [a b.c]" in clang and "clang [-O0]" not in clang and "clang [-fsanitize=address]" not in clang
    assert "ld [asan.a]" not in said and "ld [--whole-archive]" not in said and "ld [-lc]" in said


def test_a_change_of_the_code_makes_the_program_anew(copy: Copy) -> None:
    copy("sample", "2", "7")
    assert len(copy.calls()) == 3
    copy.write("crates/other/src/main.rt", "a crate that no program has\n")
    copy.write("crates/low/proofs/main.antt", "a proof, of which no code is made\n")
    copy("sample", "2", "7")
    assert len(copy.calls()) == 3
    copy.write("crates/low/src/main.rt", "other code\n")
    assert copy("sample", "2", "7").err == MAKING
    assert len(copy.calls()) == 6
    copy.write("crates/low/src/main.rt", "\n")
    assert copy("sample", "2", "7").err == ""
    assert len(copy.calls()) == 6


def test_what_cannot_be_made_is_said(copy: Copy) -> None:
    with open(f"{copy.room}/calls.fails", "w"):
        pass
    done = copy("sample", "2", "7")
    assert (done.status, done.out) == (125, "")
    assert "timeline was not made; " in done.err and done.err.endswith("error: no such name\n")
    os.rename(f"{copy.room}/calls.fails", f"{copy.room}/calls.killed")
    assert "the compiler was ended from outside" in copy("sample", "2", "7").err


def test_with_no_kit_the_programs_of_earlier_sources_run(copy: Copy) -> None:
    assert copy("sample", "2", "7") == (0, "checked: sample 2 7\n", MAKING + SAID)
    copy.calls()
    copy.has_no_kit()
    copy.write("crates/low/src/main.rt", "other code\n")
    done = copy("sample", "2", "7")
    assert (done.status, done.out) == (0, "checked: sample 2 7\n"), done
    assert "the sources are newer than the program" in done.err
    shutil.rmtree(f"{copy.root}/out")
    done = copy("sample", "2", "7")
    assert (done.status, done.out) == (125, "") and "the command rt" in done.err


def test_two_commands_at_once_make_a_program_once(copy: Copy) -> None:
    words = [f"{copy.root}/timeline", "sample", "2", "7"]
    both = [subprocess.Popen(words, cwd=copy.room, env=copy.around, stdout=subprocess.PIPE, stderr=subprocess.DEVNULL) for _ in range(2)]
    assert [it.communicate()[0] for it in both] == [b"checked: sample 2 7\n"] * 2
    assert copy.calls().count("try timeline ") == 1


def test_a_command_that_is_stopped_leaves_no_process_and_no_folder(copy: Copy) -> None:
    with open(f"{copy.room}/calls.slow", "w"):
        pass
    copy.around["TMPDIR"] = f"{copy.room}/tmp"
    os.mkdir(f"{copy.room}/tmp")
    process = subprocess.Popen([f"{copy.root}/timeline", "sample", "2", "7"], cwd=copy.room, env=copy.around, stdout=subprocess.PIPE, stderr=subprocess.PIPE)
    ends = time.monotonic() + 60
    while not os.path.exists(f"{copy.room}/calls") and time.monotonic() < ends:
        time.sleep(0.05)
    process.send_signal(signal.SIGINT)
    process.communicate()
    assert process.returncode == 130
    copy.calls()
    assert os.listdir(f"{copy.room}/tmp") == []


def test_build_proves_and_replaces(copy: Copy) -> None:
    copy("sample", "2", "7")
    done = copy("build")
    assert done.status == 0 and "proving timeline, timeline_log, timeline_look; from nothing" in done.err, done
    assert "timeline: the disk has 7 MB left\n" in done.err and done.err.endswith("timeline: all three are proved\n")
    assert [it for it in copy.calls() if it.startswith("ci")] == ["ci sources "]
    assert copy("sample", "2", "7") == (0, "proved timeline: sample 2 7\n", "")
    assert copy("build").err == "timeline: all three are proved already\n"
    said = copy("--version").out.splitlines()
    assert [it.partition(": ")[2].startswith("proved") for it in said[1:]] == [True] * 3, said
    copy.write("crates/low/proofs/main.antt", "another proof\n")
    assert "since then specs or proofs have changed" in copy("--version").out
    assert copy("build").status == 0 and "since then" not in copy("--version").out
    copy.write("crates/low/src/main.rt", "other code\n")
    assert copy("sample", "2", "7").out == "checked: sample 2 7\n"


def test_build_is_the_gate_over_the_crates_of_the_programs_alone(copy: Copy) -> None:
    copy.write("crates/low/out/left", "what an earlier check left\n")
    assert copy("build").status == 0
    files = [*(f"./crates/{it}/src/main.rt" for it in ("low", *NAMES)), "./crates/low/proofs/out/kept.antt", "./crates.txt", "./HANDLES"]
    assert sorted(copy.calls(".files")) == sorted(files)
    assert copy.calls(".crates") == ["low:", *(f"{it} may_wait=1: low" for it in NAMES)]


def test_build_says_how_far_it_is(copy: Copy) -> None:
    ours, theirs = pty.openpty()
    subprocess.run([f"{copy.root}/timeline", "build"], cwd=copy.room, env=copy.around, stderr=theirs, stdin=subprocess.DEVNULL, check=True)
    said = os.read(ours, 100_000).decode()
    assert "timeline: 0 of 4 crates proved; " in said and "timeline: 4 of 4 crates proved; " in said, said


def test_a_build_that_fails_says_how_it_ended(copy: Copy) -> None:
    with open(f"{copy.room}/calls.fails", "w"):
        pass
    done = copy("build")
    assert (done.status, done.out) == (125, "") and "not all was proved; " in done.err and done.err.endswith("rt: timeline NOT PROVED\n")
    assert not os.path.exists(f"{copy.root}/crates/timeline/out")


def test_a_change_while_it_is_built_keeps_no_program(copy: Copy) -> None:
    with open(f"{copy.room}/calls.edits", "w", encoding="utf-8") as file:
        file.write(f"{copy.root}/crates/low/specs.antt")
    assert copy("build").status == 0, "what is no source"
    os.mkdir(f"{copy.root}/crates/low/specs")
    with open(f"{copy.room}/calls.edits", "w", encoding="utf-8") as file:
        file.write(f"{copy.root}/crates/low/specs/low.antt")
    copy.write("crates/low/proofs/main.antt", "another proof\n")
    done = copy("build")
    assert done.status == 125 and "the sources of timeline were changed while it was proved" in done.err
    assert copy("--version").out.count("since then specs or proofs have changed") == 3
    os.remove(f"{copy.room}/calls.edits")
    assert copy("build").status == 0 and "since then" not in copy("--version").out


def test_a_build_that_is_stopped_goes_on_from_what_is_kept(copy: Copy) -> None:
    os.mkdir(f"{copy.room}/tmp")
    copy.around["TMPDIR"] = f"{copy.room}/tmp"
    with open(f"{copy.room}/calls.slow", "w"):
        pass
    for is_kept, told in ((True, "./timeline build goes on after the crates that were proved"),
                          (False, "/rattle-kept may not be written: ./timeline build begins again")):
        if is_kept:
            os.mkdir(f"{copy.room}/rattle-kept")
        process = subprocess.Popen([f"{copy.root}/timeline", "build"], cwd=copy.room, env=copy.around, stderr=subprocess.PIPE, text=True)
        ends = time.monotonic() + 60
        while not os.path.exists(f"{copy.room}/calls") and time.monotonic() < ends:
            time.sleep(0.05)
        process.send_signal(signal.SIGINT)
        _, said = process.communicate()
        assert process.returncode == 130 and told in said, said
        assert copy.calls() == ["ci sources "] and os.listdir(f"{copy.room}/tmp") == []
        os.remove(f"{copy.room}/calls")
        if is_kept:
            os.rmdir(f"{copy.room}/rattle-kept")


def test_only_a_record_says_that_a_program_is_proved(copy: Copy) -> None:
    """What the gate leaves has no record of its sources, however new it is; and a record is of one program."""
    def put(text: str) -> None:
        for name in NAMES:
            copy.write(f"crates/{name}/out/{name}", f'#!/bin/sh\necho "{text}: $*"\n')
            os.chmod(f"{copy.root}/crates/{name}/out/{name}", 0o755)

    put("of the gate")
    assert copy("sample", "2", "7").out == "checked: sample 2 7\n"
    assert copy("--version").out.count(": proved") == 0
    assert copy("build").status == 0 and copy("sample", "2", "7").out == "proved timeline: sample 2 7\n"
    path = f"{copy.root}/crates/timeline/out/timeline"
    found = os.stat(path)
    put("provef timeline")      # of the same size, and said to be of the same time
    os.utime(path, ns=(found.st_atime_ns, found.st_mtime_ns))
    assert (os.stat(path).st_size, os.stat(path).st_mtime_ns) == (found.st_size, found.st_mtime_ns)
    assert copy("sample", "2", "7").out == "checked: sample 2 7\n"
    assert copy("build").status == 0
    before = len(copy.calls())
    for name in NAMES:
        os.utime(f"{copy.root}/crates/{name}/out/{name}", (1, 1))
    assert copy("sample", "2", "7").out == "proved timeline: sample 2 7\n" and copy("build").err == "timeline: all three are proved already\n"
    assert len(copy.calls()) == before


def test_a_program_for_another_kind_of_processor_is_not_run(copy: Copy) -> None:
    copy("build")
    path = f"{copy.root}/crates/timeline/out/timeline.built"
    with open(path, encoding="utf-8") as file:
        lines = [it if not it.startswith("processor ") else "processor x86-64-v9\n" for it in file]
    with open(path, "w", encoding="utf-8") as file:
        file.writelines(lines)
    assert copy("sample", "2", "7").out == "checked: sample 2 7\n"


def test_a_terminal_is_told_each_time_which_program_runs(copy: Copy) -> None:
    copy("sample", "2", "7")
    copy("sample", "2", "7")
    ours, theirs = pty.openpty()
    subprocess.run([f"{copy.root}/timeline", "sample", "2", "7"], cwd=copy.room, env=copy.around, stdout=subprocess.DEVNULL, stderr=theirs,
                   stdin=subprocess.DEVNULL, check=False)
    assert b"checked as it runs; ./timeline build proves it" in os.read(ours, 1000)


def test_clean_leaves_the_programs_alone(copy: Copy) -> None:
    copy("build")
    copy("sample", "2", "7")
    copy.write("crates/low/out/rlib/low", "x" * 10_000_000)
    copy.write("out/checked/timeline-0123", "x" * 10)
    done = copy("clean")
    assert done.status == 0 and done.err.startswith("timeline: 9 MiB are free again")
    assert not os.path.exists(f"{copy.root}/crates/low/out") and not os.path.exists(f"{copy.root}/out/checked/timeline-0123")
    assert copy("sample", "2", "7").out == "proved timeline: sample 2 7\n"


@pytest.mark.parametrize("before", [(), ("--strict",), ("--explain",)])
def test_a_check_that_fails_ends_with_a_status_of_its_own(copy: Copy, before: tuple[str, ...]) -> None:
    os.mkdir(f"{copy.room}/given")
    copy.around["TIMELINE_PROGRAMS"] = f"{copy.room}/given"
    with open(f"{copy.room}/given/timeline", "w", encoding="utf-8") as file:
        file.write("#!/bin/sh\necho 'a @1 ok'\nkill -ILL $$\n")
    os.chmod(f"{copy.room}/given/timeline", 0o755)
    done = copy(*before, "run")
    assert (done.status, done.out) == (22, "a @1 ok\n") and "a check failed as the program ran" in done.err


def test_programs_that_are_named_are_run(copy: Copy) -> None:
    copy.around["TIMELINE_PROGRAMS"] = f"{copy.room}/nowhere"
    done = copy("sample", "2", "7")
    assert (done.status, done.out) == (125, "") and "nowhere/timeline is no program that can be run" in done.err
    assert copy.calls() == []


# The gate

def test_the_gate_tries_the_programs_that_it_has_proved(copy: Copy) -> None:
    """The proofs run once, then the tests over what they left, which all may run whatever the umask is; the first that fails
    ends it with its status."""
    with open(f"{ROOT}/.ci/run", encoding="utf-8") as file:
        copy.write(".ci/run", file.read())
    copy.write("timeline", '#!/bin/sh\necho "$*"\nfor it in "$TIMELINE_PROGRAMS" "$TIMELINE_PROGRAMS"/*; do stat -c %a "$it"; done\n'
               'for it in timeline timeline_log timeline_look; do "$TIMELINE_PROGRAMS/$it" 7; done\necho "$TIMELINE_PROGRAMS" >&2\nexit 3\n')
    os.chmod(f"{copy.root}/timeline", 0o755)

    def gate() -> subprocess.CompletedProcess[str]:
        return subprocess.run(["bash", f"{copy.root}/.ci/run"], cwd=copy.room, env=copy.around, capture_output=True, text=True,
                              stdin=subprocess.DEVNULL, umask=0o077, check=False)

    done = gate()
    assert done.returncode == 3 and copy.calls() == ["ci root "], done
    wanted = ["4 passed, 0 failed", "test", "755", "755", "755", "755", *(f"proved {it}: 7" for it in NAMES)]
    assert done.stdout.splitlines()[-len(wanted):] == wanted, done
    assert not os.path.exists(done.stderr.strip()), "what was copied is left"
    for name in ("low", *NAMES, "other"):
        shutil.rmtree(f"{copy.root}/crates/{name}/out", ignore_errors=True)
    with open(f"{copy.room}/calls.fails", "w"):
        pass
    done = gate()
    assert done.returncode == 1 and done.stdout.endswith("rt: timeline NOT PROVED\n") and done.stderr == "", done


# Installed

def test_an_installed_copy_needs_no_sources_and_no_kit(copy: Copy) -> None:
    copy("build")
    assert copy("install", f"{copy.room}/prefix").status == 0
    shutil.rmtree(copy.root)
    copy.has_no_kit()
    installed = f"{copy.room}/prefix/bin/timeline"
    done = subprocess.run([installed, "sample", "2", "7"], cwd=copy.room, env=copy.around, capture_output=True, text=True, check=False)
    assert (done.returncode, done.stdout, done.stderr) == (0, "proved timeline: sample 2 7\n", "")
    said = subprocess.run([installed, "--version"], cwd=copy.room, env=copy.around, capture_output=True, text=True, check=False)
    assert said.stdout.count(": proved") == 3
    page = f"{copy.room}/prefix/share/man/man1/timeline.1"
    with open(page, encoding="utf-8") as file:
        text = file.read()
    assert text.startswith('.TH TIMELINE 1 "" "proved') and "\n.SH EXIT STATUS\n.TP\n\\fB0\\fR\n" in text and "\\fBtimeline ask" in text


def test_only_what_is_proved_is_packaged_unless_it_is_wanted_so(copy: Copy) -> None:
    done = copy("package")
    assert (done.status, done.out) == (125, "") and "package --checked" in done.err, done
    done = copy("package", "--checked")
    assert done.status == 0 and done.out.startswith("timeline-checked-")
    copy("build")
    done = copy("package")
    assert done.status == 0 and done.out.startswith("timeline-proved-")
    os.mkdir(f"{copy.room}/other")
    subprocess.run(["tar", "-xzf", f"{copy.room}/{done.out.strip()}", "-C", f"{copy.room}/other"], check=True)
    command = f"{copy.room}/other/{done.out.strip()[:-7]}/bin/timeline"
    copy.has_no_kit()
    ran = subprocess.run([command, "sample", "2", "7"], cwd=copy.room, env=copy.around, capture_output=True, text=True, check=False)
    assert (ran.returncode, ran.stdout, ran.stderr) == (0, "proved timeline: sample 2 7\n", "")


# What is said of a proof

def test_the_time_of_a_proof_is_one_figure(copy: Copy) -> None:
    from timeline import building

    told = copy("build").err.splitlines()[0]
    assert told.endswith(f"all three take {building.PROOF_TIME} and {building.PROOF_ROOM} of disk")


@pytest.mark.parametrize("page", ("README.md", "docs/CONTRIBUTING.md", "python/src/timeline/help.txt"))
def test_pages_state_that_time_for_build(page: str) -> None:
    from timeline import building

    with open(f"{ROOT}/{page}", encoding="utf-8") as file:
        lines = [line for line in file if "./timeline build" in line and re.search(r"\bhours?\b|\bminutes?\b|[0-9]+ s\b", line)]
    assert lines, f"{page} does not say how long ./timeline build takes"
    for line in lines:
        stated = re.findall(r"(?:about )?(?:an|one|two|three|[0-9]+)(?: to (?:an|one|two|three|[0-9]+))? (?:hours?|minutes?)\b", line)
        assert stated == [building.PROOF_TIME], f"{page}: {line}"
