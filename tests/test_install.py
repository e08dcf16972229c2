# SPDX-License-Identifier: Apache-2.0 OR MIT
"""The man page, the completions for bash, and bin/install."""

import argparse
import os
import re
import shutil
import subprocess
import tempfile
import unittest
from pathlib import Path

import support
from state_samples import tool

from clocktools.documents import table
from clocktools.program import program

HEADER = support.TOP / "c/clockboard.h"
MAN = support.TOP / "share/man/man1/clockboard.1"
CALLS = support.TOP / "share/man/man3/clockboard.3"
COMPLETIONS = support.TOP / "share/bash-completion/completions/clockboard"
RELEASED = support.TOP / "release/clockboard-x86_64-linux"


def help_of(*words: str) -> str:
    return subprocess.run([program(), *words, "--help"], capture_output=True, text=True, check=True).stdout


def jobs_of_state(words: argparse.ArgumentParser, job: tuple[str, ...] = ()) -> dict[tuple[str, ...], list[str]]:
    """The words that each job of tools/state takes: jobs below it and options, by the words of the job."""
    below = next((action.choices for action in words._actions if isinstance(action, argparse._SubParsersAction)), {})
    options = [option for action in words._actions for option in action.option_strings if option.startswith("--")]
    found = {job: sorted([*below, *options])}
    for name, parser in below.items():
        found |= jobs_of_state(parser, (*job, name))
    return found


def statuses_of(text: str) -> dict[str, str]:
    """The exit statuses of the help, each with its words."""
    rows = re.split(r"\n  (?=[0-9])", text[text.index("exit status:\n") :].split("\n\n")[0])[1:]
    return {row.split(" ")[0]: " ".join(row.split()[1:]).replace("'end'", "end") for row in rows}


class Manual(unittest.TestCase):
    def test_statuses(self) -> None:
        """The man page and the help have those of docs/FORMATS.md, and the same words for each."""
        found = re.findall(r"\.TP\n\.B ([0-9]+)\n(.*?)(?=\n\.TP|\n\.PP)", MAN.read_text(), re.DOTALL)
        told = {number: " ".join(text.replace(".B ", "").split()) for number, text in found}
        self.assertEqual(told, statuses_of(help_of()))
        self.assertEqual(set(told), {name for name in table("How a run ends") if name.isdecimal()})

    def test_jobs_of_state(self) -> None:
        """The man page has each job of clockboard-state, those of qemu and kvm one by one, and no other."""
        text = re.sub(r"\\f[A-Z]", "", MAN.read_text()).replace("\\-", "-")
        page = text[text.index(".SH SAVED STATES") : text.index(".SH TRACES")]
        told = {tuple(word.split()) for line in re.findall(r"^\.BI (.*)$", page, re.MULTILINE)
                for word in re.findall(r'"([a-z][a-z -]*) "', line) if not word.startswith("-")}
        jobs = jobs_of_state(tool().parser())
        self.assertEqual(told, {job for job in jobs if job and job not in (("from",), ("to",))})

    def test_layout(self) -> None:
        if not shutil.which("groff"):
            self.skipTest("no groff")
        for page in (MAN, *CALLS.parent.glob("*.3")):
            done = subprocess.run(["groff", "-man", "-Tascii", "-ww", "-z", page], capture_output=True, text=True, check=False)
            self.assertEqual((done.returncode, done.stderr), (0, ""), page.name)


class Pages(unittest.TestCase):
    """The man pages that bin/man-pages makes of the headers."""

    def checked(self, folder: Path) -> tuple[int, str]:
        done = subprocess.run([folder / "bin/man-pages", "--check"], capture_output=True, text=True, check=False)
        return done.returncode, done.stderr

    def test_current(self) -> None:
        self.assertEqual(self.checked(support.TOP), (0, ""))

    def test_what_it_finds(self) -> None:
        """A comment, a declaration or a call that the pages don't have, and a call without a page."""
        for old, new, said in (("Lets time pass up to", "Lets time go up to", "clockboard-access.3 isn't"),
                               ("uint16_t port", "uint32_t port", "clockboard-access.3 isn't"),
                               ("uint32_t clockboard_abi(void);", "uint32_t clockboard_abi(void);\nvoid clockboard_other(void);",
                                "clockboard_other is in 0 pages")):
            with tempfile.TemporaryDirectory() as folder:
                for name in ("bin", "c", "share"):
                    shutil.copytree(support.TOP / name, Path(folder) / name)
                header = Path(folder) / "c/clockboard.h"
                self.assertIn(old, header.read_text())
                header.write_text(header.read_text().replace(old, new, 1))
                status, wrong = self.checked(Path(folder))
                self.assertEqual(status, 1)
                self.assertIn(said, wrong)

    def test_include_lines(self) -> None:
        """A program with a page's include line alone has the calls that its page names."""
        if not shutil.which("cc"):
            self.skipTest("no cc")
        with tempfile.TemporaryDirectory() as folder:
            (Path(folder) / "clockboard").symlink_to(HEADER.parent)
            for page in CALLS.parent.glob("clockboard-*.3"):
                text = page.read_text()
                names = re.findall(r"clockboard_\w+", text[text.index(".SH NAME") : text.index(".SH SYNOPSIS")])
                includes = re.findall(r"^\.B (#include .*)$", text, re.MULTILINE)
                self.assertEqual((bool(names), len(includes)), (True, 1), page)
                code = "\n".join([*includes, "void *calls[] = {", *(f"(void *){name}," for name in names), "};"])
                done = subprocess.run(["cc", "-std=gnu11", "-w", f"-I{folder}", "-x", "c", "-c", "-o", "/dev/null", "-"], input=code,
                                      capture_output=True, text=True, check=False)
                self.assertEqual((done.returncode, done.stderr), (0, ""), page.name)


class Help(unittest.TestCase):
    def test_page_of_each_job(self) -> None:
        pages = {job: help_of(job) for job in ("replay", "race", "gen", "soak")}
        for job, page in pages.items():
            self.assertIn(f"usage: clockboard {job} ", page)
            self.assertTrue(page.startswith(f"clockboard {job}: "))
        for job in ("replay", "race"):
            self.assertIn("tools/explain TRACE", pages[job])
        self.assertIn("tools/explain TRACE", help_of())
        self.assertEqual(help_of("walk"), help_of())

    def test_example_of_replay(self) -> None:
        """The trace on the page of replay is one that the program answers."""
        lines = [line[2:] for line in help_of("replay").splitlines() if line.startswith("  ")]
        trace = "\n".join(lines[: lines.index("end") + 1]) + "\n"
        done = subprocess.run([program(), "replay"], input=trace, capture_output=True, text=True, check=False)
        self.assertEqual((done.returncode, done.stdout.splitlines()[-1]), (0, "final 5000 4 0 0"))


class Completions(unittest.TestCase):
    def complete(self, *words: str, command: str = "clockboard") -> list[str]:
        """The words that follow, by the function that the completions give the command."""
        script = ('. "$1"; shift; COMP_WORDS=("$@"); COMP_CWORD=$(($# - 1)); how="$(complete -p "${1##*/}")"; how="${how##*-F }"; "${how% *}"; '
                  'printf "%s\\n" "${COMPREPLY[@]}"')
        done = subprocess.run(["bash", "-c", script, "bash", COMPLETIONS, command, *words], capture_output=True,
                              text=True, check=True)
        return done.stdout.split()

    def test_words(self) -> None:
        self.assertEqual(self.complete(""), ["replay", "race", "gen", "soak", "--help", "--version"])
        self.assertEqual(self.complete("r"), ["replay", "race"])
        self.assertEqual(self.complete("replay", "--"), ["--state", "--help"])
        self.assertEqual(self.complete("gen", "--"), ["--help"])
        self.assertEqual(self.complete("replay", "<", "t"), [])

    def test_words_of_state(self) -> None:
        """Each job and option of tools/state, and no other, for clockboard-state and for the repository's bin/clockboard."""
        for job, words in jobs_of_state(tool().parser()).items():
            self.assertEqual(sorted(self.complete(*job, "", command="clockboard-state")), words, job)
            self.assertEqual(sorted(self.complete("state", *job, "", command=str(support.TOP / "bin/clockboard"))), words, job)

    def test_zsh_and_fish(self) -> None:
        """Their lists are those of bash, in its order."""
        share = support.TOP / "share"
        of_bash = [words.split() for words in re.findall(r'^.*\bwords\+?="([^"]*)"', COMPLETIONS.read_text(), re.MULTILINE)]
        of_zsh = re.findall(r"offered\+?=\(([^)]*)\)", (share / "zsh/site-functions/_clockboard").read_text())
        fish = (share / "fish/vendor_completions.d/clockboard.fish").read_text()
        of_fish = re.findall(r"^ *set (?:-l |-a )?words\b(.*)$", fish, re.MULTILINE)
        self.assertGreater(len(of_bash), 8)
        self.assertEqual([words.split() for words in of_zsh], of_bash)
        self.assertEqual([words.split() for words in of_fish], of_bash)
        for shell, path in (("zsh", share / "zsh/site-functions/_clockboard"), ("fish", share / "fish/vendor_completions.d/clockboard.fish")):
            if shutil.which(shell):
                done = subprocess.run([shell, "-n", path], capture_output=True, text=True, check=False)
                self.assertEqual((done.returncode, done.stderr), (0, ""), shell)

    def test_the_installed_program_has_no_job_state(self) -> None:
        self.assertIn("state", self.complete("", command=str(support.TOP / "bin/clockboard")))
        self.assertNotIn("state", self.complete(""))

    def test_each_is_a_word_of_the_program(self) -> None:
        for word in self.complete(""):
            done = subprocess.run([program(), word, *([] if word.startswith("--") else ["--help"])], capture_output=True,
                                  check=False)
            self.assertEqual(done.returncode, 0, word)


class Licence(unittest.TestCase):
    def test_each_script_and_source_names_it(self) -> None:
        """Each script, and each source of the library for C and Rust, has the line by which tools find the licence."""
        line = "SPDX-License-Identifier: Apache-2.0 OR MIT"
        sources = [path for folder in ("bin", "tools", "tests", "bench", "c", "rust") for path in (support.TOP / folder).rglob("*")
                   if path.is_file() and "target" not in path.parts and "__pycache__" not in path.parts]
        named = [path for path in sources
                 if path.suffix in (".py", ".c", ".h", ".cc", ".rs", ".sh") or path.read_bytes().startswith(b"#!")]
        self.assertGreater(len(named), 60)
        for path in [*named, support.TOP / "README.md", support.TOP / "rust/clockboard/Cargo.toml"]:
            text = path.read_text()
            self.assertTrue(line in text or 'license = "Apache-2.0 OR MIT"' in text, path)
        for name in ("LICENSE-APACHE", "LICENSE-MIT"):
            self.assertTrue((support.TOP / name).is_file())


class Install(unittest.TestCase):
    def test_installed(self) -> None:
        with tempfile.TemporaryDirectory() as folder:
            done = subprocess.run([support.TOP / "bin/install", "/opt/clock"], capture_output=True, text=True, check=False,
                                  env={**os.environ, "DESTDIR": folder})
            self.assertEqual((done.returncode, done.stderr), (0, ""))
            top = Path(folder) / "opt/clock"
            files = {str(path.relative_to(top)) for path in top.rglob("*") if path.is_file() or path.is_symlink()}
            self.assertEqual({str(path.relative_to(top)) for path in top.rglob("*") if path.is_symlink() and not path.exists()}, set())
            abi = re.search(r"^#define CLOCKBOARD_ABI (\d+)$", HEADER.read_text(), re.MULTILINE).group(1)
            tools = {path.name for path in support.TOOLS.iterdir() if path.is_file() and os.access(path, os.X_OK)}
            calls = re.findall(r"^(?:void|uint32_t|size_t|struct clockboard) (clockboard_\w+)\(", HEADER.read_text(), re.MULTILINE)
            self.assertLessEqual({
                "bin/clockboard", *(f"bin/clockboard-{tool}" for tool in tools), "lib/libclockboard.a",
                *({"lib/libclockboard.so", f"lib/libclockboard.so.{abi}"} if shutil.which("cc") else ()), "lib/pkgconfig/clockboard.pc",
                "lib/cmake/clockboard/clockboard-config-version.cmake", "lib/cmake/clockboard/clockboard-config.cmake",
                *(f"lib/clockboard/tools/{path.relative_to(support.TOOLS)}" for path in support.TOOLS.rglob("*.py")),
                *(f"include/clockboard/{path.name}" for path in HEADER.parent.glob("*.h") if path.name != "by_timers.h"),
                *(f"share/man/man3/{call}.3" for call in calls), *(f"share/man/man1/clockboard-{tool}.1" for tool in tools),
                *(f"share/doc/clockboard/{page}" for page in ("FORMATS.md", "C_LIBRARY.md", "LICENSE-MIT", "LICENSE-APACHE", "CHANGELOG.md")),
                *(f"share/doc/clockboard/examples/monitor/{path.name}" for path in (HEADER.parent / "monitor").iterdir()),
                "share/doc/clockboard/examples/demo.c", "share/doc/clockboard/examples/traces/boot.trace", "share/doc/clockboard/calls.html",
                *(f"share/clockboard/rust/clockboard/{name}" for name in ("Cargo.toml", "build.rs", "src/lib.rs")),
                "share/bash-completion/completions/clockboard-state", "share/zsh/site-functions/_clockboard",
                "share/fish/vendor_completions.d/clockboard.fish"}, files)
            listed = (top / "lib/clockboard/installed").read_text().splitlines()
            self.assertEqual({line.split()[1] for line in listed if line.startswith("file ")} | {"lib/clockboard/installed"}, files)
            for tool in tools:
                done = subprocess.run([top / f"bin/clockboard-{tool}", "--help"], capture_output=True, text=True, check=False)
                self.assertEqual((done.returncode, done.stderr), (0, ""), tool)
            version = subprocess.run([top / "bin/clockboard", "--version"], capture_output=True, text=True, check=True)
            self.assertTrue(version.stdout.startswith("clockboard "))
            self.assertIn(version.stdout.strip(), MAN.read_text())
            self.assertIn(f'#define CLOCKBOARD_VERSION "{version.stdout.split()[1]}"', HEADER.read_text())
            self.assertIn(version.stdout.strip(), CALLS.read_text())
            self.prints_a_state(top)

    def install(self, folder: str, *words: str, **env: str) -> subprocess.CompletedProcess[str]:
        return subprocess.run([support.TOP / "bin/install", *words], capture_output=True, text=True, check=False,
                              env={**os.environ, "DESTDIR": folder, **env})

    def test_uninstalled(self) -> None:
        """All that came goes, also after a second install and a run of the tools; what others put there stays."""
        with tempfile.TemporaryDirectory() as folder:
            top = Path(folder) / "opt/clock"
            (top / "lib").mkdir(parents=True)
            before = sorted(Path(folder).rglob("*"))
            for _ in range(2):
                self.assertEqual(self.install(folder, "/opt/clock").returncode, 0)
            subprocess.run([top / "bin/clockboard-state", "--help"], capture_output=True, check=True, env={
                name: value for name, value in os.environ.items() if name != "PYTHONDONTWRITEBYTECODE"})
            self.assertEqual(self.install(folder, "--uninstall", "/opt/clock").returncode, 0)
            self.assertEqual(sorted(Path(folder).rglob("*")), before)
            self.install(folder, "/opt/clock")
            (top / "share/man/man1/other.1").write_text("")
            self.install(folder, "--uninstall", "/opt/clock")
            self.assertEqual(sorted(path.name for path in top.rglob("*")), ["lib", "man", "man1", "other.1", "share"])
            done = self.install(folder, "--uninstall", "/opt/clock")
            self.assertEqual((done.returncode, "nothing of this is installed" in done.stderr), (1, True))

    def test_another_folder_of_libraries(self) -> None:
        with tempfile.TemporaryDirectory() as folder:
            self.assertEqual(self.install(folder, "/usr", CLOCKBOARD_LIBDIR="lib/x86_64-linux-gnu").returncode, 0)
            libraries = Path(folder) / "usr/lib/x86_64-linux-gnu"
            self.assertTrue((libraries / "libclockboard.a").is_file())
            self.assertIn("\nlibdir=${prefix}/lib/x86_64-linux-gnu\n", (libraries / "pkgconfig/clockboard.pc").read_text())
            config = (libraries / "cmake/clockboard/clockboard-config.cmake").read_text()
            up = re.search(r"CMAKE_CURRENT_LIST_DIR}/([./]+)\"", config).group(1)
            self.assertEqual((libraries / "cmake/clockboard" / up).resolve(), Path(folder).resolve() / "usr")
            self.assertNotIn("@", config)

    def prints_a_state(self, top: Path) -> None:
        """The installed tool finds its modules, and the installed program, by its link."""
        env = {name: value for name, value in os.environ.items() if name != "CLOCKBOARD"}
        blank = subprocess.run([top / "bin/clockboard", "replay", "--state"], input="clockboard 2\nbegin\nend\n", capture_output=True,
                               text=True, check=True).stdout
        done = subprocess.run([top / "bin/clockboard-state", "print", "-"], input=blank, capture_output=True, text=True, check=False,
                              env={**env, "PYTHONDONTWRITEBYTECODE": "1"})
        self.assertEqual((done.returncode, done.stdout.splitlines()[0]), (0, "format 2"), done.stderr)

    def test_calls_of_the_man_page(self) -> None:
        """The man page of the library has each call of the header and of shared.h but for the latter's own steps, and no other."""
        declared = re.findall(r"^(?:void|uint32_t) (clockboard_\w+)\((?:const )?struct", HEADER.read_text(), re.MULTILINE)
        shared = (HEADER.parent / "shared.h").read_text()
        inline = set(re.findall(r"^static inline \w+ (clockboard_\w+)\(", shared, re.MULTILINE))
        steps = {"clockboard_shared_words", "clockboard_shared_put", "clockboard_shared_publish", "clockboard_shared_raise",
                 "clockboard_try_words"}
        self.assertEqual(set(re.findall(r"^\.B (clockboard_\w+)\(", CALLS.read_text(), re.MULTILINE)),
                         set(declared) | inline - steps)
        self.assertLess(steps, inline)

    def test_numbers_of_the_man_page(self) -> None:
        """The two pages say the numbers of the header."""
        number = {name: re.search(rf"^#define CLOCKBOARD_{name} (\S+)", HEADER.read_text(), re.MULTILINE).group(1).strip('"')
                  for name in ("VERSION", "ABI", "FORMAT_MAX")}
        page = " ".join(CALLS.read_text().split())
        for words in (f"version {number['VERSION']}, with number {number['ABI']} of the interface",
                      f"libclockboard.so.{number['ABI']}", f"formats 1 to {number['FORMAT_MAX']} of"):
            self.assertIn(words, page)
        self.assertIn(f"This is version {number['VERSION']}. It takes formats 1 to {number['FORMAT_MAX']} of traces and saved states. "
                      f"The library for C of this version has number {number['ABI']} of the interface.", " ".join(MAN.read_text().split()))
        pages = {path.stem.replace("-", r"\-") for path in CALLS.parent.glob("clockboard-*.3")}
        self.assertEqual(pages, set(re.findall(r"^\.BR (\S+) \(3\)", CALLS.read_text(), re.MULTILINE)))

    def test_numbers_of_the_packages(self) -> None:
        """Debian's packages have the header's version, and the library's one the number of the interface in its name."""
        debian = support.TOP / "debian"
        number = re.search(r"^#define CLOCKBOARD_ABI (\d+)$", HEADER.read_text(), re.MULTILINE).group(1)
        version = re.search(r'^#define CLOCKBOARD_VERSION "(.*)"', HEADER.read_text(), re.MULTILINE).group(1)
        self.assertTrue((debian / "changelog").read_text().startswith(f"clockboard ({version}) "))
        self.assertIn(f"\nPackage: libclockboard{number}\n", (debian / "control").read_text())
        self.assertEqual({path.name for path in debian.glob("libclockboard[0-9]*")},
                         {f"libclockboard{number}.install", f"libclockboard{number}.symbols"})
        self.assertIn(f"libclockboard.so.{number} libclockboard{number} ", (debian / f"libclockboard{number}.symbols").read_text())
        self.assertIn(f'\nversion = "{version}"\n', (support.TOP / "rust/clockboard/Cargo.toml").read_text())

    def test_released_program_asks_for_no_loader(self) -> None:
        """ELF: of its program headers none is PT_INTERP (3)."""
        data = RELEASED.read_bytes()
        begin, size = int.from_bytes(data[32:40], "little"), int.from_bytes(data[54:56], "little")
        kinds = [int.from_bytes(data[at : at + 4], "little")
                 for at in range(begin, begin + size * int.from_bytes(data[56:58], "little"), size)]
        self.assertNotIn(3, kinds)
        self.assertIn(1, kinds)


if __name__ == "__main__":
    unittest.main()
