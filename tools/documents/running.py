"""Runs the built program, and commands of pages in a copy of the repository's documents and examples."""

import json
import os
import shutil
import subprocess
import tempfile
from pathlib import Path

TOP = Path(__file__).resolve().parent.parent.parent
SECONDS = 600

# What plays `rt` in a command of a page: `rt try` and `rt run` run the built program, and the rest is
# handed to the kit's own `rt`.
STAND_IN = """#!/usr/bin/python3
import os, subprocess, sys
from pathlib import Path

program, real, words = os.environ["PROGRAM"], os.environ["REAL_RT"], sys.argv[1:]
if words[:1] not in (["try"], ["run"]):
    if not real:
        sys.exit("no rt here")
    os.execv(real, [real, *words])
flags, given = words[1:], []
if "--" in flags:
    flags, given = flags[: flags.index("--")], flags[flags.index("--") + 1 :]
if flags[:1] != ["--cases"]:
    sys.exit(subprocess.run([program, *given]).returncode)
wrong = 0
for case in sorted(Path(flags[1]).iterdir()):
    if not case.is_file() or case.suffix in (".stdout", ".args"):
        continue
    beside = [Path(f"{case}{end}") for end in (".args", ".stdout")]
    more = beside[0].read_text().split("\\n")[:-1] if beside[0].exists() else []
    with case.open("rb") as script:
        ran = subprocess.run([program, *given, *more], stdin=script, stdout=subprocess.PIPE,
                             stderr=subprocess.DEVNULL)
    if not beside[1].exists():
        print(f"== {case.name}", ran.stdout.decode(errors="replace"), sep="\\n", end="")
    elif ran.stdout != beside[1].read_bytes():
        wrong += 1
        print(f"{case.name}: the output is another")
sys.exit(4 if wrong else 0)
"""


class Program:
    """The built program."""

    def __init__(self, path):
        self.path = str(Path(path).resolve())
        self.played = {}

    def run(self, words, given=b"", **how):
        """Runs it, and gives its status and what it writes to both outputs."""
        how = {"input": given, "stdout": subprocess.PIPE, "stderr": subprocess.PIPE, **how}
        if "stdin" in how:
            del how["input"]
        try:
            ran = subprocess.run([self.path, *words], timeout=SECONDS, **how)
        except subprocess.TimeoutExpired:
            return None, b"no answer", b""
        return ran.returncode, ran.stdout or b"", ran.stderr or b""

    def report(self, script, word="run"):
        """What it writes of a script, which is a value of JSON."""
        text = json.dumps(script)
        if (word, text) not in self.played:
            status, said, _ = self.run([word], text.encode())
            self.played[word, text] = status, said.decode()
        return self.played[word, text]


class Copy:
    """A copy of what commands of pages name, with the program where `rt run` leaves it."""

    def __init__(self, program):
        self.folder = Path(tempfile.mkdtemp(prefix="documents-"))
        for name in ("docs", "examples", "tools"):
            shutil.copytree(TOP / name, self.folder / name)
        shutil.copy(TOP / "README.md", self.folder)
        # The script of one's own that the README plays.
        shutil.copy(TOP / "examples" / "gap.json", self.folder / "my_script.json")
        out = self.folder / "crates" / "replicator" / "out"
        out.mkdir(parents=True)
        shutil.copy(program.path, out / "replicator")
        (self.folder / "bin").mkdir()
        stand_in = self.folder / "bin" / "rt"
        stand_in.write_text(STAND_IN)
        stand_in.chmod(0o755)
        self.environment = {
            **os.environ,
            "PROGRAM": str(out / "replicator"),
            "REAL_RT": shutil.which("rt") or "",
            "PATH": f"{self.folder}/bin:{os.environ['PATH']}",
        }

    def run(self, command):
        """Runs a command as a page has it: in crates/replicator if its paths begin there."""
        at = self.folder
        if "../../" in command and not command.startswith("cd "):
            at = at / "crates" / "replicator"
        how = {"stdout": subprocess.PIPE, "stderr": subprocess.PIPE, "timeout": SECONDS}
        ran = subprocess.run(
            ["bash", "-ec", command], cwd=at, env=self.environment, stdin=subprocess.DEVNULL, **how
        )
        return ran.returncode, ran.stdout.decode(), ran.stderr.decode()

    def remove(self):
        shutil.rmtree(self.folder)
