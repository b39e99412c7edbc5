"""A small tree with the real bin/mark and tools/build, and a kit whose `rt` is the real one and
whose prover is not."""

import os
import shutil
import signal
import subprocess
import tempfile
import time
import unittest
from pathlib import Path

from tests.support import ROOT

signal.signal(signal.SIGINT, signal.default_int_handler)  # what is started takes it, even where the tests ignore it

REAL_RT = Path(shutil.which("rt") or "/opt/rattle/bin/rt").resolve()
CRATES = """# upper rests on two crates that need nothing of each other
left:
right:
upper: left right
mark: upper io
more: left
revosti: upper more
revosti_c staticlib: revosti
apart: revosti
"""
NAMES = ("left", "right", "upper", "mark", "more", "revosti", "revosti_c", "apart")

# Called as `rattle check|build --crate-name NAME FILE .. -o OUT`. It takes PACE seconds, tells when it begins and ends,
# refuses a crate that says "wrong" and breaks at the one that BREAKS names; a crate that was checked is compiled alone. The
# program's answer has the number that the file of `mark` has. What a library is depends on its definitions and on those that
# it rests on.
PROVER = r"""#!/bin/sh
for word; do [ "$word" != --help ] || exit 0; done
case $1 in check | build) ;; *) exit 0 ;; esac
kit=$(cd "$(dirname "$0")/.." && pwd)
for out; do :; done
case "$*" in
*--crate-checked*) echo "compile $3 $$" >>"$kit/calls" ;;
*)
    echo "begin $3 $$" >>"$kit/calls"
    sleep "${PACE:-0}"
    if grep -rq wrong src; then
        echo logic=not-proved
        exit 1
    fi
    if [ "${BREAKS:-}" = "$3" ]; then exit 137; fi
    ;;
esac
case $out in
*.o | *.a) cat "$4" >"$out" ;;
*)
    mkdir -p "$out" && cat "$4" specs/*.antt >"$out/lib" || exit 2
    printf '%s\n' "$@" | sed -n 's/^\([a-z]*\)=.*[.]rlib$/dep \1/p' >"$out/format"
    ;;
esac
echo "logic=proved functions=1 native=nat,char,string logic-built=trusted libraries-built=trusted statements=trusted"
case "$*" in *--crate-checked*) ;; *) echo "end $3 $$" >>"$kit/calls" ;; esac
"""

# rattle-link .. -o PROGRAM OBJECT ..
LINKER = r"""#!/bin/sh
while [ "$1" != -o ]; do shift; done
{
    echo '#!/bin/sh'
    echo 'if [ -z "$(cat | tr -d "\000")" ]; then echo "verdict 7 record 0 open 0"; exit; fi'
    echo "echo points 4 edges 6; echo struck 1 $(cat "$3"); echo verdict 0 record 0 open 6"
} >"$2"
chmod +x "$2"
"""

# The kit's clang under the name of wasm-ld: .. --export=NAME .. ARCHIVE -o MODULE; as llvm-nm it names nothing
WASM_LD = r"""#!/bin/sh
[ "$1" != -D ] || exit 0
for out; do :; done
printf '%s\n' "$@" | sed -n 's/^--export=//p' >"$out"
"""

# Runs a command that can write no file longer than so many bytes, as on a full disk: an error, and no signal.
LIMIT = """import os, resource, signal, sys
signal.signal(signal.SIGXFSZ, signal.SIG_IGN)
resource.setrlimit(resource.RLIMIT_FSIZE, (int(sys.argv[1]),) * 2)
os.execv(sys.argv[2], sys.argv[2:])"""


def eventually(test, seconds=20):
    """Waits until something holds."""
    end = time.monotonic() + seconds
    while not test():
        if time.monotonic() > end:
            raise AssertionError("it does not come about")
        time.sleep(0.01)


def alive(pid):
    """Whether a process runs."""
    try:
        return Path(f"/proc/{pid}/stat").read_text().rpartition(")")[2].split()[0] != "Z"
    except (FileNotFoundError, ProcessLookupError):
        return False


class Tree(unittest.TestCase):
    """A tree of eight crates of a line each: `mark` rests on three of them, `revosti_c` on five."""

    def setUp(self):
        self.holder = tempfile.mkdtemp()
        self.addCleanup(shutil.rmtree, self.holder)
        os.chmod(self.holder, 0o755)  # rt runs a program as nobody
        self.kit, self.root = Path(self.holder) / "kit", Path(self.holder) / "tree"
        for name in ("rt", "rtlib.py"):
            self.put(self.kit / "bin" / name, (REAL_RT.parent / name).read_text(encoding="utf-8"))
        self.put(self.kit / "bin/rattle", PROVER)
        self.put(self.kit / "bin/rattle-link", LINKER)
        self.put(self.kit / "toolchain/bin/clang", WASM_LD)
        for name in ("core", "std", "io"):
            self.put(self.kit / f"rlibs/{name}.rlib/format", f"{name}\n")
            (self.kit / f"rlibs/{name}.rlib/toolchain").mkdir()
        for name in ("logic_built", "c", "rattle/logic", "rattle/antt"):
            (self.kit / name).mkdir(parents=True)
        self.put(self.kit / "rattle/std/specs/Prelude.antt", "")
        for name in ("KIT-ID", "WHAT"):
            (self.kit / name).write_text("a kit for tests\n")
        self.calls_file = self.kit / "calls"
        self.calls_file.write_text("")
        self.put(self.root / "bin/mark", (ROOT / "bin/mark").read_text())
        self.put(self.root / "tools/build", (ROOT / "tools/build").read_text())
        self.change("crates.txt", CRATES)
        for name in NAMES:
            self.change(f"crates/{name}/src/{'main' if name == 'mark' else 'lib'}.rt", "2")
            self.change(f"crates/{name}/specs/Lib.antt", name)
        self.change("include/revosti.h", "uint64_t revosti_one(uint32_t n);\nstatic inline int revosti_two(int n) { return n; }\n")
        self.change("crates/mark/stdout", "verdict 7 record 0 open 0\n")

    def put(self, file, text):
        """An executable file."""
        file.parent.mkdir(parents=True, exist_ok=True)
        file.write_text(text)
        file.chmod(0o755)

    def change(self, file, text):
        """Writes a file of the tree."""
        file = self.root / file
        file.parent.mkdir(parents=True, exist_ok=True)
        file.write_text(text)

    def environment(self, **more):
        """The kit for tests comes first; two crates at a time."""
        return {**os.environ, "PATH": f"{self.kit / 'bin'}:{os.environ['PATH']}", "RT_JOBS": "2", **more}

    def start(self, *words, **more):
        """Starts a command of the tree, in a group of its own as a terminal does."""
        return subprocess.Popen([self.root / words[0], *words[1:]], stdin=subprocess.PIPE, stdout=subprocess.PIPE, stderr=subprocess.PIPE,
                                text=True, env=self.environment(**more), start_new_session=True)

    def end(self, started, data="sheet"):
        """Waits for it: status, output and what it told."""
        out, told = started.communicate(data, timeout=60)
        return started.returncode, out, told

    def run_it(self, *words, **more):
        """Starts a command and waits for it."""
        return self.end(self.start(*words, **more))

    def mark(self, *words, **more):
        """A call of bin/mark."""
        return self.run_it("bin/mark", *words, **more)

    def build(self, *words, **more):
        """A call of tools/build."""
        return self.run_it("tools/build", *words, **more)

    def calls(self):
        """What the prover has told: begin or end, a crate, a process."""
        return [line.split() for line in self.calls_file.read_text().splitlines()]

    def begun(self):
        """The crates that the prover has begun, in order."""
        return [name for what, name, _ in self.calls() if what == "begin"]

    def provers(self):
        """The provers that run."""
        return [pid for _, _, pid in self.calls() if alive(pid)]

    def proved_since(self, *words, **more):
        """The crates that a call proves, in order."""
        before = len(self.begun())
        status, _, told = self.run_it(*words, **more)
        self.assertEqual(status, 0, told)
        return self.begun()[before:]

    def progress(self, told, first, total, *names):
        """Progress is told, from the first number to the total, of these crates; two that are begun together come in
        either order."""
        lines = [line.split(": ") for line in told.splitlines()]
        self.assertEqual([place for place, _ in lines], [f"{place} of {total}" for place in range(first, first + len(names))])
        self.assertCountEqual([name for _, name in lines], names)

    @property
    def store(self):
        """Where rt keeps what it has proved, beside the kit."""
        return self.kit.parent / "rattle-kept"

    def kept(self):
        """The crates of which rt keeps a proof."""
        return {file.name.split("-")[1] for file in self.store.glob("proof-*")}

    def forget(self):
        """Has nothing built, and nothing proved."""
        for folder in (self.root / "target", self.store):
            shutil.rmtree(folder, ignore_errors=True)
        self.calls_file.write_text("")

    def signal(self, started, number, group=False):
        """Sends a signal to a process, or to its group as Ctrl-C does."""
        (os.killpg if group else os.kill)(started.pid, number)


ANSWER = "points 4 edges 6\nstruck 1 {}\nverdict 0 record 0 open 6\n"
SIGNALS = ((signal.SIGINT, True), (signal.SIGINT, False), (signal.SIGTERM, True), (signal.SIGTERM, False), (signal.SIGHUP, False))
