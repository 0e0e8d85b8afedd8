"""Tries edits of a crate: each on a copy of it, beside copies of the crates that it rests on, over what `rt check` proved in the checkout.

`rt` tells of a must-fail edit only what it met first, and keeps no more. So each is tried here once more, outside the checkout, and the check's own words are
handed back. What was tried is kept in the caller's cache folder, by a sum of all that the check read, as `rt ci` keeps what it passed."""
import concurrent.futures
import gzip
import hashlib
import os
import pathlib
import queue
import re
import shutil
import subprocess
import tempfile

PARTS = ("src", "specs", "proofs")
# what one check may take, in KiB
ROOM = 3 << 20


class Failed(Exception):
    pass


class Unproved(Exception):
    """Something has to be tried, and the crate that it is tried over is not proved yet."""


def contents(folder):
    """{path: text} of the files of a crate, or of a copy of it."""
    return {str(f.relative_to(folder)): f.read_text() for part in PARTS for f in (folder / part).rglob("*") if f.is_file()}


def listed(text):
    """{crate: its line} of crates.txt, and {crate: the crates of the repository that it rests on}, lowest first."""
    rows = {row.split(":")[0].split()[0]: row for row in (line.split("#")[0].strip() for line in text.split("\n")) if row}

    def below(crate, seen):
        for name in rows[crate].partition(":")[2].split():
            if name in rows and name not in seen:
                below(name, seen)
                seen.append(name)
        return seen

    return rows, {crate: below(crate, []) for crate in rows}


def kit():
    """What names the toolchain."""
    home = pathlib.Path(shutil.which("rt")).resolve().parent.parent
    files = [home / name for name in ("KIT-ID", "WHAT")]
    if all(f.is_file() for f in files):
        return "".join(f.read_text() for f in files)
    return subprocess.run(["rt", "version"], check=True, capture_output=True, text=True).stdout


def lanes():
    """How many checks run side by side: one for each processor, as far as memory goes."""
    found = re.search(r"MemAvailable:\s+(\d+)", pathlib.Path("/proc/meminfo").read_text())
    return max(1, min(len(os.sched_getaffinity(0)), int(found.group(1)) // ROOM if found else 1))


class Store:
    """What was tried on this machine, by the sum of what it was tried on. Without a folder nothing is kept."""

    def __init__(self, anew=False):
        top = os.environ.get("XDG_CACHE_HOME") or (os.environ.get("HOME") and os.environ["HOME"] + "/.cache")
        self.at, self.anew = top and pathlib.Path(top) / "imasulvan/refused", anew

    def get(self, key):
        try:
            return None if self.anew or not self.at else gzip.decompress((self.at / key).read_bytes()).decode()
        except (OSError, EOFError):
            return None

    def put(self, key, text):
        try:
            self.at.mkdir(parents=True, exist_ok=True)
            part = self.at / f"{key}.{os.getpid()}"
            part.write_bytes(gzip.compress(text.encode()))
            part.replace(self.at / key)
        except (OSError, AttributeError):
            pass  # it is tried again another time


class Tries:
    """The crates of a checkout, which are proved there, and copied to folders apart, once something has to be tried."""

    def __init__(self, top, store, jobs=None, say=lambda line: None):
        self.top, self.store, self.jobs, self.say = top, store, jobs or lanes(), say
        self.rows, self.below = listed((top / "crates.txt").read_text())
        self.kit = kit()
        self.files, self.sums, self.proved = {}, {}, set()
        self.room, self.free = None, queue.SimpleQueue()

    def __enter__(self):
        return self

    def __exit__(self, *_):
        if self.room:
            shutil.rmtree(self.room, ignore_errors=True)

    def crate(self, name):
        """The files of a crate as it stands."""
        if name not in self.files:
            self.files[name] = contents(self.top / "crates" / name)
        return self.files[name]

    def key(self, name, files, what):
        """A sum of all that a check of a crate with these files reads, and of what is asked of it."""
        if name not in self.sums:
            lower = [(crate, self.rows[crate], sorted(self.crate(crate).items())) for crate in sorted(self.below[name])]
            self.sums[name] = hashlib.sha256(repr((self.kit, self.rows[name], lower)).encode()).hexdigest()
        return hashlib.sha256(repr((self.sums[name], sorted(files.items()), what)).encode()).hexdigest()

    def prove(self, crates):
        """Proves what the checkout has, as far as its own checks have not, and copies these crates and those that they rest on; a Failed where one does not prove."""
        self.say("proving the crates, over which the edits are tried")
        ran = rt(self.top, "all", "check", "--jobs", str(self.jobs))
        told = dict(re.findall(r"^(\w+): (ok|failed \(\d+\)|not run.*)$", ran.stdout, re.M))
        every = [name for name in self.rows if any(name == crate or name in self.below[crate] for crate in crates)]
        failed = [name for name in every if told.get(name) != "ok"]
        if failed:
            raise Failed(f"as they stand these do not prove: {' '.join(failed)}" if told else ran.stdout.strip()[-400:])
        self.room = pathlib.Path(tempfile.mkdtemp(prefix="refused-"))
        for number in range(self.jobs):
            lane = self.room / f"lane{number}"
            (lane / ".git").mkdir(parents=True)  # the top of a repository
            (lane / "crates.txt").write_text("".join(self.rows[name] + "\n" for name in every))
            for name in every:
                self.copy(name, lane)
            self.free.put(lane)
        self.proved = set(crates)

    def copy(self, name, lane):
        """Copies what a check of a crate reads."""
        for part in (*PARTS, "out/incremental", "out/rlib"):
            if (self.top / "crates" / name / part).is_dir():
                shutil.copytree(self.top / "crates" / name / part, lane / "crates" / name / part, copy_function=linked)

    def run(self, name, files, words, outcome):
        """What `rt check` says of a crate with these files, in a lane of its own; the crate is there as it stands before and after."""
        if name not in self.proved:
            raise Unproved(name)
        lane = self.free.get()
        crate = lane / "crates" / name
        try:
            for path in {*files, *self.crate(name)}:
                if files.get(path) != self.crate(name).get(path):
                    (crate / path).unlink(missing_ok=True)
                    if path in files:
                        (crate / path).parent.mkdir(parents=True, exist_ok=True)
                        (crate / path).write_text(files[path])
            return outcome(rt(crate, "check", "--jobs", "1", *words).stdout, crate)
        finally:
            shutil.rmtree(crate)
            self.copy(name, lane)
            self.free.put(lane)

    def log(self, name, files, functions=()):
        """The log of a check of a crate with these files, that ended with a verdict; with functions, of these alone and what they call."""
        only = [word for function in sorted(functions) for word in ("--only", function.partition("::")[2])]
        key = self.key(name, files, ("log", *only))
        said = self.store.get(key)
        if said is None:
            said = self.run(name, files, only, lambda said, crate: said.replace(str(crate) + "/", ""))
            if not re.search(rf"^crate {name}: modules .*\n(?:logic|only)=", said, re.M):
                raise Failed(f"the check of {name} ended without a verdict: {said.strip()[-300:]}")
            self.store.put(key, said)
        return said

    def stated(self, name, files, functions):
        """{function: the names of the places and goals that rattle makes of it, in the order of its code}."""
        key = self.key(name, files, ("named", sorted(functions)))
        said = self.store.get(key)
        if said is None:
            words = [word for function in sorted(functions) for word in ("--start", function.partition("::")[2])]

            def outcome(_, crate):
                made = {function: crate / f"out/generated/Rattle-{name}-proofs" / "/".join(function.split("::")[1:]) for function in functions}
                return "\n".join(" ".join([function, *named(folder)]) for function, folder in sorted(made.items()) if (folder / "Lts/View.antt").is_file())

            said = self.run(name, files, [*words, "--generated", "out/generated"], outcome)
            if len(said.split("\n")) == len(functions):
                self.store.put(key, said)
        return {line.split()[0]: line.split()[1:] for line in said.split("\n") if line}

    def side_by_side(self, call, things):
        with concurrent.futures.ThreadPoolExecutor(self.jobs) as pool:
            return list(pool.map(call, things))


def named(folder):
    """The places and then the goals of a function, in the order of its code, by the modules that rattle makes of it."""
    places = re.findall(r"^ *pub record In-(\S+) :", (folder / "Lts/View.antt").read_text(), re.M)
    offered = folder / "AnswersOffered.antt"
    return places + (re.findall(r"^pub (\S+) : goal\.", offered.read_text(), re.M) if offered.is_file() else [])


def linked(one, other):
    """Copies a file; what was proved is one file with the copy, where that can be, since a check replaces such a file and never writes into it."""
    try:
        if one.endswith(".oantt") or "/out/rlib/" in one:
            return os.link(one, other)
    except OSError:
        pass
    return shutil.copy2(one, other)


def rt(folder, *words):
    unset = {key: value for key, value in os.environ.items() if not key.startswith("RT_")}
    how = {"cwd": folder, "env": unset, "stdin": subprocess.DEVNULL, "stdout": subprocess.PIPE, "stderr": subprocess.STDOUT, "errors": "replace", "text": True}
    return subprocess.run(["rt", *words], **how)
