"""The built programs: which are there, of which sources, and where these come from. For the scripts of this folder.

There are two. The proved program was built by `rattle` or `rt`, which build only what is proved; it depends on the code, the
definitions and the proofs. The checked program was built by tools/build_checked, with checks at run time in the place of
proofs; it depends on the code alone. Each is kept in a folder that has the sum of these sources as its name:
out/proved/SUM/schedule_explorer and out/checked/SUM/schedule_explorer. So a program is never taken for that of other
sources, and is there again where a change is taken back. Who builds one has to see that the sum is still the same at the
end: a source may be edited while it is read. The tests of a crate are a program too, which tools/dev builds and keeps so.

(Each run of the program begins here, so what takes long to import is imported where it is used.)
"""
import hashlib
import os
from pathlib import Path

from crate_list import ROOT, below, listed

PROGRAM = "schedule_explorer"
# how many builds of one kind are kept
KEPT = 4
PACKAGES = "apt-get install erlang-base python3"


def say(text):
    """Says how far a build is, or why there is none."""
    import sys

    print(f"{PROGRAM}: {text}", file=sys.stderr, flush=True)


def report(what, text):
    """Says that something failed, with the end of a long text, and with the file that has all of it."""
    import sys
    import tempfile

    file, log = tempfile.mkstemp(prefix="kolzhavid-", suffix=".log")
    with open(file, "w", encoding="utf-8") as whole:
        whole.write(text)
    print(*text.splitlines()[-20:], sep="\n", file=sys.stderr)
    say(f"{what}; all that the kit said is in {log}")


class Kind:
    """A kind of program: the proved one, the checked one, or the tests of a crate."""

    def __init__(self, name, parts, crate=PROGRAM):
        self.folder, self.parts, self.crate = ROOT / "out" / name, parts, crate

    def sources(self):
        """The folders and files that the program is made of, from the root of the repository."""
        crates = listed()
        names = [*below([self.crate], crates), self.crate]
        return ["crates.txt", "HANDLES", *(f"crates/{name}/{part}" for name in names for part in self.parts)]

    def sum(self):
        """One sum for the names and the contents of these files."""
        made = hashlib.sha256()
        for path in self.sources():
            for name in files_below(str(ROOT / path)):
                with open(name, "rb") as file:
                    text = file.read()
                made.update(f"{os.path.relpath(name, ROOT)} {len(text)}\n".encode())
                made.update(text)
        return made.hexdigest()[:16]

    def place(self, sum_of_sources):
        """Where the program of sources with this sum is kept."""
        return self.folder / sum_of_sources / self.crate

    def present(self):
        """The program of the present sources; none where it was not built."""
        if not self.folder.is_dir():
            return None
        place = self.place(self.sum())
        return place if os.access(place, os.X_OK) else None

    def keep(self, program, sum_of_sources, kit):
        """Keeps a program that a kit built from sources with this sum, and the few that were kept before it."""
        import shutil

        place = self.place(sum_of_sources)
        place.parent.mkdir(parents=True, exist_ok=True)
        # another name first, so that nobody meets half of it
        new = place.with_name(f"{self.crate}.{os.getpid()}")
        shutil.copyfile(program, new)
        new.chmod(0o755)
        place.with_name("kit").write_text(name_of(kit) + "\n")
        os.replace(new, place)
        place.parent.touch()
        for old in sorted(self.folder.iterdir(), key=lambda it: -it.stat().st_mtime)[KEPT:]:
            shutil.rmtree(old, ignore_errors=True)
        return place


PROVED = Kind("proved", ("src", "specs", "proofs"))
CHECKED = Kind("checked", ("src",))


def proved():
    """The proved program of the present sources; where there is none, this process ends, and says how to get one."""
    import sys

    return PROVED.present() or sys.exit("there is no proved program of the present sources: tools/prove_program proves and builds it")


def files_below(path):
    """The file, or the files below the folder, in the order of their names."""
    if not os.path.isdir(path):
        return [path] if os.path.isfile(path) else []
    return sorted(os.path.join(folder, name) for folder, _, names in os.walk(path) for name in names)


def git(*words):
    """What git prints; none where it fails or is missing, or where the sources are in no repository of their own."""
    import subprocess

    try:
        ran = subprocess.run(["git", "-C", str(ROOT), *words], capture_output=True, text=True)
    except OSError:
        return None
    return ran.stdout.strip() if ran.returncode == 0 else None


def base():
    """The commit that the sources go back to, and whether it is known to be one of the project's main branch.

    Only what passed the merge gate is on that branch. A clone knows the branch as that of its remote.
    """
    if git("rev-parse", "--show-toplevel") != str(ROOT):
        return None, False
    main = git("for-each-ref", "--count=1", "--format=%(refname)", "refs/remotes/*/main")
    return (git("merge-base", "HEAD", main), True) if main else (git("rev-parse", "HEAD"), False)


def changed_since(commit):
    """The files of the proved program that are not as they are in a commit."""
    paths = PROVED.sources()
    told = git("diff", "--name-only", commit, "--", *paths), git("ls-files", "--others", "--exclude-standard", "--", *paths)
    return [name for names in told for name in (names or "").splitlines()]


def origin():
    """Which commit the sources are of, and whether that commit was proved, as two sentences."""
    commit, is_main = base()
    if commit is None:
        return "of no commit that is known here.", "not known here."
    name = git("show", "--no-patch", "--format=commit %h of %cs", commit)
    changed = changed_since(commit)
    if changed:
        more = f" and {len(changed) - 1} more" if len(changed) > 1 else ""
        return f"{name}, with changes.", f"NOT PROVED: {changed[0]}{more} differ from that commit."
    return f"{name}.", "the merge gate proved that commit." if is_main else "the merge gate proved that commit if it is on the project's main branch."


def version():
    """The lines of --version: of which sources the program is, and what was proved of them."""
    sources, proof = origin()
    program = PROVED.present() or CHECKED.present()
    if program is None:
        proof += " No program is built of these sources yet; the first run builds one without proving them again."
    elif program.is_relative_to(PROVED.folder):
        proof = "this program was proved here, from exactly these sources."
    else:
        proof += " This build did not prove it again, and has checks at run time in the place of proofs."
    lines = [f"{PROGRAM} of Kolzhavid", f"sources: {sources}", f"proof: {proof}"]
    kit = program and program.with_name("kit")
    return "\n".join([*lines, f"built with: {kit.read_text().strip()}"] if kit and kit.exists() else lines)


def kit_of(rt):
    """The folder of the kit that a command `rt` belongs to."""
    return Path(rt).resolve().parent.parent


def name_of(kit):
    """The kit's name, as `rt version` prints it."""
    import subprocess

    return subprocess.run([str(kit / "bin" / "rt"), "version"], capture_output=True, text=True).stdout.strip()
