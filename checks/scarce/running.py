"""Runs of the program within limits, and rows of worked_rows as such runs."""

import pathlib
import resource
import subprocess
import sys
import tempfile

sys.path.insert(0, str(pathlib.Path(__file__).resolve().parents[1]))

import rows

# The system hands over no word that is longer.
LONGEST_WORD = 131_071


class Given:
    """A run's name, words and files; the files are bytes by their names."""

    def __init__(self, name, words, files):
        self.name, self.words, self.files = name, words, files


class Folder:
    """A folder with the files of a run."""

    def __init__(self, given):
        self.given = given

    def __enter__(self):
        self.folder = tempfile.TemporaryDirectory()
        for name, content in self.given.files.items():
            pathlib.Path(self.folder.name, name).write_bytes(content)
        return self

    def __exit__(self, *_):
        self.folder.cleanup()

    def run(self, program, limits=(), environment=None):
        """What the program gives within these limits, pairs of one of `resource` and its bytes: status, out and err."""

        def within():
            for limit, size in limits:
                resource.setrlimit(limit, (size, size))

        done = subprocess.run([program, *self.given.words], cwd=self.folder.name, capture_output=True, env=environment,
                              preexec_fn=within if limits else None)
        return done.returncode, done.stdout, done.stderr


def bytes_of(value):
    return value if isinstance(value, bytes) else value.encode()


def given_rows(is_wanted):
    """The rows of wanted names that can be run on real files, but those whose file a sweep cuts."""
    for _, row in rows.read_rows(rows.row_files()):
        if "fails" in row or "images" in row or " is cut to " in row["name"] or not is_wanted(row["name"]):
            continue
        words = [rows.content(word) for word in row["words"]]
        if all(len(word) <= LONGEST_WORD for word in words):
            yield Given(row["name"], [word.decode() for word in words], {name: rows.content(value) for name, value in row.get("files", {}).items()})
