"""The scenarios of tests/replay: a folder each, with its `words` and its `purpose`.

The words say line by line what happens and what the daemon has to output (docs/SCRIPTS.md). The script that is played, and the output that is
expected of it, are made of them here. Ten folders keep both, byte by byte, as `script` and `expected`: tests/test_script_tool.py compares them.
`status` is there where the script does not end with status 0.
"""
import functools
import pathlib
import sys

top = pathlib.Path(__file__).resolve().parent.parent
sys.path.insert(0, str(top / "tools"))
import script


class Scenario:
    """One scenario: its name, its words, and what is made of them."""

    def __init__(self, folder):
        self.name, self.path = folder.name, folder / "words"
        self.words = self.path.read_bytes()
        self.status = int((folder / "status").read_text()) if (folder / "status").exists() else 0

    @functools.cached_property
    def script(self):
        """The script that the words say."""
        return script.write(self.words)

    @functools.cached_property
    def expected(self):
        """The output that the words say."""
        return script.answers(self.words)

    @functools.cached_property
    def steps(self):
        """Each line of the script with the lines that it has to output."""
        return script.steps_of(self.words)[1:]


def scenario(name):
    return Scenario(top / "tests" / "replay" / name)


def scenarios():
    """All of them, by name."""
    return [Scenario(path) for path in sorted((top / "tests" / "replay").iterdir()) if path.is_dir()]
