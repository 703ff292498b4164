"""What tools/dev/command_tables.py writes on the pages, from the tables in the sources."""
from __future__ import annotations

import importlib.util
import pathlib
import subprocess
import sys
import types

import pytest

TOP = pathlib.Path(__file__).resolve().parents[2]
PATH = next((TOP / "tools").rglob("command_tables.py"))


def module() -> types.ModuleType:
    spec = importlib.util.spec_from_file_location("command_tables", PATH)
    assert spec is not None and spec.loader is not None
    made = importlib.util.module_from_spec(spec)
    sys.modules[spec.name] = made
    spec.loader.exec_module(made)
    return made


TABLES = module()

OPTIONS = """pub const OPTIONS: [OptionRow; 2] = [
    OptionRow {
        word: "--cut",
        shape: Shape::Times,
    },
    OptionRow {
        word: "--plain",
        shape: Shape::Flag,
    },
];
"""

COMMANDS = """pub const COMMANDS: [CommandRow; 1] = [
    // QUERY: the output of the query
    CommandRow {
        word: "run",
        form: Form::Run,
        required: &["--cut"],
        allowed: &["--plain"],
        takes_binds: true,
    },
];
"""


def sources(folder: pathlib.Path, monkeypatch: pytest.MonkeyPatch, options: str, commands: str) -> None:
    """Lets the tables be read from these texts."""
    (folder / "option_table.rt").write_text(options)
    (folder / "command_table.rt").write_text(commands)
    monkeypatch.setattr(TABLES, "sources", lambda: folder)


def test_the_pages_are_as_the_tables_say():
    done = subprocess.run([sys.executable, PATH, "--check"], capture_output=True, text=True)
    assert (done.returncode, done.stdout) == (0, "8 passed, 0 failed\n"), done.stdout + done.stderr


def test_a_command_is_its_file_its_binds_and_its_options(tmp_path, monkeypatch):
    sources(tmp_path, monkeypatch, OPTIONS, COMMANDS)
    found = TABLES.tables()
    assert TABLES.reference(found).splitlines()[2:] == [
        "| `run QUERY NAME=FILE .. --cut TIME,TIME,.. [--plain]` | the output of the query |",
        "| `try SEED N` | figures on a run over made rows |",
    ]
    assert TABLES.completed_words(found) == "run try"
    assert TABLES.completed_options(found) == '        run) COMPREPLY=($(compgen -W "--cut --plain" -- "$word")) ;;\n'


@pytest.mark.parametrize(
    "options, commands",
    [
        (OPTIONS.replace("--plain", "--plane"), COMMANDS),
        (OPTIONS.replace("; 2]", "; 3]"), COMMANDS),
        (OPTIONS, COMMANDS.replace("    // QUERY: the output of the query\n", "")),
        (OPTIONS, COMMANDS.replace("true", "yes")),
    ],
)
def test_other_tables_are_rejected(tmp_path, monkeypatch, options, commands):
    sources(tmp_path, monkeypatch, options, commands)
    with pytest.raises(TABLES.Unreadable):
        TABLES.tables()


def test_a_page_without_its_table_is_rejected():
    with pytest.raises(TABLES.Unreadable):
        TABLES.written("no table here\n", "docs/COMMANDS.md", TABLES.PLACES[0][1], "| command | prints |\n")
