"""The manual of the programs: each page is well formed, what it shows happens, and it names each
command, option and key that there is. And the completion for bash, in a bash."""

import configparser
import os
import re
import shlex
import shutil
import subprocess

import pytest
from bigvasta.cli import parser
from bigvasta.connection import Connection
from fakes import Fake
from hosts import Host
from installed import CLIENT
from linux_kit import ROOT
from made_status import guest, status as status_of
from waiting import PATIENCE, patience_from_now

MAN = os.path.join(ROOT, "docs", "man")
SIZES = ("keep", "lowest_budget", "overdraft", "least", "overhead")
PAGES = ("bigvasta.1", "bigvasta-host.conf.5", "vhost_user_host.1", "vhost_user_balloon.1")


def page(name):
    """Returns a page's source."""
    with open(f"{MAN}/{name}", encoding="utf-8") as file:
        return file.read()


def plain(text):
    """Returns a line of a page as it is shown."""
    return text.replace("\\-", "-").replace("\\&", "")


@pytest.mark.parametrize("name", PAGES)
def test_pages_are_well_formed(name):
    if not shutil.which("man"):
        pytest.skip("man isn't there: apt-get install man-db")
    words = ["man", "--warnings", "-E", "UTF-8", "-l", "-Tutf8", "-Z", f"{MAN}/{name}"]
    ran = subprocess.run(
        words,
        capture_output=True,
        text=True,
        timeout=PATIENCE,
        env={**os.environ, "MANROFFSEQ": "", "MANWIDTH": "80", "LC_ALL": "C.UTF-8"},
    )
    assert (ran.returncode, ran.stderr) == (0, "")


@pytest.mark.parametrize("name", ("bigvasta-host.conf.5", "vhost_user_host.1"))
def test_the_period_has_the_bounds_that_its_page_says(program, folder, name):
    least, most = re.search(r"(?s)\n\.B\S* \S*period\b.*?from (\d+) to (\d+)", page(name)).groups()
    for period, status in (
        (int(least) - 1, 2),
        (int(least), 0),
        (int(most), 0),
        (int(most) + 1, 2),
    ):
        (folder / "host.conf").write_text(f"[host]\nperiod = {period}\n")
        words = (
            ["--period", str(period)]
            if name.endswith(".1")
            else ["--config", f"{folder}/host.conf"]
        )
        ran = subprocess.run(
            [program, str(folder), "--budget", "480", *words],
            input="quit\n",
            capture_output=True,
            text=True,
            timeout=PATIENCE,
        )
        assert ran.returncode == status, (period, ran)


def examples(name):
    """Yields the commands that a page shows, and the lines that each prints."""
    for block in re.findall(r"(?s)\n\.EX\n(.*?)\.EE\n", page(name)):
        for part in re.split(r"(?m)^\$ ", plain(block))[1:]:
            command, *lines = part.splitlines()
            yield shlex.split(command), lines


def test_what_the_page_of_the_client_shows(program, folder, tmp_path):
    """Of a host with a folder for what is changed, as the package has it."""
    host = Host(program, folder, str(folder), "--budget", "480", "--state", str(tmp_path))
    assert host.lines.next(patience_from_now()) == "ready"
    shown = list(examples("bigvasta.1"))
    assert len(shown) >= 5
    for (program, *words), lines in shown:
        assert program == "bigvasta"
        ran = subprocess.run(
            ["/usr/bin/python3", "-B", "-m", "bigvasta", *words],
            capture_output=True,
            text=True,
            timeout=PATIENCE,
            env={**os.environ, "PYTHONPATH": CLIENT, "BIGVASTA_CONTROL": host.control},
        )
        assert (ran.returncode, ran.stderr) == (0, ""), (words, ran)
        assert ran.stdout.replace(str(folder), "/run/bigvasta").splitlines() == lines, words
    assert host.end() == 0


def test_what_the_page_of_the_host_shows(program, folder):
    (((name, *words), lines),) = examples("vhost_user_host.1")
    assert name == "vhost_user_host"
    said = [it.replace("/run/bigvasta", str(folder)) for it in words]
    host = Host(program, folder, *said)
    assert [host.lines.next(patience_from_now()) for _ in lines] == lines
    assert host.end() == 0


def test_what_the_page_of_the_backend_shows(program):
    (((name, *words), lines),) = examples("vhost_user_balloon.1")
    ran = subprocess.run(
        [os.path.join(os.path.dirname(program), name), *words],
        capture_output=True,
        text=True,
        timeout=PATIENCE,
    )
    assert (ran.returncode, ran.stderr, ran.stdout.splitlines()) == (0, "", lines)


def test_what_the_page_of_the_configuration_shows(program, folder):
    (block,) = re.findall(r"(?s)\n\.EX\n(.*?)\.EE\n", page("bigvasta-host.conf.5"))
    (folder / "host.conf").write_text(plain(block).replace("/run/bigvasta", str(folder)))
    host = Host(program, folder, "--config", f"{folder}/host.conf")
    assert host.lines.next(patience_from_now()) == "ready"
    assert [it["name"] for it in host.ask("status")["guests"]] == ["web-1"]
    assert host.end() == 0


def subcommands():
    """Returns what has the subcommands in the program's parser."""
    return next(it for it in parser()._actions if it.dest == "==SUPPRESS==" or it.choices)


def commands():
    """Returns the subcommands' parsers by their names."""
    return subcommands().choices


def test_each_command_has_some_words_in_the_list_and_sentences_of_its_own():
    listed = {it.dest: it.help for it in subcommands()._choices_actions}
    assert listed.keys() == commands().keys()
    for name, command in commands().items():
        about, said = listed[name], command.description
        assert about[0].islower() and not about.endswith("."), about
        assert said[0].isupper() and said.endswith("."), said


def test_the_page_of_the_client_names_each_command_and_option():
    text = plain(page("bigvasta.1"))
    for name, command in commands().items():
        assert re.search(rf"(?m)^\.B[RI]? .*\b{name}\b", text), name
        for action in command._actions:
            for option in action.option_strings:
                assert option in text or option in ("-h", "--help", "--follow"), (name, option)


def fields(answer):
    """Yields the fields of an answer, those of its parts among them."""
    if isinstance(answer, dict):
        yield from answer
    parts = answer.values() if isinstance(answer, dict) else answer
    for it in parts if isinstance(answer, (dict, list)) else ():
        yield from fields(it)


def test_the_page_of_the_protocol_names_each_field(host, arrive):
    arrive("web-1")
    told = [host.ask(it) for it in ("status", "log", "changes")]
    with open(f"{ROOT}/docs/CONTROL.md", encoding="utf-8") as file:
        named = re.findall(r"`(\w+)`", file.read())
    assert set(fields(told)) - {"ok", *named} == set()


def test_the_page_of_the_configuration_names_each_key():
    with open(f"{ROOT}/monitor/backends/settings/config_keys.c", encoding="utf-8") as file:
        keys = re.findall(r'\{"(\w+)", "(\w+)", WORD_', file.read())
    sections = dict(
        re.findall(r"(?ms)^\.SH \[(\w+)[^\]]*\]\n(.*?)(?=^\.SH)", page("bigvasta-host.conf.5"))
    )
    assert len(keys) == 30
    for section, key in keys:
        assert f"\n.B {key}\n" in "\n" + sections[section], (section, key)
    assert sum(it.count("\n.B ") + it.startswith(".B ") for it in sections.values()) == len(keys)


def defaults():
    """Yields each key of the configuration with what its page says that holds without it."""
    sections = re.findall(
        r"(?ms)^\.SH \[(\w+)[^\]]*\]\n(.*?)(?=^\.SH)", page("bigvasta-host.conf.5")
    )
    for section, text in sections:
        for key, words in re.findall(r"(?ms)^\.B (\w+)\n(.*?)(?=^\.TP|\Z)", text):
            found = re.search(r"\((\w+)\)", words)
            if found and f".B {found[1]}\n" not in text:  # what another key says
                yield (section, key), found[1]


def test_what_is_not_said_is_as_the_page_of_the_configuration_has_it(program, folder):
    words = [program, str(folder), "--budget", "480"]
    with subprocess.Popen(words, stdin=subprocess.PIPE, stdout=subprocess.PIPE, text=True) as it:
        assert it.stdout.readline() == "ready\n"
        with Connection(f"{folder}/.control") as control:
            control.ask("add", name="a")
            text = control.ask("config")["config"]
        it.communicate("quit\n", timeout=PATIENCE)
    said = configparser.ConfigParser()
    said.read_string(text.replace("[guest a]", "[guest]"))
    wanted = {it: "0K" if it[1] in SIZES and value == "0" else value for it, value in defaults()}
    found = {(section, key): said[section].get(key, "none") for section, key in wanted}
    assert found == wanted and len(wanted) == 16, wanted


# What is typed, and what it may become.
COMPLETIONS = (
    (
        ["bigvasta", ""],
        {
            "status",
            "guest",
            "add",
            "remove",
            "budget",
            "floor",
            "config",
            "log",
            "watch",
            "serve",
            "metrics",
            "fleet",
            "reload",
            "upgrade",
            "plan",
            "--help",
            "--version",
        },
    ),
    (["bigvasta", "st"], {"status"}),
    (["bigvasta", "guest", ""], {"web-1", "web-2"}),
    (["bigvasta", "remove", "--control", "{control}", "web-1"], set()),
    (["bigvasta", "guest", "web-1", "l"], {"least=", "limit="}),
    (["bigvasta", "guest", "web-1", "t"], {"target="}),
    (["bigvasta", "add", "web-3", "t"], set()),
    (["bigvasta", "add", "web-3", "m"], {"memory=", "most="}),
    (["bigvasta", "log", "--s"], {"--since"}),
    (["bigvasta", "upgrade", "--"], {"--control", "--json", "--help"}),
    (["bigvasta", "plan", "--s"], {"--scheduler", "--seed", "--steps"}),
    (["bigvasta", "serve", "--"], {"--control", "--help", "--listen"}),
    (["bigvasta", "fleet", "--"], {"--fits", "--library", "--json", "--help"}),
    (["bigvasta", "status", "--"], {"--control", "--json", "--help", "--names"}),
)


def complete(folder, control, words):
    """Returns what these words, typed in a bash, may become beside the host at this socket."""
    program = folder / "bigvasta"
    program.write_text(
        f'#!/bin/sh\nPYTHONPATH={CLIENT} exec /usr/bin/python3 -B -m bigvasta "$@"\n'
    )
    program.chmod(0o755)
    text = (
        f". {ROOT}/packaging/bash-completion/bigvasta; "
        f"COMP_WORDS=({' '.join(map(shlex.quote, words))}); COMP_CWORD={len(words) - 1}; "
        "_bigvasta 2> /dev/null; printf '%s\\n' \"${COMPREPLY[@]}\""
    )
    environment = {
        **os.environ,
        "PATH": f"{folder}:{os.environ['PATH']}",
        "BIGVASTA_CONTROL": control,
    }
    ran = subprocess.run(
        ["bash", "-c", text], capture_output=True, text=True, timeout=PATIENCE, env=environment
    )
    return set(ran.stdout.split())


def test_completion_in_bash(host, folder):
    for name in ("web-1", "web-2"):
        host.ask("add", name=name)
    for words, wanted in COMPLETIONS:
        words = [it.format(control=host.control) for it in words]
        assert complete(folder, host.control, words) == wanted, words


def test_completion_runs_nothing_of_what_a_host_says(folder):
    its = status_of([guest(it, memory=1) for it in ("a", f"$(touch${{IFS}}{folder}/ran)", "b c")])
    host = Fake(folder, lambda asked: (its,))
    assert complete(folder, host.path, ["bigvasta", "guest", ""]) == {"a"}
    assert not (folder / "ran").exists()
    host.close()


def test_the_completion_knows_each_command():
    with open(f"{ROOT}/packaging/bash-completion/bigvasta", encoding="utf-8") as file:
        listed = re.search(r'"" \) ?options="([^"]*)"|""\) options="([^"]*)"', file.read())
    assert set((listed[1] or listed[2]).split()) - {"--help", "--version"} == set(commands())
