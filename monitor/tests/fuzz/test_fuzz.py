"""Coverage-guided fuzzing of a guest's process (fuzz_guest.c) and of a lender (fuzz_lender.c), by
clang's libFuzzer with the checks of addresses and of undefined behaviour. Each begins with the
inputs of its corpus, and has its seconds of the processor, however busy that is. In the end a table
says which part of the branches of each file all inputs have taken together; of those with a star
they have to take 90 in 100."""

import base64
import json
import os
import signal
import subprocess
import time

import linux_kit
import pytest

HERE = os.path.dirname(__file__)
BACKENDS = os.path.join(linux_kit.MONITOR, "backends")

# Per cent of the branches that have to be taken, bytes of an input, and seconds between two looks
# at what a fuzzer has had of the processor.
LEAST, MOST_INPUT, LOOK = 90, 400, 0.5

# What a fuzzer says of its run: the seed, and its numbers.
NUMBERS = ("INFO: Seed", "stat::number", "stat::new")

# Of each fuzzer (monitor/Makefile says what it is made of), the files whose branches count.
FUZZERS = {
    "guest": (
        "vhost/messages",
        "vhost/slots",
        "balloon/rings",
        "vhost/ring_messages",
        "vhost/inbox",
        "process/marks",
        "process/lent_channel",
        "vhost/features",
        "vhost/migration",
        "balloon/dirty_log",
        "balloon/transfer",
        "balloon/moved",
        "vhost/control_area",
    ),
    "lender": (
        "lender/asks",
        "lender/places",
        "lender/reports",
        "channel/message",
        "lender/orders",
        "lender/policy",
        "lender/pressure",
        "lender/rest",
    ),
}


def corpus_of(name):
    """Returns the file of a fuzzer's corpus: an input a line."""
    return os.path.join(HERE, f"{name}.corpus")


# How programs are run here.
HOW = {
    "stdin": subprocess.DEVNULL,
    "stdout": subprocess.PIPE,
    "stderr": subprocess.STDOUT,
    "text": True,
    "errors": "replace",
}


def good(words, status, said):
    """Returns what a program said. A status that isn't 0 is a fault."""
    assert status == 0, f"{words[0]} ends with status {status}:\n{said[-4000:]}"
    return said


def run(*words, **how):
    """Runs a program; returns what it said."""
    ran = subprocess.run(words, **HOW, **how)
    return good(words, ran.returncode, ran.stdout)


def seconds_of(process):
    """Returns the seconds that a process has had of the processor."""
    with open(f"/proc/{process}/stat", encoding="utf-8") as file:
        user, system = file.read().rpartition(")")[2].split()[11:13]
    return (int(user) + int(system)) / os.sysconf("SC_CLK_TCK")


def fuzz(seconds, log, *words):
    """Runs a fuzzer for its seconds of the processor, and then has it end; returns what it said."""
    with open(log, "w+", encoding="utf-8", errors="replace") as file:
        with subprocess.Popen(words, **{**HOW, "stdout": file}) as fuzzer:
            while fuzzer.poll() is None and seconds_of(fuzzer.pid) < seconds:
                time.sleep(LOOK)
            fuzzer.send_signal(signal.SIGUSR1)
            status = fuzzer.wait()
        file.seek(0)
        return good(words, status, file.read())


def unpack(name, folder):
    """Makes a folder of a corpus, a file for each input."""
    os.makedirs(folder)
    with open(corpus_of(name), "rb") as lines:
        for number, line in enumerate(lines):
            with open(os.path.join(folder, str(number)), "wb") as file:
                file.write(base64.b64decode(line))


def keep(name, folder):
    """Writes a folder's inputs into the corpus."""
    inputs = []
    for it in os.listdir(folder):
        with open(os.path.join(folder, it), "rb") as file:
            inputs.append(file.read())
    with open(corpus_of(name), "wb") as lines:
        lines.writelines(base64.b64encode(it) + b"\n" for it in sorted(inputs))


def branches(program, folder, corpus):
    """Returns for each file of the backends how many branches it has, and how many the inputs of a
    corpus take."""
    profile = os.path.join(folder, "profile")
    run(
        program,
        "-runs=0",
        "-handle_bus=0",
        corpus,
        env={**os.environ, "LLVM_PROFILE_FILE": f"{profile}.raw"},
    )
    run(linux_kit.need("llvm-profdata", "llvm"), "merge", "-o", profile, f"{profile}.raw")
    said = json.loads(
        run(
            linux_kit.need("llvm-cov", "llvm"),
            "export",
            "-summary-only",
            f"-instr-profile={profile}",
            program,
        )
    )
    found = {
        os.path.relpath(it["filename"], BACKENDS)[:-2]: it["summary"]["branches"]
        for it in said["data"][0]["files"]
        if it["filename"].endswith(".c")
    }
    return {
        name: (its["count"], its["covered"])
        for name, its in found.items()
        if its["count"] > 0 and not name.startswith("..")
    }


def check_branches(name, taken):
    """Prints which part of the branches was taken, and demands most of them of the files that
    count."""
    counts, missing = FUZZERS[name], []
    for it, (count, covered) in sorted(taken.items()):
        share = 100 * covered / count
        print(f"{it:<24}{count:>6} branches {share:>6.1f}%{' *' if it in counts else ''}")
        if it in counts and share < LEAST:
            missing.append(it)
    assert not missing, f"of these files fewer than {LEAST}% of the branches are taken: {missing}"


@pytest.mark.timeout(7200)
@pytest.mark.parametrize("name", FUZZERS)
def test_fuzz(name, tmp_path, request):
    corpus, least = str(tmp_path / "corpus"), str(tmp_path / "least")
    program = linux_kit.built(f"fuzz/fuzz_{name}")
    unpack(name, corpus)
    seconds = request.config.getoption("--seconds") // len(FUZZERS)
    said = fuzz(
        seconds,
        str(tmp_path / "log"),
        program,
        f"-max_len={MOST_INPUT}",
        "-handle_bus=0",
        f"-artifact_prefix={tmp_path}/",
        "-print_final_stats=1",
        corpus,
    )
    print(*(it for it in said.splitlines() if it.startswith(NUMBERS)), sep="\n")
    keeps = request.config.getoption("--keep")
    if keeps:  # the least inputs that take all parts of the code may leave branches out
        os.makedirs(least)
        run(program, "-set_cover_merge=1", "-handle_bus=0", least, corpus)
    inputs = least if keeps else corpus
    check_branches(name, branches(linux_kit.built(f"cover/fuzz_{name}"), str(tmp_path), inputs))
    if keeps:
        keep(name, least)
