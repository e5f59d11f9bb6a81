"""A build of vb_sim for tools/measure: what it answers, and what running it takes."""

import os
import re
import subprocess

# The first words of the replies of events that were done.
DONE = frozenset(
    "guest ok ready page bytes posted filled none reaped taken empty worked idle finished swept "
    "asked"
    " targets free pages ballooned frame frames".split()
)


class Refused(Exception):
    """A script is not answered as it should be."""


class Program:
    """A build of vb_sim, and what running it gives."""

    def __init__(self, path):
        self.path = path

    def replies(self, text):
        """Runs a script as it is, and returns its replies, none of which may be a refusal."""
        ran = subprocess.run([self.path, "run"], input=text, capture_output=True, check=False)
        if ran.returncode:
            raise Refused(ran.stderr.decode() or f"status {ran.returncode}")
        replies = ran.stdout.decode().splitlines()
        events = [it for it in text.decode().splitlines() if not it.startswith(("host ", "spare "))]
        if len(events) != len(replies):
            raise Refused(f"{len(events)} events, {len(replies)} replies")
        for event, reply in zip(events, replies):
            if not is_done(event, reply):
                raise Refused(f"{event}: {reply}")
        return replies

    def pages(self, script):
        """Returns the pages that the script's events are handed."""
        return [int(it.split()[1]) for it in self.replies(script.text()) if it.startswith("page ")]

    def instructions(self, text, kept=os.devnull, mode=("run",), more=()):
        """Counts what a run of this script takes; `kept` is callgrind's own file, and `more` are
        words for it."""
        words = [
            "valgrind",
            "--tool=callgrind",
            f"--callgrind-out-file={kept}",
            *more,
            self.path,
            *mode,
        ]
        ran = subprocess.run(words, input=text, capture_output=True, check=True)
        return int(re.search(rb"Collected : (\d+)", ran.stderr)[1])

    def of_events(self, script):
        """Returns the instructions that the script's events take, all together."""
        self.replies(script.text())
        return self.instructions(script.text()) - self.instructions(script.text([]))

    def memory(self, text, mode="run"):
        """Returns the most memory that a run of this script has, in megabytes."""
        words = ["/usr/bin/time", "-f", "%M", self.path, mode]
        ran = subprocess.run(
            words, input=text, stdout=subprocess.DEVNULL, stderr=subprocess.PIPE, check=True
        )
        return int(ran.stderr) / 1_024

    def seconds(self, script):
        """Returns the processor seconds of a run of the script in this file."""
        script.seek(0)
        with subprocess.Popen([self.path, "run"], stdin=script, stdout=subprocess.DEVNULL) as ran:
            _, status, used = os.wait4(ran.pid, 0)
            ran.returncode = os.waitstatus_to_exitcode(status)
        if ran.returncode:
            raise Refused(f"status {ran.returncode}")
        return used.ru_utime + used.ru_stime


def is_done(event, reply):
    """Says whether a reply is no refusal. `free` and `memory` begin both kinds."""
    word = reply.split()[0]
    return word in DONE or word == "memory" and event.startswith("memory ") or reply == "no backing"
