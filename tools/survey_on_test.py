"""Surveys by a dask.distributed scheduler and two workers on the loopback, for `survey_test --on`.

Each worker has its own folder, and in it a program `there`, a script that notes each run and then
runs the program. So two workers on one machine can have different programs. While the file `hold`
is there, no more runs pass than it says, and each further one waits: so a worker is ended while it
runs one, however fast the program is. Only processes that are started here are ended, by their ids.
"""

import contextlib
import logging
import os
import shutil
import subprocess
import sys
import time

from checks import HERE, Failed, same

SURVEY = os.path.join(HERE, "tools", "survey")
SCENARIOS = [
    os.path.join(HERE, "scenarios", f"{name}.scatter")
    for name in ("storms_over_a_merge", "policy_in_a_storm")
]
RUNS = 12
PATIENCE = 180  # seconds for what takes a few, since the machine may be busy


def wait(what, is_so):
    """Waits until something is so."""
    end = time.monotonic() + PATIENCE
    while not is_so():
        same(what, time.monotonic() < end, True)
        time.sleep(0.05)


NOTING = """#!/bin/sh
{more}echo "$$" >> ../runs
if [ -e ../hold ] && [ "$(wc -l < ../runs)" -gt "$(cat ../hold)" ]; then
    echo "$$" >> ../held
    while [ -e ../hold ]; do sleep 0.05; done
fi
exec {program} "$@"
"""


def note_runs(folder, program, more=""):
    """The program of a worker, which notes its runs in the file `runs` of the folder above."""
    path = os.path.join(folder, "there")
    with open(path, "w", encoding="utf-8") as out:
        out.write(NOTING.format(program=program, more=more))
    os.chmod(path, 0o755)
    return path


class Machines:
    """A scheduler and two workers."""

    def __init__(self, folder, program):
        self.folder, self.file = folder, os.path.join(folder, "scheduler.json")
        self.scheduler, self.workers = None, []
        try:
            self.begin(program)
        except BaseException:
            self.close()
            raise

    def begin(self, program):
        words = ["--host", "127.0.0.1", "--port", "0"]
        self.scheduler = self.start("dask_scheduler", self.folder, *words)
        wait("the scheduler is there", lambda: os.path.exists(self.file))
        for name in ("one", "two"):
            place = os.path.join(self.folder, name)
            os.mkdir(place)
            note_runs(place, program)
            words = ["--no-nanny", "--nthreads", "1", "--name", name]
            self.workers.append(self.start("dask_worker", place, *words))
        with open(self.file, encoding="utf-8") as said:
            text = said.read()
        self.address = text.partition('"address": "')[2].partition('"')[0]
        self.meet()

    def start(self, word, place, *words):
        command = [sys.executable, "-m", f"distributed.cli.{word}", "--scheduler-file", self.file]
        return subprocess.Popen(
            [*command, "--no-dashboard", *words],
            cwd=place,
            stdout=subprocess.DEVNULL,
            stderr=subprocess.DEVNULL,
        )

    def meet(self):
        """Waits until the scheduler has both workers."""
        import distributed

        logging.getLogger("asyncio").setLevel(logging.CRITICAL)  # it logs its own timeouts
        try:
            with distributed.Client(self.address, timeout=60, set_as_default=False) as client:
                client.wait_for_workers(2, timeout=PATIENCE)
        except (OSError, TimeoutError, distributed.TimeoutError) as fault:
            raise Failed(f"the workers do not come: {fault}") from None

    def lines(self, name):
        """How many lines a file of the workers has."""
        try:
            with open(os.path.join(self.folder, name), encoding="utf-8") as notes:
                return len(notes.readlines())
        except FileNotFoundError:
            return 0

    def noted(self):
        """How many runs were begun."""
        return self.lines("runs")

    def hold(self, runs):
        """Lets RUNS runs of the next survey pass, and each further one wait."""
        with open(os.path.join(self.folder, "hold"), "w", encoding="utf-8") as out:
            out.write(f"{runs}\n")

    def wait_held(self, count):
        """Waits until COUNT workers have a run that waits."""
        wait("the survey has begun, and waits", lambda: self.lines("held") >= count)

    def forget(self, *names):
        for name in names:
            with contextlib.suppress(FileNotFoundError):
                os.remove(os.path.join(self.folder, name))

    def survey(self, *words, files=SCENARIOS):
        """A survey by the workers, which has begun. Its own program is not that of a worker's
        folder, so it notes nothing, but it has the same bytes."""
        self.forget("runs", "held")
        here = os.path.join(self.folder, "here")
        os.makedirs(os.path.join(here, "in"), exist_ok=True)
        shutil.copy(os.path.join(self.folder, "one", "there"), os.path.join(here, "in"))
        command = [sys.executable, SURVEY, "--ours", "there", "--on", self.address]
        return subprocess.Popen(
            [*command, "--there", "./there", *words, *files, str(RUNS)],
            cwd=os.path.join(here, "in"),
            stdout=subprocess.PIPE,
            stderr=subprocess.PIPE,
            text=True,
        )

    def close(self):
        for process in [*self.workers, *([self.scheduler] if self.scheduler else [])]:
            process.kill()
            process.wait()


def alone(program):
    """What the survey says without other machines."""
    words = ["--ours", program, *SCENARIOS, str(RUNS)]
    command = [sys.executable, SURVEY, *words]
    quiet = {"stdout": subprocess.PIPE, "stderr": subprocess.DEVNULL}
    return subprocess.run(command, text=True, check=False, **quiet).stdout


def ended(process, status):
    """Output and standard error of a survey, which ends with this status."""
    try:
        out, err = process.communicate(timeout=2 * PATIENCE)
    except subprocess.TimeoutExpired:
        process.kill()
        raise Failed(f"a survey did not end in {2 * PATIENCE} seconds") from None
    same(f"status, with standard error {err!r}", process.returncode, status)
    return out, err


def both_work(machines, wanted):
    out, _ = ended(machines.survey(), 0)
    same("a survey by two workers", out, wanted)
    same("runs that were begun", machines.noted(), 2 * RUNS)


def one_differs(machines, wanted, program):
    """A worker with another program gets no runs."""
    place = os.path.join(machines.folder, "two")
    note_runs(place, program, "# another one\n")
    out, err = ended(machines.survey(), 0)
    same("a survey by one of two workers", out, wanted)
    same("that is said", " has another program at ./there, and gets no runs" in err, True)
    os.remove(os.path.join(place, "there"))
    _, err = ended(machines.survey(), 0)
    same("that is said", " has no program at ./there, and gets no runs" in err, True)
    note_runs(place, program)


def one_is_ended(machines, wanted):
    """The runs of a worker that is lost in the middle are tried again."""
    machines.hold(5)
    process = machines.survey()
    machines.wait_held(2)
    machines.workers[0].kill()
    machines.workers[0].wait()
    machines.forget("hold")
    out, _ = ended(process, 0)
    same("a survey in which a worker is lost", out, wanted)
    same("a run was tried again", machines.noted() > 2 * RUNS, True)


def all_are_ended(machines):
    """Without workers it is said what was not run."""
    machines.hold(4)
    process = machines.survey("--patience", "3")
    machines.wait_held(1)
    machines.workers[1].kill()
    machines.workers[1].wait()
    out, _ = ended(process, 1)
    machines.forget("hold")
    lines = out.split("\n")
    lost = [line for line in lines if line.startswith("not run: ")]
    same("files with lost runs", len(lost), 2)
    same("the last runs were not run", lost[0].endswith(f" to {RUNS}"), True)
    same("nothing of the second file was run", lost[1], f"not run: 1 to {RUNS}")
    run = int(lines[0].split(": ")[1].split(" ")[0])
    same("runs that were run, and that were not", run + named(lost[0]), RUNS)
    same("no more were run than were begun", run <= machines.noted(), True)


def named(line):
    """How many runs a line names, as `not run: 1, 3 to 5`."""
    count = 0
    for part in line.split(": ")[1].split(", "):
        ends = part.split(" to ")
        count += int(ends[-1]) - int(ends[0]) + 1
    return count


def scheduler_is_ended(machines):
    """Without the scheduler it is said what was not run, too: of the file that is under way, of one
    that is begun while the client looks for the scheduler, and of one after it has given up."""
    machines.hold(2)
    process = machines.survey("--patience", str(PATIENCE), files=[*SCENARIOS, SCENARIOS[0]])
    machines.wait_held(2)
    machines.scheduler.kill()
    machines.scheduler.wait()
    out, err = ended(process, 1)
    machines.forget("hold")
    lost = [line for line in out.split("\n") if line.startswith("not run: ")]
    same("files with lost runs", len(lost), 3)
    same("the last runs were not run", lost[0].endswith(f" to {RUNS}"), True)
    same("nothing of the others was run", lost[1:], [f"not run: 1 to {RUNS}"] * 2)
    same("a fault that was not foreseen", "Traceback" in err, False)


def other_machines(program, folder):
    """All of it, one after the other; the last with other machines, since the first are gone."""
    wanted, again = alone(program), os.path.join(folder, "again")
    os.mkdir(again)
    for place, parts in (
        (folder, (both_work, one_differs, one_is_ended, all_are_ended)),
        (again, (scheduler_is_ended,)),
    ):
        machines = Machines(place, program)
        try:
            for part in parts:
                part(*(machines, wanted, program)[: part.__code__.co_argcount])
        finally:
            machines.close()
