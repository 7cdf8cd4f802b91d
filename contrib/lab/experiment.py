#!/usr/bin/env python3
"""An experiment of Downward Lab (8.0 or later) with htnplan, from memory of its interface.

LIST has a domain and a problem on each line, parted by a blank; their names are looked for beside it. Each is run with
each bound of NODES. On a cluster, put a SlurmEnvironment of your own in the place of LocalEnvironment."""
from pathlib import Path

from downward.reports.absolute import AbsoluteReport
from lab.environments import LocalEnvironment
from lab.experiment import Experiment
from lab.parser import Parser

LIST = Path(__file__).resolve().parent / "list"
NODES = [100, 200, 400]
WORKERS = 1
SECONDS = 300
MEGABYTES = 4000

# What a run came to, by its status; a run with status 1 has its answer in `answer`. Another status is of a signal:
# Lab ended the run, for example for its time.
OUTCOMES = {
    0: "plan",
    1: "no plan",
    2: "command line refused",
    3: "text refused",
    4: "out of memory or threads",
    5: "file or output",
    6: "unknown",
}


def outcome(_, properties):
    """Reads the status into `outcome` and `coverage`, which is 1 where there is a plan."""
    status = properties.get("plan_exit_code")
    properties["outcome"] = OUTCOMES.get(status, "ended from outside")
    properties["coverage"] = int(status == 0)


def parser():
    found = Parser()
    found.add_pattern("plan_exit_code", r"plan exit code: (-?\d+)\n", type=int, file="driver.log")
    found.add_pattern("seconds", r"plan wall-clock time: (.+)s\n", type=float, file="driver.log")
    found.add_pattern("answer", r"^(none|unsolvable)$", type=str, flags="M")
    found.add_pattern("refusal", r"(.+)\n", type=str, file="run.err")
    found.add_function(outcome)
    return found


def add_run(experiment, domain, problem, nodes):
    run = experiment.add_run()
    run.add_resource("domain", str(LIST.parent / domain), "domain.hddl", symlink=True)
    run.add_resource("problem", str(LIST.parent / problem), "problem.hddl", symlink=True)
    options = ["--nodes", str(nodes), "--workers", str(WORKERS)]
    run.add_command(
        "plan", ["htnplan", "plan", "{domain}", "{problem}", *options], time_limit=SECONDS, memory_limit=MEGABYTES
    )
    algorithm = f"htnplan-{nodes}"
    run.set_property("algorithm", algorithm)
    run.set_property("domain", domain)
    run.set_property("problem", problem)
    run.set_property("id", [algorithm, domain, problem])


def main():
    problems = [line.split() for line in LIST.read_text().splitlines() if line.strip()]
    experiment = Experiment(environment=LocalEnvironment(processes=None))
    experiment.add_parser(parser())
    for domain, problem in problems:
        for nodes in NODES:
            add_run(experiment, domain, problem, nodes)
    experiment.add_step("build", experiment.build)
    experiment.add_step("start", experiment.start_runs)
    experiment.add_step("parse", experiment.parse)
    experiment.add_fetcher(name="fetch")
    report = AbsoluteReport(attributes=["coverage", "outcome", "answer", "refusal", "seconds"])
    experiment.add_report(report, outfile="report.html")
    experiment.run_steps()


if __name__ == "__main__":
    main()
