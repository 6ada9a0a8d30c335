"""Trials that are made at the same time: each of some processes has a browser of its own, and makes
one trial after another. They are told in their order."""

import multiprocessing
import multiprocessing.connection
import os

from trials import chromium
from trials.report import Report
from trials.view import Subject, opened

# a browser takes some 400 MB
PROCESSES = min(8, len(os.sched_getaffinity(0)))


class Desk:
    """What a process makes its trials with: a browser, and a page in it, from when it is asked."""

    def __init__(self, path):
        self.path = path
        self.started = None
        self.machine = None

    def browser(self):
        if self.started is None:
            self.started = chromium.Browser(self.path)
        return self.started

    def page(self):
        """The page, as it is when it is opened, but for its program."""
        if self.machine is None:
            self.machine = self.page_apart()
        self.machine.page.send("Page.bringToFront")
        self.machine.clean()
        return self.machine

    def page_apart(self):
        """A page that no other trial has."""
        return opened(self.browser(), Subject.page.as_uri())

    def end(self):
        """Ends the browser. Answers what came of it, where there was one."""
        return None if self.started is None else self.started.close()


class Trial:
    """A trial, and what it is given of a desk: a function that takes the desk, or nothing."""

    def __init__(self, trial, of_desk=None):
        self.trial, self.of_desk = trial, of_desk

    def make(self, desk):
        """Its report. Where it fails no other has the page."""
        report = Report.of(self.trial, lambda: [self.of_desk(desk)] if self.of_desk else [])
        if report.failed:
            desk.machine = None
        return report


def serve(pipe, others, trials, path, told):
    """Makes the trials whose numbers come from a pipe, until None comes."""
    for other in others:
        other.close()
    desk = Desk(path)
    try:
        for number in iter(pipe.recv, None):
            pipe.send(trials[number].make(desk))
        pipe.send(told(desk))
    finally:
        desk.end()


class Processes:
    """Processes that make trials, each with a pipe, and the numbers of the trials that they have."""

    def __init__(self, trials, waiting, path, told):
        self.trials, self.waiting, self.has = trials, waiting, {}
        fork = multiprocessing.get_context("fork")
        pipes = []
        for _ in range(min(PROCESSES, len(trials))):
            pipe, other = fork.Pipe()
            pipes.append(pipe)
            fork.Process(target=serve, args=(other, pipes, trials, path, told)).start()
            other.close()
        for pipe in pipes:
            self.give(pipe)

    def give(self, pipe):
        """Gives a process the next trial, or lets it end."""
        self.has[pipe] = self.waiting.pop(0) if self.waiting else None
        pipe.send(self.has[pipe])

    def take(self, pipe):
        """What came of a process: the number of its trial, and the report, which is None where the
        process has ended. Where it had no trial left, what it tells of its desk, or False."""
        number = self.has.pop(pipe)
        try:
            got = pipe.recv()
        except EOFError:
            return number, None if number is not None else False
        if number is not None:
            self.give(pipe)
        return number, got


def make_all(trials, path, tell, first=(), told=lambda desk: None):
    """Makes trials, those of `first` before the others, and tells the report of each, in their order.
    Answers what `told` says of each desk."""
    waiting = sorted(range(len(trials)), key=lambda number: trials[number].trial not in first)
    processes = Processes(trials, waiting, path, told)
    reports, said, next_one = {}, [], 0
    while processes.has:
        for pipe in multiprocessing.connection.wait(list(processes.has)):
            number, got = processes.take(pipe)
            if number is None:
                said.append(got)
            else:
                reports[number] = got
        while reports.get(next_one):
            tell(reports[next_one])
            next_one += 1
    for number in range(next_one, len(trials)):
        report = reports.get(number) or Report()
        if number not in reports or reports[number] is None:
            report.fail(trials[number].trial, "the process that makes it has ended")
        tell(report)
    return said
