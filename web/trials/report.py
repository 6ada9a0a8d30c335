"""Comparisons, which are counted, and what comes of the trials that make them."""

import time
import traceback

from trials import chromium


class Differs(Exception):
    """Something stands in the page that should not."""


class Count:
    """How many comparisons were made."""

    made = 0


def same(what, wanted, got):
    """Compares what is there with what should be."""
    Count.made += 1
    if isinstance(wanted, dict) and isinstance(got, dict) and wanted != got:
        names = [name for name in {**wanted, **got} if wanted.get(name) != got.get(name)]
        wanted, got = ({name: all_of.get(name) for name in names} for all_of in (wanted, got))
    if wanted != got:
        raise Differs(f"{what}: wanted {wanted!r}, and there stands {got!r}")


def subject_of(trial):
    return trial.__name__.replace("_", "-")


class Report:
    """How trials ended, what is said of them, and how many comparisons each made."""

    def __init__(self):
        self.failed = []
        self.counts = {}
        self.said = []

    @classmethod
    def of(cls, trial, give=tuple):
        """The report of a trial, of which `give` answers the arguments."""
        report = cls()
        begun, made = time.monotonic(), Count.made
        try:
            more = trial(*give())
        except (Differs, chromium.Failed) as wrong:
            report.fail(trial, wrong)
            return report
        except Exception:  # the other trials are told all the same
            report.fail(trial, traceback.format_exc())
            return report
        subject = subject_of(trial)
        if isinstance(more, dict):
            report.counts = {f"{subject} of {name}": count for name, count in more.items()}
            more = f"{sum(more.values()):,} comparisons"
        report.counts[subject] = Count.made - made
        said = f"{more}; " if isinstance(more, str) else ""
        report.said.append(f"passed: {trial.__doc__} ({said}{time.monotonic() - begun:.1f} s)")
        return report

    def fail(self, trial, why):
        self.failed.append(subject_of(trial))
        self.said.append(f"failed: {trial.__doc__}\n  {why}")

    def take(self, other):
        """Takes over what another has, and prints what it says."""
        self.failed += other.failed
        self.counts.update(other.counts)
        for text in other.said:
            print(text, flush=True)


def differing_counts(stored, counts):
    """What is other than it was stored: the lines of both that the other does not have."""
    lines = {f"{subject} {count}" for subject, count in counts.items()}
    wanted = set(stored.splitlines())
    return [f"- {line}" for line in sorted(wanted - lines)] + [
        f"+ {line}" for line in sorted(lines - wanted)]
