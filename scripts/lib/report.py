"""How a script tells of its checks: a line for each, and at last how many passed and failed."""
import subprocess
import sys


class Fault(Exception):
    """What is not so."""


def ensure(holds, why):
    if not holds:
        raise Fault(why)


def of_line(line):
    kind, _, text = line.partition(" ")
    return {"ok": True, "FAILED": False}.get(kind), text.strip() if kind in ("ok", "FAILED") else line


class Checks:
    """Tells of each check, and counts."""

    def __init__(self, is_terse=False):
        """A terse one tells of none that holds."""
        self.passed = self.failed = 0
        self.part, self.is_terse = "", is_terse

    def __call__(self, text, holds, fault="", left=""):
        """One that is left out for a reason, which is `left`, counts as neither."""
        self.passed, self.failed = self.passed + bool(holds), self.failed + (not holds and not left)
        kind, why = "ok" if holds else "left out" if left else "FAILED", "" if holds else left or str(fault)[:600]
        if not (holds and self.is_terse):
            print(f"{kind}: {self.part}{text}{': ' if why else ''}{why}", flush=True)

    def same(self, text, got, wanted):
        self(text, got == wanted, f"{str(got)[:280]} instead of {str(wanted)[:280]}")

    def of_program(self, words, seconds, read=of_line, least=0, **how):
        """The checks of a program, so many at least, which tells of each in a line. Of this `read` makes whether it held, if it is
        a check, and its text."""
        program = subprocess.Popen(["timeout", str(seconds), *words], stdout=subprocess.PIPE, text=True, **how)
        outcomes = []
        try:
            for line in program.stdout:
                holds, text = read(line.rstrip("\n"))
                if holds is None:
                    print(f"    {text}", flush=True)
                else:
                    outcomes.append(holds)
                    self(text, holds)
            if program.wait() != int(False in outcomes) or len(outcomes) < least:
                self("the program ends well", False, f"status {program.returncode}")
        finally:
            program.terminate()
            program.wait()

    def end(self):
        print(f"{self.passed} passed, {self.failed} failed")
        sys.exit(1 if self.failed or not self.passed else 0)
