"""Runs walklist on texts, and judges each answer."""

import subprocess
from collections import Counter

from judge import Wrong, judge


class Failure(Exception):
    """An answer that is wrong, with its text."""

    def __init__(self, subject, name, text, answer, why):
        super().__init__(why)
        self.subject, self.name, self.text, self.answer, self.why = subject, name, text, answer, why


class TooLittle(Exception):
    """A subject's texts do not show what they should."""


class Program:
    def __init__(self, path):
        self.path = str(path)
        self.runs = 0

    def answer(self, text):
        """What is printed for a text. The program always ends well, and says nothing else."""
        self.runs += 1
        ran = subprocess.run([self.path], input=text, stdout=subprocess.PIPE, stderr=subprocess.PIPE, timeout=60, check=False)
        if ran.returncode or ran.stderr:
            raise Wrong(f"status {ran.returncode}, and on standard error {ran.stderr[:80]!r}")
        return ran.stdout


class Subject:
    """A subject's texts, one by one, and a count of what the right answers were."""

    def __init__(self, program, name):
        self.program, self.name = program, name
        self.answers, self.notes = Counter(), []

    def compare(self, name, text, compare=judge):
        """Runs the program on a text. `compare` raises Wrong, or tells in a word what the right answer was."""
        answer = b""
        try:
            answer = self.program.answer(text)
            outcome = compare(text, answer)
        except (Wrong, subprocess.TimeoutExpired) as wrong:
            raise Failure(self.name, name, text, answer, str(wrong)) from wrong
        self.answers[outcome] += 1
        return outcome

    def require(self, *answers):
        """Each of these must have been a right answer; a run without one shows too little."""
        missing = [answer for answer in answers if not self.answers[answer]]
        if missing:
            raise TooLittle(f"no text was answered: {'; '.join(missing)}")
