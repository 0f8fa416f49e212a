"""What goes wrong, as a sentence for the person at the terminal."""

CONTENTS = 1
USAGE = 2


class Problem(Exception):
    """One sentence, or one a line, and the status with which the program ends: 1 for contents, 2 for words and what is missing."""

    def __init__(self, sentence: str, status: int = CONTENTS):
        super().__init__(sentence)
        self.status = status


MOST = 25


def many(sentences: list[str]) -> Problem:
    """One problem of several sentences. Past the first ones only their number is told, so that the terminal stays readable."""
    lines = sentences[:MOST]
    if len(sentences) > MOST:
        lines.append(f"and {len(sentences) - MOST} more")
    return Problem("\n".join(lines))
