"""What is told of a refusal: sentences, and what a picture marks."""
from dataclasses import dataclass, field

from .rings import Edge
from .text import Point


@dataclass
class Fault:
    """Sentences in plain words; sides and points to mark; the objects that they speak of."""

    sentences: list[str] = field(default_factory=list)
    sides: list[Edge] = field(default_factory=list)
    points: list[Point] = field(default_factory=list)
    idents: list[str] = field(default_factory=list)

    def say(self, sentence: str) -> "Fault":
        """Adds a sentence."""
        self.sentences.append(sentence)
        return self
