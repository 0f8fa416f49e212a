"""bgt-geo messages: polygons of a GIS as one message of new objects."""
import argparse

from . import drawing_up
from .output import write_text
from .reading import tell_defaults
from .text import Message, Mutation, print_message


def run(words: argparse.Namespace) -> int:
    """Writes the message."""
    drawn = drawing_up.read(words)
    if words.nodes:
        drawn = drawing_up.noded(drawn)
    tell_defaults(drawn.objects, words.moment)
    mutations = tuple(Mutation("T", it.ident, None, it.item, None) for it in drawn.objects)
    write_text(words.output, print_message(Message(words.holder, words.moment, drawn.area, mutations)))
    return 0
