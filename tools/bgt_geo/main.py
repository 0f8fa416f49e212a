"""The words of bgt-geo, and how it ends."""
import argparse
import os
import sys
from typing import NoReturn

from . import forms
from .problem import USAGE, Problem

SOURCE = """a data source that OGR opens; `PATH|layername=NAME`, as QGIS writes it, is one layer of it"""

EPILOG = """status: 0 done; 1 the contents are not right, as told on standard error; 2 other words, or something is missing.
docs/GIS.md shows each call."""


def _moment(text: str) -> str:
    if not forms.is_moment(text):
        raise argparse.ArgumentTypeError(f"{text!r} is no moment: 2026-11-03T09:00:00")
    return forms.printed_moment(text)


def _holder(text: str) -> str:
    if not forms.HOLDER.match(text):
        raise argparse.ArgumentTypeError(f"{text!r} is no holder: one capital letter and four digits, as G0307")
    return text


def _day(text: str) -> str:
    if not forms.is_day(text):
        raise argparse.ArgumentTypeError(f"{text!r} is no day: 2026-11-03")
    return text


def _width(text: str) -> int:
    if not text.isdecimal() or not 100 <= int(text) <= 10000:
        raise argparse.ArgumentTypeError(f"{text!r} is no width: 100 to 10000 pixels")
    return int(text)


class _Words(argparse.ArgumentParser):
    """A reader of words that tells a fault in one sentence."""

    def error(self, message: str) -> NoReturn:
        self.exit(USAGE, f"{self.prog}: {message}; see {self.prog} --help\n")


def _add_layer_words(it: argparse.ArgumentParser) -> None:
    it.add_argument("layers", nargs="+", metavar="LAYERS", help=SOURCE)
    it.add_argument("--holder", required=True, type=_holder, help="whose objects these are, as G0307")
    it.add_argument("--moment", required=True, type=_moment, help="the moment of the message")
    it.add_argument("--area", metavar="A", help="the layer of the holder's area; its polygons are the shapes of the area block")
    it.add_argument("--mapping", metavar="F", help="a TOML file: which columns and values become which fields")
    it.add_argument("--nodes", action="store_true", help="put a corner that lies on a neighbour's side into that side too")
    it.add_argument("--round", action="store_true", help="round corners that are not on the millimetre, and tell how many and how far")
    it.add_argument("--assume-rd", action="store_true", help="take coordinates as EPSG:28992, whatever the source says of them")
    it.add_argument("-o", "--output", metavar="FILE", help="where the message goes, else standard output")


def parser() -> argparse.ArgumentParser:
    """The words that bgt-geo takes."""
    top = _Words(prog="bgt-geo", description="tools beside bgt: GIS formats both ways, refusals and maps as pictures", epilog=EPILOG,
                 formatter_class=argparse.RawDescriptionHelpFormatter)
    calls = top.add_subparsers(dest="call", required=True, metavar="CALL")

    it = calls.add_parser("messages", help="polygons of a GIS as one message", description="Polygons of a GIS as one message of new objects.")
    _add_layer_words(it)

    it = calls.add_parser("changes", help="what differs between a register and layers, as one message",
                          description="The difference between a holder's current map and layers, as one message of T, W and V.")
    it.add_argument("file", metavar="FILE", help="the register")
    _add_layer_words(it)
    it.add_argument("--end", type=_day, metavar="DAY", help="the end day of objects that the layers have no more, else the moment's day")

    _add_register_calls(calls)
    return top


def _add_register_calls(calls: argparse._SubParsersAction) -> None:
    """The calls that show what there is."""
    it = calls.add_parser("layers", help="the state at a moment as layers", description="The state at a moment as layers: areas, and objects by kind.")
    it.add_argument("file", metavar="FILE", help="the register")
    it.add_argument("--moment", type=_moment, default=forms.LAST, help="the moment, else what holds now")
    it.add_argument("-o", "--output", metavar="OUT", required=True, help="the file to write; its ending names the format")
    it.add_argument("--format", metavar="NAME", help="the format by OGR's name, as 'GPKG'")

    it = calls.add_parser("why", help="what each refusal means, where it stands, and what to mend",
                          description="What each refusal of a stream means, in which line of the file it stands, and what to mend.")
    it.add_argument("stream", metavar="STREAM", help="the messages")
    it.add_argument("replies", metavar="REPLIES", help="what `bgt check` or `bgt load` answered to them")
    it.add_argument("--geojson", metavar="FILE", help="the objects, sides and points of the refusals")
    it.add_argument("--picture", metavar="DIR", help="an SVG and a PNG of each refusal with its fault in red")
    it.add_argument("--register", metavar="FILE", help="the register that the messages were loaded into, where it was not empty")

    it = calls.add_parser("picture", help="the map at a moment as a picture",
                          description="The map at a moment, with colours by kind, a legend and a scale bar.")
    it.add_argument("file", metavar="FILE", help="the register")
    it.add_argument("--moment", type=_moment, default=forms.LAST, help="the moment, else what holds now")
    it.add_argument("-o", "--output", metavar="OUT", required=True, help="the picture: .svg or .png")
    it.add_argument("--holder", type=_holder, action="append", default=[], help="only this holder; may be given again")
    it.add_argument("--width", type=_width, default=720, metavar="PIXELS", help="the width of the map (720)")

    it = calls.add_parser("page", help="the map at all moments as one page",
                          description="One page, which needs no network: the map with a slider over its moments.")
    it.add_argument("file", metavar="FILE", help="the register")
    it.add_argument("-o", "--output", metavar="OUT", required=True, help="the page: .html")


def _call(words: argparse.Namespace) -> int:
    # (each call brings in only what it needs: `why` works where GDAL is missing)
    if words.call == "messages":
        from . import messages
        return messages.run(words)
    if words.call == "changes":
        from . import changes
        return changes.run(words)
    if words.call == "layers":
        from . import layers
        return layers.run(words.file, words.moment, words.output, words.format)
    if words.call == "why":
        from . import why
        return why.run(words.stream, words.replies, words.geojson, words.picture, words.register)
    if words.call == "picture":
        from . import picture
        return picture.run(words.file, words.moment, words.output, words.holder, words.width)
    from . import page
    return page.run(words.file, words.output)


def main(arguments: list[str] | None = None) -> int:
    """Runs one call, and answers its status."""
    words = parser().parse_args(arguments)
    try:
        return _call(words)
    except Problem as problem:
        for sentence in str(problem).split("\n"):
            print(f"bgt-geo: {sentence}", file=sys.stderr)
        return problem.status
    except BrokenPipeError:
        # (whoever read the output has enough; what is left in the buffer goes nowhere)
        os.dup2(os.open(os.devnull, os.O_WRONLY), sys.stdout.fileno())
        return 0
    except KeyboardInterrupt:
        print("bgt-geo: stopped", file=sys.stderr)
        return USAGE
    except MemoryError:
        print("bgt-geo: there is not enough memory", file=sys.stderr)
        return USAGE
