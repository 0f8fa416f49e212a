"""A style for QGIS: the colours of the kinds, as the pictures have them."""
from .catalogue import AREA, COLOURS


def _rgb(colour: str) -> str:
    return ",".join(str(int(colour[k:k + 2], 16)) for k in (1, 3, 5)) + ",255"


def _symbol(place: int, fill: str, fill_style: str, line: str, width: str) -> str:
    options = {"color": fill, "style": fill_style, "outline_color": line, "outline_width": width, "outline_width_unit": "MM",
               "outline_style": "solid", "joinstyle": "round"}
    texts = "".join(f'<Option type="QString" name="{name}" value="{value}"/>' for name, value in options.items())
    props = "".join(f'<prop k="{name}" v="{value}"/>' for name, value in options.items())
    return (f'<symbol type="fill" name="{place}" alpha="1" clip_to_extent="1" force_rhr="0"><layer class="SimpleFill" enabled="1" locked="0" '
            f'pass="0"><Option type="Map">{texts}</Option>{props}</layer></symbol>')


def qml() -> str:
    """The style: a symbol for each kind, and the areas as a border without a fill. It fits every layer that `layers` writes."""
    kinds = [(AREA, _symbol(0, "0,0,0,0", "no", "17,17,17,255", "0.6"))]
    kinds += [(kind, _symbol(place, _rgb(colour), "solid", "51,51,51,255", "0.2")) for place, (kind, colour) in enumerate(COLOURS.items(), 1)]
    categories = "".join(f'<category render="true" symbol="{place}" value="{kind}" label="{kind}" type="string"/>'
                         for place, (kind, _) in enumerate(kinds))
    symbols = "".join(symbol for _, symbol in kinds)
    return ("<!DOCTYPE qgis PUBLIC 'http://mrcc.com/qgis.dtd' 'SYSTEM'>\n"
            '<qgis version="3.22" styleCategories="Symbology">'
            '<renderer-v2 type="categorizedSymbol" attr="kind" forceraster="0" symbollevels="0" enableorderby="0">'
            f"<categories>{categories}</categories><symbols>{symbols}</symbols></renderer-v2></qgis>\n")
