"""Styles for QGIS of the files that tools/geojson and tools/swap write: for each kind of feature the text of a .qml file."""
from typing import Mapping
from xml.sax.saxutils import quoteattr

BLUE, AMBER, RED = "0,103,177,255", "138,97,0,255", "190,30,45,255"
SKY, VIOLET = "86,180,233,255", "117,76,161,255"
GREY, INK, WHITE = "120,130,142,255", "23,32,43,255", "255,255,255,255"
WIDTHS = (1.0, 0.9, 0.8, 0.6, 0.5, 0.4, 0.3, 0.2)  # millimetres, of the lines of each class
HEAD = """<!DOCTYPE qgis PUBLIC 'http://mrcc.com/qgis.dtd' 'SYSTEM'>
<qgis version="3.22.0" styleCategories="Symbology|Labeling" labelsEnabled="{labels}">
"""


def options(values: Mapping[str, object]) -> str:
    """The properties of a layer of a symbol."""
    row = '<Option type="QString" name={} value={}/>'
    rows = "".join(row.format(quoteattr(name), quoteattr(str(value))) for name, value in values.items())
    return f"<Option type=\"Map\">{rows}</Option>"


def symbol(name: int, kind: str, layer: str, values: Mapping[str, object]) -> str:
    """A symbol of one layer."""
    inner = f"<layer class=\"{layer}\" enabled=\"1\" locked=\"0\" pass=\"0\">{options(values)}</layer>"
    return f"<symbol type=\"{kind}\" name=\"{name}\" alpha=\"1\" clip_to_extent=\"1\">{inner}</symbol>"


def line(name: int, colour: str, width: float, **more: object) -> str:
    """A symbol of a line."""
    values = {"line_color": colour, "line_width": width, "line_width_unit": "MM", "capstyle": "round"}
    return symbol(name, "line", "SimpleLine", {**values, **more})


def marker(name: int, colour: str, size: float, shape: str = "circle") -> str:
    """A symbol of a point."""
    values = {"name": shape, "color": colour, "outline_color": WHITE, "outline_width": 0.3, "size": size, "size_unit": "MM"}
    return symbol(name, "marker", "SimpleMarker", values)


def single(symbol_text: str) -> str:
    """A renderer with one symbol for all features."""
    return f"<renderer-v2 type=\"singleSymbol\" symbollevels=\"0\"><symbols>{symbol_text}</symbols></renderer-v2>"


def by_class() -> str:
    """A renderer of the lines of the map: the less important their class, the narrower they are."""
    rows = "".join(f"<category render=\"true\" value=\"{k}\" symbol=\"{k}\" label=\"class {k}\"/>" for k in range(8))
    symbols = "".join(line(k, GREY, width) for k, width in enumerate(WIDTHS))
    return (f"<renderer-v2 type=\"categorizedSymbol\" attr=\"frc\" symbollevels=\"0\"><categories>{rows}</categories>"
            f"<symbols>{symbols}</symbols></renderer-v2>")


STATES = (("as given", BLUE), ("moved", SKY), ("elsewhere", AMBER), ("held", VIOLET), ("delayed", VIOLET), ("frozen", INK), ("refused", RED),
          ("lost", RED))


def by_state() -> str:
    """A renderer of paths: by their state if they have one, as in the table of tools/live, and else those that are not encodable
    are red."""
    state = "attribute($currentfeature, 'state')"
    rules = [(f"{state} = '{it}'", it, colour) for it, colour in STATES]
    rules += [(f"{state} is null and \"string\" is not null", "with a string", BLUE), ("ELSE", "not encodable", RED)]
    rows = "".join(f'<rule filter={quoteattr(rule)} symbol="{k}" label="{label}"/>' for k, (rule, label, _) in enumerate(rules))
    symbols = "".join(line(k, colour, 1.2) for k, (_, _, colour) in enumerate(rules))
    return f'<renderer-v2 type="RuleRenderer" symbollevels="0"><rules>{rows}</rules><symbols>{symbols}</symbols></renderer-v2>'


def by_verdict() -> str:
    """A renderer of paths by what becomes of them on the next map, the worst in red."""
    kinds = (("lost", RED), ("other road", AMBER), ("two roads", VIOLET), ("farther off", SKY), ("without a string before", INK),
             ("same road", BLUE), ("same string", GREY))
    rows = "".join(f'<category render="true" value="{it}" symbol="{k}" label="{it}"/>' for k, (it, _) in enumerate(kinds))
    symbols = "".join(line(k, colour, 1.2) for k, (_, colour) in enumerate(kinds))
    return (f'<renderer-v2 type="categorizedSymbol" attr="verdict" symbollevels="0"><categories>{rows}</categories>'
            f"<symbols>{symbols}</symbols></renderer-v2>")


RENDERERS = {
    "node": single(marker(0, GREY, 1.4)),
    "line": by_class(),
    "path": by_state(),
    "offset": single(line(0, AMBER, 1.6, customdash="2;1.5", use_custom_dash=1)),
    "bearing": single(line(0, INK, 0.6)),
    "point": single(marker(0, INK, 4)),
    "swap": by_verdict(),
    "refusal": single(marker(0, RED, 4, "cross_fill")),
}
# What labels show, as expressions: of a path its name, and its streets, if they are known.
LABELS = {"point": '"number"', "path": "\"path\" || coalesce(': ' || attribute($currentfeature, 'about'), '')", "swap": '"path"'}


def labels(field: str, colour: str) -> str:
    """Labels with an expression over the features."""
    buffer = f'<text-buffer bufferDraw="1" bufferSize="0.8" bufferColor="{WHITE}"/>'
    text = f'<text-style fieldName={quoteattr(field)} isExpression="1" fontSize="8" textColor="{colour}">{buffer}</text-style>'
    return f'<labeling type="simple"><settings calloutType="simple">{text}<placement placement="1"/></settings></labeling>\n'


def style(kind: str) -> str:
    """The style of a kind of feature."""
    field = LABELS.get(kind)
    text = labels(field, INK) if field else ""
    return f"{HEAD.format(labels=int(bool(field)))}{RENDERERS[kind]}\n{text}</qgis>\n"
