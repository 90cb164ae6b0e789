"""Reads OpenStreetMap files: the coordinates of nodes in arrays, and the ways that cars use, with why others are left out.

    extract = read_osm("region.osm", with_ferries=False)
    for way in extract.ways:
        print(way.number, way.road, [extract.places.degrees(it) for it in way.nodes])

XML is read by the standard library, every other format by Debian's `python3-pyosmium`.
"""
import array
import bisect
import itertools
import os
import sys
import xml.parsers.expat
from collections import Counter
from typing import IO, TYPE_CHECKING, Any, Callable, Dict, Iterable, Iterator, List, Mapping, NamedTuple, Optional, Tuple

from .records import UNITS

# The functional road class of each kind of highway that is used; its links have the same class. And that of ferries.
CLASSES = {"motorway": 0, "trunk": 1, "primary": 2, "secondary": 3, "tertiary": 4, "unclassified": 5, "road": 5}
CLASSES |= {"residential": 6, "living_street": 6, "service": 7}
FERRY = 5
MOST_INFLATED = 100  # times a PBF file that its blocks may be

# Forms of way.
MOTORWAY, MULTIPLE, SINGLE, ROUNDABOUT, SLIP_ROAD, OTHER = 1, 2, 3, 4, 6, 7

# Who may use a road, from the tag that is decisive for a car to the most general one; and what their values mean for its driver.
WHO = ("motorcar", "motor_vehicle", "vehicle", "access")
CLOSED = ("no", "private", "agricultural", "forestry", "agricultural;forestry", "emergency", "military", "bus", "psv")
OPEN = ("yes", "permissive", "designated", "official", "public", "destination", "customers", "delivery", "permit", "residents",
        "unknown")
ONE_WAY, BACKWARD = ("yes", "true", "1"), ("-1", "reverse")
BOTH_WAYS, BY_TIME = ("no", "false", "0", "alternating"), ("reversible",)
ROUND = ("roundabout", "circular")
TAGS = {"highway", "route", "area", "junction", "dual_carriageway", "name", "ref", *WHO}
TAGS |= {f"{it}:{way}" for it in WHO for way in ("forward", "backward")} | {"oneway", *(f"oneway:{it}" for it in WHO)}


if TYPE_CHECKING:
    Numbers = array.array[int]
else:
    Numbers = array.array
Tags = Mapping[str, str]
Fields = Mapping[str, str]  # of an element


class OsmError(Exception):
    """A file that is no OpenStreetMap file with roads; the text is printed."""


class LeftOut(Exception):
    """A road that no car uses; the text is the tag that says so."""


class WayKind(NamedTuple):
    """What a way is as a road: class, form, and whether it may be driven along its way and against it."""

    frc: int
    fow: int
    forward: bool
    backward: bool


class Way(NamedTuple):
    """A way that cars use: its number, the places of its nodes (-1 for one that is not in the file), and what it is."""

    number: int
    nodes: Numbers
    road: WayKind


class Places:
    """Coordinates in whole numbers of 10^-7 degree, by the place of a node in this table; the nodes of the file are sorted by
    their numbers, and behind them are added ones, which have a text in place of a number."""

    def __init__(self) -> None:
        self.ids, self.lons, self.lats = array.array("q"), array.array("i"), array.array("i")
        self.added: List[str] = []

    def put(self, number: int, lon: float, lat: float) -> None:
        """Adds a node of the file."""
        if not (-180 <= lon <= 180 and -90 <= lat <= 90):
            raise OsmError(f"node {number} has lon {lon} and lat {lat}, which is no place on the earth")
        self.ids.append(number)
        self.lons.append(round(lon * UNITS))
        self.lats.append(round(lat * UNITS))

    def sort(self) -> None:
        """Sorts the nodes; of those with one number the last one stays."""
        if any(a >= b for a, b in zip(self.ids, itertools.islice(self.ids, 1, None))):
            last = {number: k for k, number in enumerate(self.ids)}
            order = [last[number] for number in sorted(last)]
            self.ids, self.lons, self.lats = (
                array.array(it.typecode, map(it.__getitem__, order)) for it in (self.ids, self.lons, self.lats))

    def find(self, numbers: Iterable[int]) -> Numbers:
        """The places of nodes of the file, -1 for one that is not there. Often a node is the next one in the table."""
        ids, size, search, found, k = self.ids, len(self.ids), bisect.bisect_left, array.array("i"), 0
        for number in numbers:
            k += 1
            if k >= size or ids[k] != number:
                k = search(ids, number)
            found.append(k if k < size and ids[k] == number else -1)
        return found

    def add(self, key: str, lon: int, lat: int) -> int:
        """Adds a node that is not in the file, and returns its place."""
        self.added.append(key)
        self.lons.append(lon)
        self.lats.append(lat)
        return len(self.lons) - 1

    def key(self, place: int) -> str:
        """The number of a node, or the text of an added one, as text."""
        return str(self.ids[place]) if place < len(self.ids) else self.added[place - len(self.ids)]

    def degrees(self, place: int) -> Tuple[float, float]:
        """The coordinate of a node, in degrees."""
        return self.lons[place] / UNITS, self.lats[place] / UNITS


class Access(NamedTuple):
    """What a tag says of cars: whether the road is open to them, and the tag."""

    is_open: bool
    tag: str


class Extract:
    """What was read: places, ways, how many were left out for which reason, and the values of tags that are not known."""

    def __init__(self, with_ferries: bool, with_names: bool = False):
        self.with_ferries, self.with_names, self.places = with_ferries, with_names, Places()
        self.names: Dict[int, Tuple[str, str]] = {}  # the name and the number of each way that is used, if they are wanted
        self.roads: Dict[int, Tuple[Numbers, WayKind]] = {}
        self.ways: List[Way] = []
        self.left_out: Counter[str] = Counter()
        self.unknown: Counter[str] = Counter()
        self.twice = self.count = 0

    def take_way(self, number: int, refs: Numbers, tags: Tags) -> None:
        """Takes a way with the numbers of its nodes, if cars use it."""
        self.count += 1
        try:
            road = self.road_of(tags)
        except LeftOut as why:
            self.left_out[str(why)] += 1
            return
        if road:
            self.twice += number in self.roads
            self.roads[number] = (refs, road)
            if self.with_names and ("name" in tags or "ref" in tags):
                self.names[number] = tags.get("name", ""), tags.get("ref", "")

    def road_of(self, tags: Tags) -> Optional[WayKind]:
        """The road that a way with these tags is, or None if it is none. Raises LeftOut for one that isn't used."""
        kind, is_ferry = tags.get("highway", ""), tags.get("route") == "ferry" and "highway" not in tags
        if not kind and not is_ferry:
            return None
        if kind.removesuffix("_link") not in CLASSES and not is_ferry:
            raise LeftOut(f"highway={kind}")
        if is_ferry and not self.with_ferries:
            raise LeftOut("route=ferry")
        if tags.get("area") == "yes":
            raise LeftOut("area=yes")
        # A tag for one direction decides about it, and else the tag for both.
        both, ways = self.access(tags, ""), self.directions(tags)
        each = [self.access(tags, it) or both for it in (":forward", ":backward")]
        if ways is None:
            raise LeftOut(f"oneway={tags['oneway'].lower()}")
        forward, backward = (is_way and (it is None or it.is_open) for is_way, it in zip(ways, each))
        if not forward and not backward:
            raise LeftOut(next(it.tag for it, is_way in zip(each, ways) if it and is_way))
        return WayKind(FERRY if is_ferry else CLASSES[kind.removesuffix("_link")], form_of_way(tags, ways), forward, backward)

    def access(self, tags: Tags, direction: str) -> Optional[Access]:
        """What the decisive tag says of cars, in a direction or in both; None if no tag says anything."""
        for who in WHO:
            value = tags.get(who + direction, "").lower()
            if value in CLOSED:
                return Access(False, f"{who}{direction}={value}")
            if value in OPEN or any(it.strip() in OPEN for it in value.split(";")):
                return Access(True, f"{who}{direction}={value}")
            if value:
                self.unknown[f"{who}{direction}={value}"] += 1
        return None

    def directions(self, tags: Tags) -> Optional[Tuple[bool, bool]]:
        """Whether a road may be driven along its way, and against it, by its tags on one-way roads; None if that changes."""
        is_round = tags.get("junction") in ROUND
        for tag in (*(f"oneway:{who}" for who in WHO), "oneway"):
            value = tags.get(tag, "").lower()
            if value in BY_TIME:
                return None
            if value in ONE_WAY:
                return True, False
            if value in BACKWARD:
                return False, True
            if value in BOTH_WAYS:
                return True, True
            if value:
                self.unknown[f"{tag}={value}"] += 1
        is_one = is_round or tags.get("highway") == "motorway"
        return True, not is_one

    def finish(self) -> None:
        """Replaces the numbers of the ways' nodes by their places. Raises OsmError if there is no way."""
        if not self.count:
            raise OsmError("it has no way")
        self.places.sort()
        self.ways = [Way(number, self.places.find(refs), road) for number, (refs, road) in self.roads.items()]
        self.roads.clear()


def form_of_way(tags: Tags, ways: Tuple[bool, bool]) -> int:
    """The form of way."""
    kind = tags.get("highway", "")
    if tags.get("junction") in ROUND:
        return ROUNDABOUT
    if not kind:
        return OTHER
    if kind.endswith("_link"):
        return SLIP_ROAD
    if kind == "motorway":
        return MOTORWAY
    is_dual = tags.get("dual_carriageway") == "yes" or (kind == "trunk" and ways != (True, True))
    return MULTIPLE if is_dual else SINGLE


class Xml:
    """The handlers of the elements of a file in XML."""

    def __init__(self, extract: Extract):
        self.extract, self.refs = extract, array.array("q")
        self.way: Optional[int] = None
        self.tags: Dict[str, str] = {}
        self.begin = self.outside(extract.places.put)
        self.parser = xml.parsers.expat.ParserCreate()
        self.parser.StartElementHandler = self.begin_root

    def begin_root(self, name: str, _: Fields) -> None:
        """Handles the root element."""
        if name != "osm":
            hint = ": apply the changes to a file first, such as by osmium apply-changes" if name == "osmChange" else ""
            raise OsmError(f"its root element is <{name}> and not <osm>{hint}")
        self.parser.StartElementHandler = self.begin

    def outside(self, put: Callable[[int, float, float], None]) -> Callable[[str, Fields], None]:
        """A handler of the start of an element that is not in a way. What is deleted is left out."""

        def begin(name: str, fields: Fields) -> None:
            if name == "node":
                if "lon" in fields and "lat" in fields and is_there(fields):
                    put(int(fields["id"]), float(fields["lon"]), float(fields["lat"]))
            elif name == "way":
                self.way, self.refs, self.tags = int(fields["id"]) if is_there(fields) else None, array.array("q"), {}
                self.parser.StartElementHandler, self.parser.EndElementHandler = self.begin_inside, self.end

        return begin

    def begin_inside(self, name: str, fields: Fields) -> None:
        """Handles the start of an element in a way."""
        if name == "nd":
            self.refs.append(int(fields["ref"]))
        elif name == "tag" and fields["k"] in TAGS:
            self.tags[fields["k"]] = fields["v"]

    def end(self, name: str) -> None:
        """Handles the end of an element in a way, or of the way."""
        if name == "way":
            if self.way is not None:
                self.extract.take_way(self.way, self.refs, self.tags)
            self.parser.StartElementHandler, self.parser.EndElementHandler = self.begin, None


def is_there(fields: Fields) -> bool:
    """Whether an element with these fields is not deleted."""
    return fields.get("action") != "delete" and fields.get("visible") != "false"


def read_xml(file: IO[bytes], extract: Extract) -> None:
    """Reads a file in XML."""
    parser = Xml(extract).parser
    try:
        parser.ParseFile(file)
    except KeyError as error:
        raise OsmError(f"line {parser.CurrentLineNumber}: an element has no attribute {error}") from None
    except (xml.parsers.expat.ExpatError, ValueError, OverflowError, LookupError) as error:
        where = "" if isinstance(error, xml.parsers.expat.ExpatError) else f"line {parser.CurrentLineNumber}: "
        raise OsmError(f"not OpenStreetMap XML ({where}{error})") from None


# ---- other formats


def fields_of(file: IO[bytes], end: int) -> Iterator[Tuple[int, int]]:
    """The fields of a message of Protocol Buffers, from where a file stands up to an end: the number of each, and its value, or the
    length of its bytes, which are skipped."""
    while file.tell() < end:
        tag = varint(file)
        value = varint(file)
        yield tag >> 3, value
        if tag & 7 == 2:
            file.seek(value, os.SEEK_CUR)


def varint(file: IO[bytes]) -> int:
    """A number of a message."""
    value = shift = 0
    while byte := file.read(1):
        value |= (byte[0] & 127) << shift
        shift += 7
        if byte[0] < 128 or shift > 63:
            break
    return value


def refuse_inflated(name: str) -> None:
    """Fails for a PBF file whose blocks are far larger than it: they would be read for minutes."""
    inflated, at, size = 0, 0, os.path.getsize(name)
    with open(name, "rb") as file:
        while len(head := file.read(4)) == 4 and (length := int.from_bytes(head, "big")) < 1 << 16:
            at += 4 + length
            of_block = dict(fields_of(file, min(at, size))).get(3, 0)
            file.seek(at)
            at += of_block
            inflated += dict(fields_of(file, min(at, size))).get(2, 0)
            file.seek(at)
    if inflated > MOST_INFLATED * size:
        raise OsmError(f"its blocks are {inflated // max(1, size)} times as large as the file: it is not read")


def read_other(name: str, extract: Extract) -> None:
    """Reads a file in another format, such as PBF."""
    try:
        import osmium
    except ImportError:
        lacks = f"{sys.executable} has no module osmium to read another format"
        hint = "install Debian's python3-pyosmium and run this with /usr/bin/python3, or convert it"
        raise OsmError(f"not OpenStreetMap XML, and {lacks}: {hint}: osmium cat {name} -o FILE.osm") from None

    refuse_inflated(name)
    places = extract.places
    add, add_lon, add_lat = places.ids.append, places.lons.append, places.lats.append

    class Handler(osmium.SimpleHandler):
        """Takes nodes and ways."""

        def node(self, it: Any) -> None:
            place = it.location
            lon, lat = place.x, place.y
            if -1_800_000_000 <= lon <= 1_800_000_000 and -900_000_000 <= lat <= 900_000_000 and it.visible:
                add(it.id)
                add_lon(lon)
                add_lat(lat)

        def way(self, it: Any) -> None:
            if it.visible:
                tags = {tag.k: tag.v for tag in it.tags if tag.k in TAGS}
                if "highway" in tags or "route" in tags:
                    extract.take_way(it.id, array.array("q", [node.ref for node in it.nodes]), tags)
                else:
                    extract.count += 1

    try:
        Handler().apply_file(name)
    except RuntimeError as error:
        raise OsmError(f"not an OpenStreetMap file ({error}); to convert it: osmium cat {name} -o FILE.osm") from None


def read_osm(name: str, with_ferries: bool, with_names: bool = False) -> Extract:
    """The extract in a file. Raises OSError if it can't be opened, and OsmError if it is no OpenStreetMap file with ways."""
    extract = Extract(with_ferries, with_names)
    with open(name, "rb") as file:
        is_xml = file.peek(64)[:64].lstrip(b"\xef\xbb\xbf \t\r\n").startswith(b"<")
        if is_xml or not file.peek(1):
            read_xml(file, extract)
    if not is_xml:
        read_other(name, extract)
    extract.finish()
    return extract
