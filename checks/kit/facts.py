"""What is said more than once has to be said alike: on two pages, or on a page and in a `--help`, a unit or the code.

Compared are the options of the program and of each tool, the tools' names, exit statuses, faults, metrics, defaults of options,
and the numbers of `FACTS`. Each relative link leads to a file and to a heading of it, no page is longer than `LENGTHS`, and no
sentence has more than 40 words outside of THEOREMS.
"""
import glob
import os
import re
import subprocess
import sys
from concurrent.futures import ThreadPoolExecutor
from typing import Dict, Iterator, List, NamedTuple, Set, Tuple

from .whole import TOP, text_of

sys.path.insert(0, f"{TOP}/python")
from olr_keep_tools.carried import UNANSWERED  # noqa: E402

# The most words of each page.
LENGTHS = {
    "README.md": 1230,
    "CHANGELOG.md": 2300,
    "CONTRIBUTING.md": 2000,
    "docs/ARCHITECTURE.md": 3120,
    "docs/CHOOSE.md": 1050,
    "docs/CLOSURES.md": 850,
    "docs/CLUSTER.md": 2500,
    "docs/DECISIONS.md": 3710,
    "docs/EMBEDDING.md": 2100,
    "docs/LIMITS.md": 3900,
    "docs/LIVE.md": 2690,
    "docs/MAPS.md": 2800,
    "docs/QUALITY.md": 1900,
    "docs/SECURITY.md": 850,
    "docs/SERVICE.md": 3060,
    "docs/START.md": 1000,
    "docs/THEOREMS.md": 5360,
    "docs/TRIED.md": 1500,
}
LONGEST_SENTENCE = 40
MANUAL = "docs/olr-keep.1"
COMMON = {0, 2, 3, 130}  # the statuses of every tool
# Numbers that stand in several places: each pattern may find one number only, wherever it is found.
FACTS = {
    "the changes of a batch":
        r"(?:up to |more than |holds |beyond the |changes of a batch \| )(\d{2,3},?000)(?:th| changes| \|)(?! each)",
    "the answers that leave together": r"(?:up to|at most) (\d+) KB\b",
    "the longest line with --lines": r"(?:longer than|of over|more than) (\d+) MB, (?:is|are|has)\b",
    "the end of a road near a line": r"(?:ends? of (?:a road|roads) within|`olr-keep-check-map`:) (\d+ m|an? metre)\b",
    "the version of PostgreSQL": r"PostgreSQL (\d+)(?:,(?:[^.]|\.\d){0,60})? or later",
    "the version of Python": r"Python (3\.\d+)\b(?! syntax)",
    "the version of glibc": r"glibc (2\.\d+)\b",
    "the processor": r"(x86-64-v\d)\b",
    "the program logic": r"logic[ =`]+([0-9a-f]{16})\b",
    "the margin of a region": r"nodes within (\d+) km of its paths",
    "the margin of `ambiguous`": r"margin is a quarter of a sector, ([\d.]+) degrees",
    "the slack of `ambiguous`": r"(?:more than|slack of) ([\d.]+) m(?: farther| by|, cosines)",
    "a step of DNP": r"step(?:s)? of ([\d.]+) m\b",
    "a sector": r"sectors? of ([\d.]+) degrees",
    "a step of coordinates": r"steps of (360 / 2\^\d+) degree",
    "how exact the first point is": r"first (?:LRP is up to|within) ([\d.]+) m\b",
    "how exact each further point is": r"each further (?:LRP adds up to|one) ([\d.]+) m\b",
    "memory of a long line": r"at most some (\d+) MB\b",
    "memory of a long line of commas": r"(\d+) MB if it is commas",
    "the most records": r"(?:more than|beyond) (2\^\d+)\b",
    "how soon a save is in the table of strings": r"(?:save[^.|]{0,60}|usually )within (an? [a-z ]*second)",
    "the edits after which memory is compared":
        r"(?:memory|allocated|looked at)\b[^.|]{0,60} after (?:the first )?([\d,]+) edits",
    "the lines that may be removed": r"(?:lacks|remove|lack) more than (\d+) ?% of the",
    "minutes of the first build": r"first (?:build|`\./olr-keep`) took (\d+ to \d+) minutes",
    "hours of the gate": r"(?:gate\*?,? takes|`\./test` takes) (\w+ to \w+) hours",
    "where packages have the tools' files": r"(/usr[\w/]*/share/olr-keep)\b",
}
# What the program doesn't do, and README and CHOOSE have to say.
NOT_DONE = ("points along a line", "geo coordinates", "POIs", "areas", "closed lines", "XML", "version 2", "DATEX II", "TPEG",
            "turn restrictions", "times", "heights", "antimeridian", "Kafka", "HTTP")
# What pages have said, and isn't so.
NOT_SO = {
    r"opens no file but": "with a log it makes and replaces files beside it",
    r"too large for memory ends": "`report` and `dump` are rejected with fault 13",
    r"sends? its own `dump`": "the program replaces its log by itself",
}
OPTION = re.compile(r"(?<![\w-])(--[a-z][a-z-]*)")
# A number before an option in brackets, as `5 m (--tolerance)`, or an option and then its number, as `--deadline (60)`.
DEFAULT = re.compile(r"\b(\d[\d.,]*) ?(?:%|m|s|MB|GB)?(?: [a-z]+){0,5} \(`(--[a-z-]+)`\)"
                     r"|`(--[a-z-]+)`(?:,| [^`.|()]{0,40} \() ?(\d[\d.]*)\b")
CALL = re.compile(r"\b(?:olr-keep-|tools/)([a-z-]+)\b((?:\\\n|[^|;&\n`])*)")


class Tool(NamedTuple):
    """What a tool's `--help` says: its options, their defaults as numbers, and its own statuses."""

    options: Set[str]
    defaults: Dict[str, str]
    statuses: Set[int]


def pages() -> List[str]:
    """The pages of the repository."""
    return ["README.md", "CHANGELOG.md", "CONTRIBUTING.md", *sorted(it[len(TOP) + 1 :] for it in glob.glob(f"{TOP}/docs/*.md"))]


def help_of(tool: str) -> Tuple[str, str]:
    """A tool's name and its `--help`."""
    command, env = [f"{TOP}/tools/{tool}", "--help"], {**os.environ, "COLUMNS": "1000"}
    return tool, subprocess.run(command, capture_output=True, text=True, check=True, env=env).stdout


def helps() -> Dict[str, str]:
    """The `--help` of each tool."""
    names = [it for it in sorted(os.listdir(f"{TOP}/tools")) if os.access(f"{TOP}/tools/{it}", os.X_OK)]
    with ThreadPoolExecutor(4) as pool:
        return dict(pool.map(help_of, [it for it in names if os.path.isfile(f"{TOP}/tools/{it}")]))


def tool_of(text: str) -> Tool:
    """Reads a tool's `--help`."""
    listed = re.findall(r"^  (?:-\w(?: [A-Z]+)?, )?(--[a-z-]+)(.*(?:\n {8}.*)*)", text, re.M)
    defaults = {name: found[-1] for name, rest in listed for found in [re.findall(r"\(([\d.]+) ?%?\)", rest)] if found}
    pieces = re.split(r"[;,] ", text.rpartition("status:")[2].replace("\n", " "))
    found = [it for piece in pieces for pair in re.findall(r"^ *(\d+)\b(?! \+)|^ *\d+ or (\d+)", piece) for it in pair]
    statuses = {int(it) for it in found if it}
    return Tool({name for name, _ in listed} | {"--help"}, defaults, statuses)


def prose(text: str) -> str:
    """A page without its blocks of code and comments."""
    return re.sub(r"<!--.*?-->", "", re.sub(r"^( *)```.*?^\1```$", "", text, flags=re.S | re.M), flags=re.S)


def sentences(text: str) -> Iterator[str]:
    """The sentences of a page: those of its paragraphs, of the items of its lists, and of the cells of its tables."""
    parts, paragraph = [], ""
    for line in prose(text).splitlines():
        if re.match(r" *(?:$|#|\||- |\d+\. )", line):
            parts.append(paragraph)
            paragraph = "" if not line.strip() or line.lstrip().startswith(("#", "|")) else line
            parts += line.strip().strip("|").split(" | ") if line.lstrip().startswith("|") else []
        else:
            paragraph += " " + line
    for part in [*parts, paragraph]:
        yield from re.split(r"(?<=[.!?:])[*_)\"]*\s+", re.sub(r"`[^`]*`", "code", part))


def long_faults() -> List[str]:
    """Pages and sentences that are too long."""
    faults = []
    for page in pages():
        text, most = text_of(page), LENGTHS.get(page)
        if len(text.split()) > (most or 50):
            faults.append(f"{page}: {len(text.split())} words, and at most {most or 50} are allowed")
        for it in sentences(text) if page != "docs/THEOREMS.md" else ():
            words = [word for word in it.split() if re.search(r"\w", word)]
            if len(words) > LONGEST_SENTENCE:
                faults.append(f"{page}: a sentence of {len(words)} words: {' '.join(words[:12])} ..")
    return faults


def anchors(text: str) -> Set[str]:
    """The anchors of a page's headings."""
    return {re.sub(r"[^\w -]", "", it.lower()).replace(" ", "-") for it in re.findall(r"^#+ (.*)$", text, re.M)}


def link_faults() -> List[str]:
    """Relative links that lead nowhere."""
    faults = []
    for page in pages():
        for link in re.findall(r"\]\(([^)\s]+)\)", prose(text_of(page))):
            name, _, anchor = link.partition("#")
            path = os.path.normpath(os.path.join(os.path.dirname(page), name)) if name else page
            if ":" in link or os.path.exists(f"{TOP}/{path}") and (not anchor or anchor in anchors(text_of(path))):
                continue
            faults.append(f"{page}: there is no {link}")
    return faults


def part(text: str, start: str, end: str) -> str:
    """What is between two texts."""
    return text.partition(start)[2].partition(end)[0]


def unlike(what: str, said: Dict[str, Set[str]]) -> List[str]:
    """Where a set is another one than in LIMITS."""
    wanted = said["docs/LIMITS.md"]
    return [f"{place}: {what} {sorted(it ^ wanted)} are not alike" for place, it in said.items() if it != wanted]


def program_faults() -> List[str]:
    """Options and statuses of the program that stand in LIMITS, in the man page, in its help and in its unit."""
    limits, manual, shown = text_of("docs/LIMITS.md"), text_of(MANUAL), text_of("checks/help.txt")
    rows = re.findall(r"^\| (`-.*?) \|", part(limits, "## Options\n", "\n## "), re.M)
    lines = re.findall(r"^ +(-.*?)(?:  |$)", shown, re.M)
    options = {
        "docs/LIMITS.md": {it for row in rows for it in re.findall(r"(?<![\w-])--?[\w-]+", row)},
        "checks/help.txt": {it for row in lines for it in re.findall(r"(?<![\w-])--?[\w-]+", row)},
        MANUAL: {f"-{it}" for row in re.findall(r"^\.It (Fl .*)", manual, re.M) for it in re.findall(r"Fl ([\w-]+)", row)},
    }
    statuses = {
        "docs/LIMITS.md": set(re.findall(r"^\| (\d+) \|", part(limits, "## Exit statuses\n", "\n\nWith"), re.M)),
        "checks/help.txt": set(re.findall(r"(?<![\w.])(\d) ", part(shown, "Status:", "\ndocs/"))),
        MANUAL: set(re.findall(r"^\.It (\d+)$", manual, re.M)),
    }
    return unlike("options", options) + unlike("statuses", statuses)


def unit_faults(tools: Dict[str, Tool]) -> List[str]:
    """Statuses that a unit names and its tool doesn't have, and limits of memory without one on the data of the process."""
    faults = []
    for file in sorted(glob.glob(f"{TOP}/packaging/*.service")):
        text, name = text_of(file[len(TOP) + 1 :]), os.path.basename(file)
        tool = re.findall(r"^ExecStart=.*?/(?:olr-keep-|tools/)([a-z-]+)", text, re.M)[0]
        named = {int(it) for row in re.findall(r"^(?:RestartPrevent|Success)ExitStatus=(.*)", text, re.M) for it in row.split()}
        faults += [f"{name}: {tool} has no status {it}" for it in sorted(named - tools[tool].statuses - {0})]
        if "\nMemoryMax=" in text and "\nLimitDATA=" not in text:
            faults.append(f"{name}: without LimitDATA a process that needs more than MemoryMax is killed, and gets no fault")
    return faults


def status_faults(tools: Dict[str, Tool]) -> List[str]:
    """Statuses of `live` and of `serve` that their pages and `--help` don't say alike."""
    line = re.findall(r"^Exit statuses: (.*)", text_of("docs/LIVE.md"), re.M)[0]
    said = {
        "live": {int(it) for it in re.findall(r"(?:^|[;,] )(\d+)\b", line)} - {0},
        "serve": {int(it) for it in re.findall(r"^\| (\d) \|", part(text_of("docs/SERVICE.md"), "| Status of the", "\n\n"), re.M)},
    }
    return [f"statuses of {name}: its page has {sorted(it)}, and its --help {sorted(tools[name].statuses)}"
            for name, it in said.items() if it | {130} != (tools[name].statuses | {130}) - {0}]


def tool_faults(tools: Dict[str, Tool]) -> List[str]:
    """Statuses of tools that LIMITS and `--help` don't say alike, and options on pages that a tool doesn't have."""
    table = text_of("docs/LIMITS.md").partition("| TOOL | Status |")[2]
    rows = dict(re.findall(r"^\| `([a-z-]+)` \| (.*) \|$", table, re.M))
    faults = [f"docs/LIMITS.md: no tool {it}" for it in sorted(set(rows) - set(tools))]
    for name, tool in tools.items():
        said = {int(it) for it in re.findall(r"(?:^|; )(\d+):", rows.get(name, ""))}
        if said != tool.statuses - COMMON:
            shown = sorted(tool.statuses - COMMON)
            faults.append(f"docs/LIMITS.md: {name}: statuses {sorted(said)}, and its --help has {shown}")
    packages = "".join(text_of(it[len(TOP) + 1 :]) for it in glob.glob(f"{TOP}/packaging/*") + [f"{TOP}/debian/control"])
    own = set(re.findall(r"--[a-z][a-z-]*", text_of("checks/help.txt")))
    every = set().union(own, *(it.options for it in tools.values()))
    for page in pages():
        text = text_of(page)
        names = {it.rstrip("-") for it in re.findall(r"\bolr-keep-([a-z][a-z-]*)", text)} - set(tools)
        faults += [f"{page}: there is no olr-keep-{it}" for it in sorted(names) if f"olr-keep-{it}" not in packages]
        for name, rest in CALL.findall(text):
            lost = set(OPTION.findall(rest.partition(" olr-keep ")[0])) - tools[name].options if name in tools else ()
            faults += [f"{page}: {name} has no option {it}" for it in sorted(lost)]
        for code in re.findall(r"`(--[a-z][a-z-]*)", prose(text)):
            if code not in every and not re.search(rf"(?:build|checks|rt|rabbitmqctl|osmium)[^\n]*{code}\b", text):
                faults.append(f"{page}: no program has the option {code}")
    return faults


def default_faults(tools: Dict[str, Tool]) -> List[str]:
    """Defaults on pages that are not those of the tool that was named last and has the option."""
    faults = []
    for page in pages():
        text = prose(text_of(page))
        for it in re.finditer(DEFAULT, text):
            option, number = it[2] or it[3], (it[1] or it[4]).rstrip(".,")
            named = [name for name in re.findall(r"(?:olr-keep-|tools/)([a-z-]+)", text[: it.start()]) if name in tools]
            having = [name for name in named if option in tools[name].defaults]
            number = str(round(1000 * float(number))) if option.endswith("-ms") and " s (" in it[0] else number
            if having and tools[having[-1]].defaults[option] != number:
                default = tools[having[-1]].defaults[option]
                faults.append(f"{page}: {option} of {having[-1]} is {number}, and its --help has {default}")
    return faults


def fault_faults(sources: str) -> List[str]:
    """Faults that pages number or name in another way than the code, and faults that LIMITS lacks."""
    words = dict(re.findall(r'"fault,(\d+),(\w+)', sources))
    listed = dict(re.findall(r"^\| (\d+) \| `([A-Z]\w+)` \|", text_of("docs/LIMITS.md"), re.M))
    faults = [f"docs/LIMITS.md: fault {it}: {listed.get(it)}, and the code has {words.get(it)}"
              for it in sorted(set(words) | set(listed), key=int) if words.get(it) != listed.get(it)]
    for page in pages():
        for number, word in re.findall(r"fault,(\d+),([A-Z][A-Za-z]+)", text_of(page)):
            if word.isupper() or number == "0" or words.get(number) == word:
                continue
            faults.append(f"{page}: fault,{number},{word}, and the code has {words.get(number)}")
    return faults


def metric_faults(sources: str) -> List[str]:
    """Metrics on pages that no tool writes."""
    faults = []
    for page in pages():
        text = text_of(page)
        names = [(it, it) for it in re.findall(r"\bolr_keep_(?:live_|serve_)?([a-z]+_[a-z_]*[a-z]|up|held)\b", text)]
        for table in re.findall(r"^\| Metric .*?(?=\n\n)", text, re.S | re.M):
            names += [(it, it) for row in table.splitlines()[2:] for it in re.findall(r"`([a-z_]+)`", row.split(" | ")[0])]
        faults += [f"{page}: no tool writes the metric {it}" for it, _ in names if not re.search(rf"\b{it}\b", sources)]
    return faults


def number_faults(said: Dict[str, str]) -> List[str]:
    """Numbers of `FACTS` that aren't alike everywhere."""
    faults = []
    for name, pattern in FACTS.items():
        places: Dict[str, Set[str]] = {}
        for place, text in said.items():
            for it in re.finditer(pattern, re.sub(r"\s+", " ", text), re.I):
                number = next(group for group in it.groups() if group).replace(",", "")
                places.setdefault(number, set()).add(place)
        if len(places) > 1:
            faults.append(f"{name}: " + "; ".join(f"{it} in {', '.join(sorted(where))}" for it, where in places.items()))
    return faults


def claim_faults(kinds: List[str]) -> List[str]:
    """Claims of `NOT_SO`, and lists that lack something: of what isn't done, of the kinds of `check-map`, and of what no worker
    answers."""
    faults = [f"{page}: it doesn't say that there are no {it}" for page in ("README.md", "docs/CHOOSE.md") for it in NOT_DONE
              if not re.search(rf"\b{it}\b", text_of(page))]
    for page in pages():
        for text in re.split(r"\n\n|\n(?=- |\|)", text_of(page)):
            faults += [f"{page}: {text[:60]} ..: {why}" for claim, why in NOT_SO.items() if re.search(claim, text)]
            lost = [it for it in kinds if f"`{it}`" not in text]
            if 3 <= len(kinds) - len(lost) < len(kinds):
                faults.append(f"{page}: of the kinds of check-map {', '.join(lost)} are missing")
            if "`NoQuestion` for" in text and "`NoQuestion` for each question but `show`" not in text:
                lost = [it for it in UNANSWERED if f"`{it}`" not in text]
                faults += [f"{page}: NoQuestion is also for {', '.join(lost)}"] if lost else []
    return faults


def source_faults() -> List[str]:
    """Blocks of Rust after a comment `<!-- of FILE -->` whose lines FILE doesn't have."""
    faults = []
    for page in pages():
        for name, block in re.findall(r"^<!-- of (\S+) -->\n```rust\n(.*?)^```", text_of(page), re.S | re.M):
            have = {it.strip() for it in text_of(name).splitlines()}
            faults += [f"{page}: {name} has no line {it.strip()}" for it in block.splitlines() if it.strip() not in have]
    return faults


def session_faults() -> List[str]:
    """README's session has to be examples/morning.csv with its replies."""
    blocks = re.findall(r"^```csv\n(.*?)^```\n```text\n(.*?)^```", text_of("README.md"), re.S | re.M)
    records, replies = ("".join(it) for it in zip(*blocks))
    same = (records, replies) == (text_of("examples/morning.csv"), text_of("examples/morning.replies"))
    return [] if same else ["README.md: its session is not examples/morning.csv with its replies"]


def faults() -> List[str]:
    """All that isn't said alike."""
    shown = helps()
    tools = {name: tool_of(text) for name, text in shown.items()}
    names = [*glob.glob(f"{TOP}/tools/*"), *glob.glob(f"{TOP}/python/**/*.py", recursive=True)]
    sources = "\n".join(text_of(it[len(TOP) + 1 :]) for it in names if os.path.isfile(it))
    code = text_of("crates/olr_records/src/faults.rt")
    said = {page: text_of(page) for page in [*pages(), MANUAL, "checks/help.txt", "checks/memory"]}
    said.update({f"tools/{name} --help": text for name, text in shown.items()})
    kinds = re.findall(r"^    ([a-z0-9]+(?:-[a-z0-9]+)+)  ", shown["check-map"], re.M)
    found = long_faults() + link_faults() + program_faults() + tool_faults(tools) + default_faults(tools) + fault_faults(code)
    found += unit_faults(tools) + status_faults(tools) + claim_faults(kinds)
    return found + metric_faults(sources) + number_faults(said) + source_faults() + session_faults()
