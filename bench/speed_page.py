"""Writes the tables of docs/SPEED.md and of README from figures."""
import statistics

# The figure of a run that was stopped.
MORE = "more"
MOST_SECONDS, MOST_MEGABYTES = 3, 300

HEAD = """# Speed and memory

This page is written by `bench/speed` from the figures in `bench/speed.json`;
`bench/speed --measure` measures anew.

Seconds are processor seconds (user and system), since the clock also counts what else the machine
does; they still grow by a half on a machine that is busy. MB are 10^6 bytes: the peak memory of the
program alone. "Times" is the time of yangcheck as a multiple of that of yanglint, where both accept
the input. `>` is a run that was stopped.

"""

HOSTILE = """Files from strangers are to take at most {seconds} seconds and {megabytes} MB each. The rows past that are
known, and `bench/strangers` fails if one of them gets worse. [ASSURANCE](ASSURANCE.md) says under
"Open" what their causes are. A row in italics was not measured in this run, since it takes long:
its figures are those of `bench/known.json`.

"""


def seconds_of(figure):
    """Seconds as a table shows them."""
    if figure is None:
        return "-"
    seconds, status = figure["seconds"], figure["status"]
    if status is None:
        return f"> {seconds:.0f}" if seconds > 0.9 else "crash"
    return f"{seconds:.3f}" if seconds < 0.1 else f"{seconds:.2f}"


def megabytes_of(figure):
    return "-" if figure is None else f"{figure['megabytes']:,.0f}"


def times_of(row, other="yanglint"):
    """How often the seconds of the other program fit into those of yangcheck, or None where they can't be compared."""
    ours, theirs = row["yangcheck"], row.get(other)
    if not theirs or ours["status"] != 0 or theirs["status"] != 0:
        return None
    return ours["seconds"] / max(theirs["seconds"], 0.000_001)


def ratio(number):
    return "-" if number is None else f"{number:.2f}"


def kilobytes(size):
    return f"{size / 1000:,.0f}"


def table(heading, rows):
    """A table whose first column is text, and whose others are numbers."""
    lines = ["| " + " | ".join(heading) + " |", "|---|" + "---:|" * (len(heading) - 1)]
    return "\n".join(lines + ["| " + " | ".join(row) + " |" for row in rows]) + "\n"


def compared(row):
    """The columns of a row that compares both programs."""
    ours, theirs = row["yangcheck"], row["yanglint"]
    return [seconds_of(ours), megabytes_of(ours), seconds_of(theirs), megabytes_of(theirs), ratio(times_of(row))]


COMPARED = ["yangcheck s", "MB", "yanglint s", "MB", "times"]


def when(figures, part):
    """When and with what a part was measured, or the note on figures that were made otherwise."""
    made = figures["measured"][part]
    if "note" in made:
        return made["note"] + "\n\n"
    runs = "one run" if made["runs"] == 1 else f"the best of {made['runs']} runs"
    programs = f"yangcheck {made['yangcheck']} (`{made['program']}`) and yanglint {made['yanglint']}"
    return (f"Measured on {made['date']} with {programs}:\n{runs} of each, stopped after {made['most']} s, on\n"
            f"{made['machine']}, with a load of {made['load']}.\n\n")


def slower(rows):
    """What a table shows as a whole: how many rows are slower than yanglint."""
    times = [times_of(row) for row in rows if times_of(row) is not None]
    worse = sum(number > 1 for number in times)
    return f"Both accept {len(times)} of these inputs; yangcheck is slower on {worse}.\n\n"


def sets_part(figures):
    rows = figures["sets"]
    times = [times_of(row) for row in rows if times_of(row) is not None]
    said = ("Twenty sets of modules with the addresses, prefixes, names and dates of RFC 6991, compiled\n"
            f"(`bench/run`). The median of times is {statistics.median(times):.2f}.\n\n")
    lines = [[row["name"].split(": ")[-1], kilobytes(row["module"]), *compared(row)] for row in rows]
    return "## Sets of modules\n\n" + said + when(figures, "sets") + table(["set", "KB", *COMPARED], lines)


def modules_part(figures):
    rows = figures["modules"]
    lines = [[row["name"], kilobytes(row["module"]), *compared(row)] for row in rows]
    heading = ["input", "KB", *COMPARED]
    return "## Large modules\n\n`bench/run` has these.\n\n" + slower(rows) + when(figures, "modules") + table(heading, lines)


def documents_part(figures):
    rows = figures["documents"]
    said = ("Validated (`bench/documents`). \"Reading\" is the time of yangcheck as a multiple of that of a\n"
            "program which only reads the document by the same `serde_json` and drops it (`bench/floor`).\n"
            "\"Per MB\" is the peak memory of both programs for each MB of the document.\n\n")
    lines = []
    for row in rows:
        size = row["document"] / 1e6
        each = "/".join(f"{row[tool]['megabytes'] / size:.0f}" if row.get(tool) else "-" for tool in ("yangcheck", "yanglint"))
        lines.append([row["name"], f"{size:.1f}", *compared(row), ratio(times_of(row, "floor")), each])
    heading = ["input", "MB of document", *COMPARED, "reading", "per MB"]
    return "## Documents\n\n" + said + slower(rows) + when(figures, "documents") + table(heading, lines)


def growth_part(figures):
    lines = []
    for kind in figures["kinds"]:
        for point in kind["points"]:
            lines.append([f"{point['size']:,} {kind['name']}", shown(point["yangcheck"], figures), shown(point["yanglint"], figures)])
    said = "README shows the last row of each kind and draws some of them.\n\n"
    return "## Growth\n\n" + said + when(figures, "growth") + table(["input", "yangcheck", "yanglint"], lines)


def hostile_row(row):
    ours = row["yangcheck"]
    past = ours["status"] is None or ours["seconds"] > MOST_SECONDS or ours["megabytes"] > MOST_MEGABYTES
    size = f"{kilobytes(row['module'])} + {kilobytes(row['document'])}" if row["measured"] else "-"
    name = row["name"] if row["measured"] else f"*{row['name']}*"
    status = "-" if ours["status"] is None else str(ours["status"])
    seconds = seconds_of(ours) if row["measured"] else f"{ours['seconds']:g}"
    return [name, size, seconds, megabytes_of(ours), status, "over" if past else ""]


def hostile_part(figures):
    rows = figures["hostile"]
    said = HOSTILE.format(seconds=MOST_SECONDS, megabytes=MOST_MEGABYTES)
    lines = [hostile_row(row) for row in rows]
    heading = ["input", "KB of modules + document", "s", "MB", "status", "limits"]
    return "## Small inputs that ask for much\n\n" + said + when(figures, "hostile") + table(heading, lines)


def page(figures):
    """The text of docs/SPEED.md, with the parts that were measured."""
    parts = {
        "sets": sets_part, "modules": modules_part, "documents": documents_part, "growth": growth_part, "hostile": hostile_part,
    }
    return HEAD + "\n".join(part(figures) for name, part in parts.items() if name in figures["measured"])


def shown(seconds, figures):
    """Seconds as README shows them."""
    if seconds == MORE:
        return f"> {figures['measured']['growth']['most']} s"
    return f"{seconds:.1f} s" if seconds >= 1 else f"{seconds:.2f} s"


def median_of(rows, tool):
    return statistics.median(row[tool]["seconds"] for row in rows if row[tool]["status"] == 0)


def readme_table(figures):
    lines = []
    for kind in figures["kinds"]:
        last = kind["points"][-1]
        lines.append([f"{last['size']:,} {kind['name']}", shown(last["yangcheck"], figures), shown(last["yanglint"], figures)])
    medians = [f"{1000 * median_of(figures['sets'], tool):.1f} ms" for tool in ("yangcheck", "yanglint")]
    lines.append(["a set of modules with the types of RFC 6991 (median of 20)", *medians])
    return table(["input", "yangcheck", "yanglint"], lines)
