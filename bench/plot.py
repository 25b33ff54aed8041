#!/usr/bin/python3
"""Draws what bench/run.py measured, and writes its numbers into docs/SPEED.md.

Usage: bench/plot.py

Of bench/out/run.tsv it makes docs/pictures/speed.svg, and the part of the page between its two marks. It needs
matplotlib (Debian: python3-matplotlib)."""
import csv
import html
import pathlib

TOP = pathlib.Path(__file__).resolve().parent.parent
RUN, PAGE, PICTURE = TOP / "bench/out/run.tsv", TOP / "docs/SPEED.md", TOP / "docs/pictures/speed.svg"
BEGIN, END = "<!-- written by bench/plot.py -->", "<!-- up to here -->"
COLUMNS = ["`bx`", "Beside", "`bx`, ms", "There, ms", "Times as fast", "`cat` of the text, ms", "`bx`, MiB",
           "There, MiB", "Same bytes"]
SLOWER, FASTER = "#c2703d", "#3d6b99"


def in_units(text, of):
    """A number of milliseconds by microseconds (1000), or of MiB by KiB (1024); nothing where there is none."""
    return "" if text == "-" else f"{int(text) / of:,.1f}"


def times(ratio):
    return f"{ratio:.2f}" if ratio < 10 else f"{ratio:.0f}"


def cell(text):
    return html.escape(text, quote=False).replace("|", "\\|")


def table(rows):
    """The rows as a table of Markdown, with a part for each group."""
    for group in dict.fromkeys(row["group"] for row in rows):
        yield from ["", f"### {group[0].upper()}{group[1:]}", "", f"| {' | '.join(COLUMNS)} |",
                    "|---|---|---:|---:|---:|---:|---:|---:|---|"]
        for row in (row for row in rows if row["group"] == group):
            ours, there, cat = (in_units(row[field], 1000) for field in ("ours", "there", "cat"))
            memory = [in_units(row[field], 1024) for field in ("our_memory", "their_memory")]
            said = [cell(row["name"]), cell(row["beside"]), ours, there, times(float(row["ratio"])), cat, *memory,
                    row["same"].strip("-")]
            yield f"| {' | '.join(said)} |"


def draw(rows):
    """A bar for each row: how many times as fast as what stands beside it, where 1 is as fast."""
    import matplotlib
    matplotlib.use("svg")
    from matplotlib import pyplot
    matplotlib.rcParams.update({"svg.hashsalt": "bx", "svg.fonttype": "none", "font.size": 9,
                                "font.family": "DejaVu Sans"})
    shown, places, ratios = list(reversed(rows)), range(len(rows)), [float(row["ratio"]) for row in reversed(rows)]
    figure, axes = pyplot.subplots(figsize=(9.5, 0.6 + 0.23 * len(shown)))
    axes.barh(places, [ratio - 1 for ratio in ratios], left=1, height=0.7,
              color=[FASTER if ratio >= 1 else SLOWER for ratio in ratios])
    axes.set_xscale("log")
    axes.set_xlim(min(min(ratios) / 2, 0.5), max(max(ratios) * 2, 2))
    axes.axvline(1, color="#3c3836", linewidth=0.8)
    axes.set_yticks(list(places), [f"{row['name']}   beside   {row['beside']}" for row in shown])
    axes.set_ylim(-0.7, len(shown) - 0.3)
    for place, ratio in zip(places, ratios):
        offset, side = (4, "left") if ratio >= 1 else (-4, "right")
        axes.annotate(times(ratio), (ratio, place), xytext=(offset, 0), fontsize=8, textcoords="offset points",
                      va="center", ha=side)
    for number, row in enumerate(shown[:-1]):
        if row["group"] != shown[number + 1]["group"]:
            axes.axhline(number + 0.5, color="#a89984", linewidth=0.6)
    axes.set_xlabel("times as fast as what stands beside it; 1 is as fast")
    axes.xaxis.set_major_formatter("{x:g}")
    axes.spines[["top", "right"]].set_visible(False)
    figure.patch.set_facecolor("white")
    figure.savefig(PICTURE, format="svg", bbox_inches="tight", metadata={"Date": None})


def main():
    lines = RUN.read_text(encoding="utf-8").splitlines()
    notes = [line[2:] for line in lines if line.startswith("# ")]
    rows = list(csv.DictReader((line for line in lines if not line.startswith("# ")), delimiter="\t",
                               quoting=csv.QUOTE_NONE))
    draw(rows)
    front, rest = PAGE.read_text(encoding="utf-8").split(BEGIN)
    page = ["", "![How many times as fast each row is](pictures/speed.svg)", "", *(f"- {cell(note)}" for note in notes),
            *table(rows), "", END]
    PAGE.write_text(front + BEGIN + "\n".join(page) + rest.split(END)[1], encoding="utf-8")


if __name__ == "__main__":
    main()
