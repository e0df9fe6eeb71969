#!/usr/bin/env python3
"""Draws layers.svg and commit.svg, the two pictures of the pages. Run it in this folder, and look at what it made."""
from html import escape

INK, GREY, PAPER = "#1b2733", "#6b7785", "#ffffff"
BLUE, GREEN, ORANGE, SAND = "#dbe9f6", "#dff0e0", "#fbe3cf", "#f3efe6"
FONT = "font-family='Helvetica, Arial, sans-serif'"


class Picture:
    def __init__(self, width, height, title):
        self.size, self.title, self.parts = (width, height), title, []

    def box(self, x, y, width, height, fill, stroke=INK, dashed=False):
        dash = " stroke-dasharray='5 4'" if dashed else ""
        self.parts.append(
            f"<rect x='{x}' y='{y}' width='{width}' height='{height}' rx='6' fill='{fill}' stroke='{stroke}'{dash}/>")

    def text(self, x, y, words, size=14, color=INK, anchor="middle", bold=False, mono=False):
        font = "font-family='Menlo, Consolas, monospace'" if mono else FONT
        weight = " font-weight='bold'" if bold else ""
        self.parts.append(
            f"<text x='{x}' y='{y}' {font} font-size='{size}' fill='{color}' text-anchor='{anchor}'{weight}>"
            f"{escape(words)}</text>")

    def labelled(self, x, y, width, height, fill, head, below=""):
        self.box(x, y, width, height, fill)
        middle = y + height / 2
        self.text(x + width / 2, middle - 3 if below else middle + 5, head, 15, bold=True)
        if below:
            self.text(x + width / 2, middle + 16, below, 12, GREY, mono=True)

    def line(self, x1, y1, x2, y2, color=GREY, width=1.5, dashed=False):
        dash = " stroke-dasharray='5 4'" if dashed else ""
        self.parts.append(
            f"<line x1='{x1}' y1='{y1}' x2='{x2}' y2='{y2}' stroke='{color}' stroke-width='{width}'{dash}/>")

    def save(self, path):
        width, height = self.size
        body = "\n".join(self.parts)
        with open(path, "w", encoding="utf-8") as file:
            file.write(
                f"<svg xmlns='http://www.w3.org/2000/svg' width='{width}' height='{height}' "
                f"viewBox='0 0 {width} {height}'>\n<title>{escape(self.title)}</title>\n"
                f"<rect width='{width}' height='{height}' fill='{PAPER}'/>\n{body}\n</svg>\n")


def layers():
    it = Picture(860, 640, "The layers of per, and what is proved of them")
    it.text(20, 30, "Who calls", 13, GREY, "start")
    it.labelled(20, 42, 205, 52, SAND, "C++ programs", "cpp/, tested")
    it.labelled(240, 42, 205, 52, SAND, "lines on a pipe", "per --dir, --serve")
    it.labelled(460, 42, 205, 52, SAND, "Rattle programs", "odometer")
    for x in (122, 342, 562):
        it.line(x, 94, x, 118)
    it.line(638, 94, 638, 242)
    it.labelled(20, 118, 590, 50, BLUE, "jobs: run, format, audit, export, import", "per_run")
    it.labelled(20, 180, 590, 50, BLUE, "eight applications, their open storages and replies", "per_runtime")
    it.labelled(20, 242, 317, 50, BLUE, "versions, banks, updates", "deploy")
    it.labelled(348, 242, 153, 50, BLUE, "files", "file_storage")
    it.labelled(512, 242, 153, 50, BLUE, "keys", "kvs_store")
    it.labelled(20, 304, 645, 50, BLUE, "elements in N copies, of which M must agree", "element_store")
    it.labelled(20, 366, 317, 50, BLUE, "an index, in two slots", "guarded_cell")
    it.labelled(348, 366, 317, 50, BLUE, "contents, in blocks of 256 bytes", "block_files")
    it.labelled(20, 428, 645, 50, GREEN, "a disk: writes tear, memory decays, calls fail", "disk_model")
    it.labelled(20, 490, 205, 50, BLUE, "a folder", "folder_disk")
    it.labelled(240, 490, 205, 50, BLUE, "raw flash", "flash_disk")
    it.labelled(460, 490, 205, 50, BLUE, "memory, for tests", "MemDisk")
    it.labelled(20, 568, 645, 50, ORANGE, "the calls of the system, the streams, main, the driver of the flash", "")
    for x in (122, 342):
        it.line(x, 540, x, 568)
    it.line(690, 118, 690, 540, INK, 2)
    for y in (118, 540):
        it.line(682, y, 690, y, INK, 2)
    it.text(705, 322, "proved:", 14, anchor="start", bold=True)
    it.text(705, 342, "each function", 14, anchor="start")
    it.text(705, 362, "against its contract", 14, anchor="start")
    it.text(705, 590, "believed", 14, anchor="start", bold=True)
    it.save("layers.svg")


COPIES = 3
STATES = [
    (("at rest",), "4", "-", "7", "before"),
    (("the content", "is written"), "4", "-", "7?", "before"),
    (("synced",), "4", "-", "79", "before"),
    (("the index", "is written"), "4", "?", "79", "either"),
    (("synced",), "4", "5", "79", "after"),
    (("the old index", "is blanked"), "?", "5", "79", "after"),
    (("synced:", "answer ok"), "-", "5", "9", "after"),
]
COLORS = {"7?": ORANGE, "79": GREEN, "4": BLUE, "5": GREEN, "7": BLUE, "9": GREEN, "?": ORANGE, "-": PAPER}
SAYS = {"7?": "7 and torn", "79": "7 and 9", "4": "index 4", "5": "index 5", "7": "7", "9": "9", "?": "torn", "-": "blank"}


def commit():
    left, top, column, cell = 150, 80, 104, 30
    it = Picture(left + column * len(STATES) + 20, 446, "A commit, state by state, and what a power loss in each leaves")
    it.text(20, 32, "The value 7 becomes 9: three copies, of which two must agree", 17, anchor="start", bold=True)
    it.text(20, 54, "Each column is a state of the disk. A power loss may leave anything where it says “torn”, until the sync "
                    "has ended.", 13, GREY, "start")
    for at, (name, even, odd, area, left_over) in enumerate(STATES):
        x = left + column * at
        for row, words in enumerate(name):
            it.text(x + 46, top + (13 if len(name) == 1 else 6) + 14 * row, words, 12, bold=True)
        for copy in range(COPIES):
            for row, content in enumerate((even, odd, area)):
                y = top + 34 + copy * 84 + row * 25
                if content == "-":
                    it.box(x, y, 92, 22, PAPER, GREY, dashed=True)
                else:
                    it.box(x, y, 92, 22, COLORS[content])
                it.text(x + 46, y + 15, SAYS[content], 12, GREY if content == "-" else INK)
        y = top + 34 + COPIES * 84 + 4
        it.box(x, y, 92, cell, BLUE if left_over == "before" else GREEN if left_over == "after" else SAND)
        it.text(x + 46, y + 19, left_over, 12, bold=True)
    for copy in range(COPIES):
        y = top + 34 + copy * 84
        it.text(20, y + 15, f"copy {copy + 1}", 13, anchor="start", bold=True)
        for row, name in enumerate(("even slot", "odd slot", "area")):
            it.text(left - 10, y + 15 + row * 25, name, 12, GREY, "end")
    y = top + 34 + COPIES * 84 + 4
    it.text(20, y + 13, "opened then,", 12, anchor="start", bold=True)
    it.text(20, y + 28, "it stands as", 12, anchor="start", bold=True)
    it.text(20, y + 56, "While the index is written: after the change where two copies have index 5 whole, else before. "
                        "Both indexes name contents that are durable.", 12, GREY, "start")
    it.save("commit.svg")


if __name__ == "__main__":
    layers()
    commit()
