"""The page of `kroft show`, from the files of page/: what stands before its data and behind them, as the program has it."""

import pathlib
import re

TOP = pathlib.Path(__file__).resolve().parent.parent
# What the page's own file names, and what stands in its place in a page that stands alone.
STYLE = "<link rel='stylesheet' href='show.css'>\n"
SCRIPT = re.compile(r"<script src='(\w+[.]js)'></script>\n")
DATA = "data.js"
# Where the data begin and end in a page that the program wrote.
DATA_BEGIN = "const blockWords = "
DATA_END = "]],\n];\n"


class PageFault(Exception):
    """Files of page/ that make no page, or a text that is no page."""


def read_files(folder=TOP / "page"):
    """The files of the page by their names."""
    names = ["show.html", "show.css"] + [it.name for it in folder.glob("*.js") if it.name != DATA]
    return {name: (folder / name).read_text(encoding="ascii") for name in names}


def parts(files):
    """What stands before the page's data and behind them."""
    for name, text in files.items():
        # (an end of an element, or of a comment, would end the one that the file is put into)
        if name != "show.html" and any(mark in text.lower() for mark in ("</s", "<!--")):
            raise PageFault(f"{name} holds what ends its element")
    page = files["show.html"]
    if page.count(STYLE) != 1:
        raise PageFault("show.html has to name show.css once")
    named = SCRIPT.findall(page)
    if named[:1] != [DATA] or sorted(named[1:]) != sorted(name for name in files if name.endswith(".js")):
        raise PageFault("show.html has to name data.js, and then each other script of the folder once")
    page = page.replace(STYLE, f"<style>\n{files['show.css']}</style>\n")
    before, behind = page.split(f"<script src='{DATA}'></script>\n")
    script = SCRIPT.sub(lambda it: f"<script>\n{files[it[1]]}</script>\n", behind)
    return f"{before}<script>\n", f"];\n</script>\n{script}"


def data_of(page):
    """The data of a page that the program wrote, with the bracket that ends them."""
    begin = page.find(DATA_BEGIN)
    end = page.find(DATA_END, begin)
    if begin < 0 or end < 0:
        raise PageFault("the text is no page of `kroft show`")
    return page[begin:end] + "]],\n"


def around(data, files):
    """The page that these files make around a program's data."""
    before, behind = parts(files)
    return before + data + behind
