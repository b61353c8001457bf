#!/usr/bin/env python3
"""Tests that the pages rely on nothing that a clone lacks.

What a page links to is a file of the tree, and no product of a build; the heading that a link names is there. A path or a command that a page names in code
is there. A page that cites the papers, which no clone has, points to docs/ZONE.md, which says what they say: README.md and the pages that it links to.
"""
import pathlib
import re
import sys

ROOT = pathlib.Path(__file__).resolve().parent.parent
PAPERS = re.compile(r"\bdocuments? 0[12]\b")
ANSWER = "docs/ZONE.md"
# notes on the tree as it was: the paths that they name may be gone
OF_THEIR_TIME = ("docs/LANDINGS.md",)


def pages(root):
    return sorted(path.relative_to(root).as_posix() for pattern in ("*.md", "*/*.md") for path in root.glob(pattern))


def read(root, page):
    return (root / page).read_text(encoding="utf-8")


def prose(text):
    """The page without what stands between fences."""
    return re.sub(r"^```.*?^```$", "", text, flags=re.M | re.S)


def built(root):
    """The names of folders that git passes over: what is there comes from a build."""
    lines = [line for path in (root, *root.iterdir()) if (path / ".gitignore").is_file() for line in (path / ".gitignore").read_text().split()]
    return {line.rstrip("/").rsplit("/", 1)[-1] for line in lines}


def comes_with(root, path):
    """Whether a file or a folder comes with a clone."""
    inside = pathlib.Path(path).resolve()
    return inside.exists() and root.resolve() in (inside, *inside.parents) and not built(root) & set(inside.relative_to(root.resolve()).parts)


# ---- links


def anchors(text):
    """The headings of a page as links name them."""
    heads = re.findall(r"^#+ (.*)$", prose(text), re.M)
    return {re.sub(r"[^\w -]", "", head.lower()).strip().replace(" ", "-") for head in heads}


def links(text):
    return re.findall(r"\]\(([^)\s]+)\)", prose(text))


def link_fault(root, page, link):
    file, _, anchor = link.partition("#")
    path = (root / page).parent / file if file else root / page
    if not comes_with(root, path):
        return f"{page}: no file of the tree: {link}"
    if anchor and anchor not in anchors(path.read_text(encoding="utf-8")):
        return f"{page}: no such heading: {link}"
    return None


# ---- paths and commands


def named_paths(root, text):
    """The paths of the tree that a page names in code, between backquotes or in lines that are set in."""
    tops = {path.name for path in root.iterdir() if path.is_dir()}
    code = re.findall(r"`([^`\n]+)`", prose(text)) + re.findall(r"^ {4}(\S.*)$", prose(text), re.M)
    words = [word for span in code for word in re.findall(r"[\w./*-]+", span)]
    return [word.rstrip(".") for word in words if word.startswith("./") or "/" in word and word.split("/")[0] in tops]


def is_named(root, page, word):
    """A file, the beginning of one's name (a definition without its ending), a pattern (NAME stands for any); from the root or, after `./`, from the page's folder."""
    from_page = (root / page).parent if word.startswith("./") else root
    plain = re.sub(r"\bNAME\b", "*", word.removeprefix("./"))
    return any(any(folder.glob(plain)) or any(folder.glob(f"{plain}.*")) for folder in (root, from_page))


def path_fault(root, page, word):
    """What a build makes need not be there, nor what a command of the page makes."""
    made = {f"./{name}" for name in re.findall(r" -o (\w+)", read(root, page))}
    if built(root) & set(pathlib.PurePosixPath(word).parts) or word in made or is_named(root, page, word):
        return None
    return f"{page}: no file of the tree: {word}"


# ---- the papers


def for_users(root):
    """README.md and the pages that it links to."""
    linked = {link.partition("#")[0] for link in links(read(root, "README.md"))}
    return ["README.md", *(page for page in pages(root) if page in linked)]


def points(root, page):
    """Whether a page links to the one that says what the papers say."""
    targets = [((root / page).parent / link.partition("#")[0]).resolve() for link in links(read(root, page))]
    return page == ANSWER or (root / ANSWER).resolve() in targets


def paper_faults(root):
    citing = [page for page in for_users(root) if PAPERS.search(read(root, page))]
    return [f"{page}: cites the papers and does not link to {ANSWER}" for page in citing if not points(root, page)]


# ----


def faults(root):
    found = []
    for page in pages(root):
        text = read(root, page)
        found += [link_fault(root, page, link) for link in links(text)]
        found += [path_fault(root, page, word) for word in named_paths(root, text) if page not in OF_THEIR_TIME]
    return [fault for fault in found if fault] + paper_faults(root)


if __name__ == "__main__":
    sys.exit("\n".join(faults(ROOT)) or 0)
