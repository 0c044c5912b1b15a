"""Other bodies for the functions of the crates, which bench/wrong-bodies and bench/right-bodies try: edits that replace lines of a crate.

A wrong body stands in crates/CRATE/must-fail, where the gate tries it, or in bench/wrong/CRATE; a right one in bench/controls/CRATE.
"""
import pathlib
import shutil

TOP = pathlib.Path(__file__).resolve().parent.parent


class Trouble(Exception):
    """Why a body cannot be tried, for the reader."""


def wrong_bodies(crate):
    """The wrong bodies of a crate, those that the gate tries first."""
    return [*sorted((TOP / "crates" / crate / "must-fail").glob("*.edit")), *sorted((TOP / "bench/wrong" / crate).glob("*.edit"))]


def wrong_body(crate, name):
    """The wrong body of that name, from either place."""
    found = [edit for edit in wrong_bodies(crate) if edit.stem == name]
    if len(found) != 1:
        raise Trouble(f"{crate} has {len(found) or 'no'} wrong {'bodies' if found else 'body'} {name}")
    return found[0]


def replacements(edit):
    """The file, the text that goes (None for a file that is made) and the text that comes, of each pair of lines."""
    found, file, old = [], None, None
    for line in edit.read_text(encoding="utf-8").splitlines():
        name, _, text = line.partition(": ")
        if name == "file":
            file = text
        elif name == "old":
            old = text
        elif name == "new":
            found.append((file, old, text))
            old = None
        elif name == "more":
            found[-1] = (*found[-1][:2], f"{found[-1][2]}\n{text}")
        else:
            raise Trouble(f"{edit} has a line that is not read: {line}")
    return found


def texts_with(crate, edit):
    """The files of the crate's folder that the edit changes or makes, each with its text behind the edit."""
    texts = {}
    for file, old, new in replacements(edit):
        place = crate / file
        if old is None:
            if place.exists():
                raise Trouble(f"{edit}: {file} is there before it is made")
            texts[place] = new + "\n"
            continue
        text = texts[place] if place in texts else place.read_text(encoding="utf-8")
        if text.count(old) != 1:
            raise Trouble(f"{edit}: {old!r} stands {text.count(old)} times in {file}")
        texts[place] = text.replace(old, new)
    return texts


def copy_crates(folder):
    """Copies the crates into a folder, where rt proves them, without what was built of them and without wrong bodies."""
    shutil.copytree(TOP / "crates", folder / "crates", ignore=shutil.ignore_patterns("out", "must-fail"))
    for name in ("crates.txt", "HANDLES"):
        shutil.copy(TOP / name, folder)
