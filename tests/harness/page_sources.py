"""The sources of the page, and the Rattle files that have them: crates/ui_page/page/page.html, where a line `{{FILE}}` includes a file of its
folder, and `{{drawing}}` and `{{session}}` are where these come."""
import re

from harness import TOP

SOURCES = TOP / "crates/ui_page/page"
GENERATED = TOP / "crates/ui_page/src/page"
INCLUDE = re.compile(r"^\{\{([a-z_]+\.(?:css|js))\}\}\n", re.MULTILINE)
DRAWING, SESSION = "{{drawing}}\n", "{{session}}\n"
LINES = 360  # of a generated file, unless one included file alone has more
NOTICE = "//! `tests/run page_sources --update` writes this file from `page/page.html` and what that includes.\n"


def with_includes(template):
    """The pieces of a part of the page: each ends after a file that it includes, and the last one at the end of the part."""
    pieces, at = [], 0
    for found in INCLUDE.finditer(template):
        pieces.append(template[at:found.start()] + (SOURCES / found[1]).read_text(encoding="utf-8"))
        at = found.end()
    return [*pieces[:-1], pieces[-1] + template[at:]] if pieces else [template]


def page_parts():
    """The page before its drawing, between that and its session, and after it, each as pieces."""
    before, rest = (SOURCES / "page.html").read_text(encoding="utf-8").split(DRAWING)
    between, after = rest.split(SESSION)
    return {"before": with_includes(before), "between": with_includes(between), "after": with_includes(after)}


def script():
    """The script of the page, which is one function."""
    return re.search(r"<script>\n(.*?)</script>", "".join(page_parts()["after"]), re.DOTALL)[1]


def packed(pieces):
    """The pieces in order, as few texts of at most so many lines."""
    texts = [""]
    for piece in pieces:
        if texts[-1] and (texts[-1] + piece).count("\n") > LINES:
            texts.append("")
        texts[-1] += piece
    return texts


def generated():
    """What each Rattle file has to be, by its name without the ending: the texts, and the functions that return them in order."""
    what = {"before": "before its drawing", "between": "between its drawing and its session", "after": "after its session"}
    files, modules, functions = {}, [], []
    for side, pieces in page_parts().items():
        texts = {f"{side}_{number}": text for number, text in enumerate(packed(pieces), 1)}
        files |= {name: f'{NOTICE}\npub(super) static TEXT: &str = r#"{text}"#;\n' for name, text in texts.items()}
        modules += [f"mod {name};\n" for name in texts]
        items = "".join(f"        {name}::TEXT,\n" for name in texts)
        array = f"    [\n{items}    ]\n" if len(texts) > 1 else f"    [{next(iter(texts))}::TEXT]\n"
        functions.append(f"\n/// The page {what[side]}.\npub(super) fn {side}() -> [&'static str; {len(texts)}] {{\n{array}}}\n")
    sources = "".join([NOTICE, "\n", *sorted(modules), *functions])
    return {"sources": sources, **{f"sources/{name}": text for name, text in files.items()}}
