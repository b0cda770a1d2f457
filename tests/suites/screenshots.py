"""Screenshots of the pages and SVG drawings of sessions, to look at.

They have the size of a small laptop and are light and dark. A screenshot fails if the session cannot be drawn, if the page has an error or
writes to the console, or if a drawing is not an SVG. A browser shows each SVG in its own size, and as wide as the window.
"""
from contextlib import contextmanager
from pathlib import Path

from harness import sessions, temporary_folder
from harness.browser import needs_browser, running_browser
from harness.session import draw, short_name

WIDTH, HEIGHT = 1366, 768
# A page that shows a drawing.
DRAWING_PAGE = """<!DOCTYPE html><meta name=color-scheme content="light dark"><link rel=icon href="data:,"><title>A drawing</title>
<img src="{address}" alt="" style="{style}" onerror="console.error('the drawing is not an SVG')">
"""


@contextmanager
def screenshot_folder(chosen):
    """The folder that --to names, or a temporary one."""
    if chosen:
        folder = Path(chosen).resolve()
        folder.mkdir(parents=True, exist_ok=True)
        yield folder
    else:
        with temporary_folder() as folder:
            yield folder


def screenshot_problem(browser, page, mode, picture):
    """Makes a screenshot of a page. What the page complains of."""
    browser.show(WIDTH, HEIGHT, mode)
    browser.open(page)
    picture.write_bytes(browser.picture())
    return "\n".join(browser.complaints())


def drawing_page(drawing, room, style=""):
    page = room / "drawing.html"
    page.write_text(DRAWING_PAGE.format(address=drawing.as_uri(), style=style))
    return page


def check_session(suite, browser, file, folder, room):
    folder.mkdir(exist_ok=True)
    drawn = {form: folder / f"{file.stem}.{form}" for form in ("html", "svg")}
    for form, path in drawn.items():
        if not suite.attempt(f"{short_name(file)} as {form}", lambda: path.write_bytes(draw(suite, form, file)) and ""):
            return

    def check(name, page, mode):
        picture = folder / f"{file.stem}-{name}-{mode}.png"
        suite.attempt(f"{folder.name}/{picture.name}", screenshot_problem, browser, page, mode, picture)

    for mode in ("light", "dark"):
        check("html", drawn["html"], mode)
        check("svg", drawing_page(drawn["svg"], room), mode)
    check("svg-whole", drawing_page(drawn["svg"], room, "max-width: 100%"), "light")


def run(suite):
    if not needs_browser(suite, "all screenshots"):
        return
    files = [Path(name).resolve() for name in suite.options.file] or sessions("examples", "tests/pictures")
    with screenshot_folder(suite.options.to) as folder, temporary_folder() as room, running_browser(room) as browser:
        for file in files:
            check_session(suite, browser, file, folder / file.parent.name, room)
