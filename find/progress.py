"""Says how far a search is: at a terminal, a line each second that is written over the last one."""
import sys
import time


class Progress:
    """The line of progress."""

    def __init__(self):
        self.is_terminal, self.shown_at, self.is_shown = sys.stderr.isatty(), 0.0, False

    def show(self, text):
        """Shows a text, at most once a second. `text` is a function, which is called only if its text is shown."""
        now = time.monotonic()
        if self.is_terminal and now >= self.shown_at + 1:
            self.shown_at, self.is_shown = now, True
            print(f"\r\033[K{text()}", end="", file=sys.stderr, flush=True)

    def clear(self):
        """Removes the line."""
        if self.is_shown:
            self.is_shown = False
            print("\r\033[K", end="", file=sys.stderr, flush=True)
