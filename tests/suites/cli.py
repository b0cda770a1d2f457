"""What a person sees at the command line: sessions, refused programs, `test`, and the limits of a session.

Each file of tests/cli/ is a transcript (harness/transcripts.py) of one topic.
"""
from harness import TESTS, sessions
from harness.transcripts import check


def run(suite):
    transcripts = sorted((TESTS / "cli").glob("*.txt"))
    for transcript in transcripts:
        check(suite, transcript)
    # Each example has a transcript of its session.
    shown = "".join(transcript.read_text(encoding="utf-8") for transcript in transcripts)
    for example in sessions("examples"):
        suite.case(example.name, "" if f"$ rdbg talk examples/{example.name}\n" in shown else "tests/cli/ has no transcript of it")
