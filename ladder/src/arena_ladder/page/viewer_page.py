"""A page of the viewer that has a transcript in it, so that its file opens in a browser."""

from __future__ import annotations

import re
from pathlib import Path

LADDER = Path(__file__).resolve().parent.parent
INSTALLED = LADDER / "viewer"
VIEWER = INSTALLED if INSTALLED.is_dir() else LADDER.parents[2] / "viewer"  # of the repository


def viewer_page(title: str, transcript: bytes, answers: str = "[]") -> str:
    """The text of the page, which loads the viewer's scripts by their paths on this machine.

    `answers` are those of the bots, as JSON.

    JSON's escape for `<` keeps the transcript from ending its element.
    """
    page = (VIEWER / "index.html").read_text()
    page = re.sub(r'\b(src|href)="(?=[a-z_])(?!data:)', rf'\1="{VIEWER.as_uri()}/', page)
    text = transcript.decode().replace("<", "\\u003c")
    held = f'<script type="text/plain" id="transcript" title="{title}">{text}</script>\n'
    more = answers.replace("<", "\\u003c")
    held += f'<script type="text/plain" id="answers">{more}</script>\n'
    scripts = page.index("<script src=")
    return page[:scripts] + held + page[scripts:]
