"""unlink.py FOLDER: in the pages below a folder, leaves the words alone of each link to a file that isn't there, and no picture that isn't."""

import re
import sys
from pathlib import Path

# The words of a link in Markdown, the file, and the place in it. One to another host has a colon.
LINK = re.compile(r"\[([^][]+)\]\(([^):#]+)(?:#[^)]*)?\)")


# A picture, and the lines that it takes.
PICTURE = re.compile(r'^<img src="([^"]+)"[^>]*>\n\n?', re.M)


def without_absent(page: Path) -> str:
    """The text of a page, without the links to what isn't there, and without such pictures."""
    text = page.read_text(encoding="utf-8")
    text = PICTURE.sub(lambda picture: picture[0] if (page.parent / picture[1]).exists() else "", text)
    return LINK.sub(lambda link: link[0] if (page.parent / link[2]).exists() else link[1], text)


def main() -> None:
    for page in Path(sys.argv[1]).rglob("*.md"):
        page.write_text(without_absent(page), encoding="utf-8")


if __name__ == "__main__":
    main()
