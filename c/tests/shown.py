"""Whether the examples that a document shows are the files that it names: python3 shown.py DOCUMENT.."""

import re
import sys
from pathlib import Path

TOP = Path(__file__).resolve().parents[2]


def main():
    failed = 0
    for document in sys.argv[1:]:
        shown = re.findall(r"^`(\S+)`\n\n```\w+\n(.*?)^```$", Path(document).read_text(encoding="utf-8"), re.S | re.M)
        for name, text in shown:
            if (TOP / name).read_text(encoding="utf-8") != text:
                print(f"{document} does not show {name} as it is")
                failed = 1
        if not shown:
            print(f"{document} shows no example")
            failed = 1
    return failed


sys.exit(main())
