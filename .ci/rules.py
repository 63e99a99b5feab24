"""Each path in a table of the page stands under crates/, and each name behind a path, up to the next path or the cell's end, stands in that file."""
import re
import sys

missing, rows = [], 0
for number, line in enumerate(open(sys.argv[1], encoding="utf-8"), 1):
    if not line.startswith("| "):
        continue
    rows += 1
    for cell in line.split("|"):
        text, path = "", None
        for word in re.findall(r"`([^`]+)`", cell):
            if "/" in word and word.endswith((".rt", ".antt")):
                path = word
                try:
                    text = open(f"crates/{path}", encoding="utf-8").read()
                except OSError:
                    missing.append(f"{sys.argv[1]}:{number}: no file crates/{path}")
                    text = None
            elif path and text is not None and not re.search(rf"(?<![\w']){re.escape(word)}(?![\w'])", text):
                missing.append(f"{sys.argv[1]}:{number}: crates/{path} has no {word}")
print("\n".join(missing) if missing else f"rules: {rows} rows, and all that they name is there")
sys.exit(bool(missing))
