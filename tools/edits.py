"""The mutants of crates/NAME/must-fail and crates/NAME/wrong-bodies: a wrong body is text in place of other text of a file."""
import re


def changes(path):
    """The changes of an edit: file, old text and new text."""
    found, file, key = [], None, None
    with open(path, encoding="utf-8") as edit:
        for line in edit.read().rstrip("\n").split("\n"):
            head = re.match(r"(file|old|new):(?: (.*))?$", line)
            if not head:
                found[-1][key].append(line)
                continue
            key, rest = head.groups()
            if key == "file":
                file = rest
                continue
            if key == "old":
                found.append({"file": file, "old": [], "new": []})
            if rest is not None:
                found[-1][key].append(rest)
    return [(part["file"], "\n".join(part["old"]), "\n".join(part["new"])) for part in found]
