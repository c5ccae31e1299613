"""What the whole output of a script is, in counts and a digest."""
import hashlib
import re

CONFIRMED = re.compile(r"(?:(\d+) (q\d+): )?confirmed (\d+)")
PUBLISHED = re.compile(r"\d+ \d+ enqueue (\d+) (\d+) \d+ confirmed (\d+)")
DELIVERED = re.compile(r"(?:\d+ q\d+: )?deliver ")


def summary(output):
    """Returns the counts of an output, and the printed confirms that haven't exactly one publish of their own."""
    printed, published = [], {}
    rows = delivered = 0
    queue = None
    for line in output.split("\n")[:-1]:
        if line.startswith("audit "):
            queue = line.split()[1]
        elif queue:
            rows += 1
            if row := PUBLISHED.fullmatch(line):
                published.setdefault((row[1], queue, row[2]), []).append(row[3])
        elif found := CONFIRMED.fullmatch(line):
            printed.append((found[1] or "1", found[2] or "q1", found[3]))
        elif DELIVERED.match(line):
            delivered += 1
    wrong = [each for each in printed if published.get(each) != [each[2]]]
    confirmed = sum(len(each) for each in published.values())
    digest = hashlib.sha256(output.encode("latin-1")).hexdigest()[:16]
    return f"rows {rows} confirmed {confirmed} delivered {delivered} digest {digest}", wrong
