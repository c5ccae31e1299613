"""Runs what a page shows: paged.py PAGE.., in the folder where ./qq is. In a page's indented blocks `$ ` begins a
command, and the lines after it are what it prints; `$ cat FILE` shows a file, which is made first."""
import re
import subprocess
import sys


def commands(text):
    """Yields each command of the page with its lines."""
    for block in re.findall(r"(?:^    .*\n|^\n(?=    ))+", text, re.M):
        rows = [row[4:] for row in block.split("\n")]
        while rows and not rows[-1]:
            rows.pop()
        found = []
        for row in rows:
            if row.startswith("$ "):
                found.append((row[2:], []))
            elif found:
                found[-1][1].append(row)
        yield from found


def main():
    for page in sys.argv[1:]:
        with open(page, encoding="utf-8") as file:
            text = file.read()
        count = differ = 0
        for command, wanted in commands(text):
            made = re.fullmatch(r"cat (\S+)", command)
            if made:
                with open(made[1], "w", encoding="utf-8") as file:
                    file.write("\n".join(wanted) + "\n")
                continue
            if not command.startswith("./qq "):
                continue
            done = subprocess.run(
                command,
                shell=True,
                stdin=subprocess.DEVNULL,
                stdout=subprocess.PIPE,
                stderr=subprocess.DEVNULL,
                check=False,
            )
            found = done.stdout.decode().split("\n")[:-1]
            count += 1
            if found != wanted:
                differ += 1
                print(f"{command}\n  wanted {wanted}\n  found  {found}")
        print(f"{page.rpartition('/')[2]}: {count} commands, {differ} differ")


main()
