"""Reads the worked lists of words, and says for how many of them the launcher's rules and the worked answers agree,
and how many explanations there are: wordlists.py TREE."""
import glob
import sys

sys.path.insert(0, f"{sys.argv[1]}/tools/launcher")
sys.dont_write_bytecode = True
import words


def lists():
    """Yields each list of words, and whether it is a command."""
    for name in sorted(glob.glob(f"{sys.argv[1]}/cases/words/*.txt")):
        with open(name, encoding="utf-8") as file:
            rows = file.read().split("\n")
        for row, below in zip(rows, rows[1:]):
            if below.startswith("  ") and not row.startswith(("  ", "#")):
                yield row, below.strip() != "usage"


def main():
    agree, differ, told = 0, 0, set()
    for row, is_command in lists():
        given = [] if row == "no words" else ["" if word == "''" else word for word in row.split(" ")]
        try:
            words.read(given)
            was = True
        except words.Wrong as wrong:
            was = False
            told.add(str(wrong))
        agree += was == is_command
        differ += was != is_command
        if was != is_command:
            print(f"{row}: {'a command' if was else 'no command'}")
    print(
        f"{'more than 200' if agree > 200 else agree} agree, {differ} differ, "
        f"{'more than 90' if len(told) > 90 else len(told)} explanations"
    )


if __name__ == "__main__":
    main()
