"""Compares the lines, faults and statuses of docs/SCRIPT.md with those of the independent model."""
import table
from lines import FORMS, ORDER

# Forms of which several stand for one of the model's, as its last word.
SEVERAL = {"crash": 2, "credit": 6}


def main():
    page = {name: {len(it.form.split()) - 1 for it in forms} for name, forms in table.lines().items()}
    print(
        f"{len(page)} lines, of which the model lacks {sorted(page.keys() - FORMS.keys())} and the page "
        f"{sorted(FORMS.keys() - page.keys())}"
    )
    for name, form in FORMS.items():
        wanted = len(form.split())
        counts = page.get(name, set())
        if wanted not in counts and name not in SEVERAL:
            print(f"{name}: {wanted} words in the model, {sorted(counts)} on the page")
    print(f"the faults are {'the same' if set(table.faults()) == set(ORDER) else 'others'}")
    print(f"statuses with advice: {sorted(table.ADVICE) == sorted(table.statuses())}")


main()
