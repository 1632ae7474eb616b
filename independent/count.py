"""Prints the table of docs/VECTORS.md: vectors by source and call, and how many the second implementation ran.

    python3 independent/count.py
"""

import io

import cases

FILES = ("scope", "standard", "published", "limits", "damaged", "pages", "letters", "release9", "meter", "parts", "random")


def table():
    """The lines of the table."""
    rows = []
    for name in FILES:
        with open("vectors/%s.txt" % name, "rb") as file:
            text = file.read()
        lines = [line for line in text.decode("ascii").split("\n") if line and not line.startswith("#")]
        calls = [line.split(" ")[1] for line in lines]
        differ = cases.run(cases.input_lines(io.BytesIO(text)), lambda line: None)
        rows.append([name] + [calls.count(call) for call in cases.CALLS] + [len(lines), differ])
    rows.append(["all"] + [sum(column) for column in list(zip(*rows))[1:]])
    lines = ["| Source | " + " | ".join("`%s`" % call for call in cases.CALLS) + " | all | differ |",
             "|---" * (len(cases.CALLS) + 3) + "|"]
    return lines + ["| " + " | ".join(map(str, row)) + " |" for row in rows]


if __name__ == "__main__":
    print("\n".join(table()))
