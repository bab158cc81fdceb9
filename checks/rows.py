#!/usr/bin/env python3
"""Joins the rows of crates/worked_rows/rows/*.jsonl, in the order of the files' names, into the crate's stdin and stdout. The
expressions of the rows of `value` that end with a value or a fault are the stdin of crates/node_rows.

    checks/rows.py            writes these files
    checks/rows.py --check    says whether they are what it would write, by its exit status
    checks/rows.py --run PROGRAM [NAME.jsonl ..]    runs rows by the program itself, in a folder with their files

Each line of those files is one row: a JSON object in the form that crates/worked_rows/src/main.rt gives. Names of rows differ. Rows
with `fails` or `images` are left out by --run, since no real call is made to fail, and the program has its own images.

A row may have a member `sweep`, an object, and then stands for more rows. Its `out` is an array with a text for each write. The member
`reads` has the names of the files in the order in which they are read. The other rows are this one with each read failing, with each
write of out failing after 0 bytes and after 1 byte, and, if `cut` is "style" or "script", with that file cut to each length below its own.
"""

import json
import os
import subprocess
import sys
import tempfile

HERE = os.path.dirname(os.path.abspath(__file__))
CRATES = os.path.join(HERE, "..", "crates")
ROWS = os.path.join(CRATES, "worked_rows", "rows")


def row_files():
    return sorted(name for name in os.listdir(ROWS) if name.endswith(".jsonl"))


def read_rows(names):
    rows = []
    for name in names:
        with open(os.path.join(ROWS, name), encoding="utf-8") as file:
            for line in file:
                if line.strip():
                    row = json.loads(line)
                    rows += [(compact(each), each) for each in swept(row)] if "sweep" in row else [(line.strip(), row)]
    names = [row["name"] for _, row in rows]
    twice = sorted({name for name in names if names.count(name) > 1})
    if twice:
        sys.exit("rows: these names stand twice: " + ", ".join(twice))
    return rows


def compact(row):
    return json.dumps(row, ensure_ascii=False, separators=(",", ":"))


def swept(row):
    """A row without its `sweep`, and the rows that the sweep makes of it."""
    sweep = row.pop("sweep")
    yield row

    def varied(how, **members):
        return {**row, "name": row["name"] + ": " + how, **members}

    for call, name in enumerate(sweep.get("reads", [])):
        yield varied(f"read {call} fails", out="", err=f'read "{name}"\n', status=4, fails={"files": [call]})
    for call, text in enumerate(row["out"]):
        for taken in (0, 1):
            out = row["out"][:call] + [text[:taken]]
            yield varied(f"write {call} fails after {taken}", out=out, err="", status=5, fails={"out": [[call, taken]]})
    if "cut" in sweep:
        word, wanted = {"style": (1, cut_style), "script": (2, cut_script)}[sweep["cut"]]
        name = row["words"][word]
        for length in range(len(row["files"][name])):
            files = {**row["files"], name: row["files"][name][:length]}
            yield varied(f"the {sweep['cut']} is cut to {length}", files=files, **wanted(row, name, length))


def cut_style(_row, _name, length):
    """What is wanted of a style that is cut. Each front of a JSON object is one of some other object."""
    return {"out": "", "err": f"refused style json Syntax {length}\n", "status": 3}


def cut_script(row, name, length):
    """What is wanted of a script that is cut: the answers to its whole lines, and a refusal of one that is cut inside."""
    script, answers = row["files"][name], []
    for number, (line, whole) in enumerate(zip(script[:length].splitlines(), script.splitlines())):
        answers.append(row["out"][number] if line == whole else f"refused {number + 1} Json\n")
    return {"out": answers, "err": "", "status": 1 if any(answer.startswith("refused") for answer in answers) else 0}


def joined():
    """What files of crates have to be, by their names."""
    rows = read_rows(row_files())
    return {
        "worked_rows/stdin": "".join(line + "\n" for line, _ in rows),
        "worked_rows/stdout": "".join(f"ok {row['name']}\n" for _, row in rows),
        "node_rows/stdin": "".join(expression + "\n" for expression in dict.fromkeys(expressions(rows))),
    }


def expressions(rows):
    """The expressions of `value` that are read and well typed: one word of one line, and a status of a value or a fault."""
    for _, row in rows:
        if row["words"][:1] == ["value"] and len(row["words"]) == 2 and row["status"] in (0, 1) and isinstance(row["words"][1], str):
            yield row["words"][1].replace("\n", " ").replace("\r", " ")


def content(value):
    if isinstance(value, list):
        return b"".join(content(piece) for piece in value)
    if isinstance(value, str):
        return value.encode()
    if "times" in value:
        return content(value["of"]) * value["times"]
    return bytes.fromhex(value["hex"])


def run_row(program, row):
    """What the program gives, as out, err and status."""
    with tempfile.TemporaryDirectory() as folder:
        for name, value in row.get("files", {}).items():
            with open(os.path.join(folder, name), "wb") as file:
                file.write(content(value))
        words = [content(word).decode() for word in row["words"]]
        run = subprocess.run([program] + words, cwd=folder, capture_output=True, timeout=60)
        return (run.stdout, run.stderr, run.returncode)


def run_rows(program, names):
    failed = 0
    for _, row in read_rows(names or row_files()):
        # The system hands no word over that is longer than 128 KiB.
        if "fails" in row or "images" in row or any(len(content(word)) >= 131072 for word in row["words"]):
            continue
        if run_row(program, row) != (content(row["out"]), content(row["err"]), row["status"]):
            failed += 1
            print("FAILED " + row["name"])
    print(f"{failed} failed")
    return 1 if failed else 0


def main(arguments):
    if arguments[:1] == ["--run"]:
        return run_rows(os.path.abspath(arguments[1]), arguments[2:])
    stored = True
    for name, text in joined().items():
        path = os.path.join(CRATES, name)
        if arguments[:1] == ["--check"]:
            with open(path, encoding="utf-8") as file:
                stored = stored and file.read() == text
        else:
            with open(path, "w", encoding="utf-8") as file:
                file.write(text)
    return 0 if stored else 1


if __name__ == "__main__":
    sys.exit(main(sys.argv[1:]))
