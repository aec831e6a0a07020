# Splits what `rt try --cases` printed to its standard output: behind `== NAME` stands what the program wrote in the case NAME,
# and a line feed where that doesn't end with one. An object never does, so the last line feed behind one is taken away.
import os, sys

folder, printed = sys.argv[1:]
out = None
for line in open(printed, "rb"):
    if line.startswith(b"== ") and os.path.exists(os.path.join(folder, "cases", os.fsdecode(line[3:-1]))):
        out = open(os.path.join(folder, os.fsdecode(line[3:-1]) + ".out"), "wb")
    else:
        out.write(line)
out = None
for name in os.listdir(os.path.join(folder, "cases")):
    path = os.path.join(folder, name + ".out")
    if not name.endswith(".args") and open(path, "rb").read(4) == b"HTLO":
        os.truncate(path, os.path.getsize(path) - 1)
