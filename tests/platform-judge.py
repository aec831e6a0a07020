# Judges what `compile with` answered to the damaged forms of a platform file, which Python's own reader of TOML reads: the
# folder of the forms, and that of the answers. Prints each wrong answer, and how many forms had each kind of answer.
import collections, os, re, sys, tomllib

RESERVED = """program communicator sensor module start abstract task input output worst mode period port invoke parent
switch init int bool true false if""".split()
WORST = {"M.a": 7, "M.b": 3}
forms, answers = sys.argv[1:]


def is_name(text):
    return isinstance(text, str) and re.fullmatch(r"[A-Za-z_][A-Za-z0-9_]{0,47}", text) and text not in RESERVED


def shape(top):
    """The first entry that doesn't belong there, and the entries of the table `worst`, by their numbers."""
    place = len(top)
    entries = []
    for at, key in enumerate(sorted(top, key=str.encode)):
        value = top[key]
        if not (key == "name" and is_name(value) or key == "worst" and isinstance(value, dict)):
            return at, []
    for key in sorted(top.get("worst", {}), key=str.encode):
        entries.append((place, key, top["worst"][key]))
        place += 1
    for at, _, value in entries:
        if type(value) is not int:
            return at, []
    return None if "name" in top else len(top), entries


def judge(data):
    """The fault, or the platform's name and the worst cases."""
    try:
        top = tomllib.loads(data.decode())
    except ValueError:
        return "text", None
    bad, entries = shape(top)
    if bad is not None:
        return f"shape {bad}", None
    for at, key, _ in entries:
        if key not in WORST:
            return f"unknown {at}", None
    for at, _, value in entries:
        if not 1 <= value <= 1000000:
            return f"range {at}", None
    worst = {**WORST, **{key: value for _, key, value in entries}}
    return None, (top["name"], worst["M.a"], worst["M.b"])


def named(name, a, b):
    """The object of the source with these worst cases, in the version that names the platform and counts its one schedule."""
    plain = read(f"compile-two-{a}-{b}.out")
    tail = len(plain) - 22 - 4
    assert plain[:6] == b"HTLO\0\1" and plain[tail - 2 : tail + 4] == b"\0\1\0\0\0\4"
    return b"HTLO\0\2" + bytes([len(name)]) + name.encode() + plain[6:tail] + b"\0\0" + plain[tail:]


def read(name):
    with open(os.path.join(answers, name), "rb") as it:
        return it.read()


kinds = collections.Counter()
for form in sorted(os.listdir(forms)):
    with open(os.path.join(forms, form), "rb") as it:
        fault, platform = judge(it.read())
    kinds[fault.split()[0] if fault else "legal"] += 1
    want = (b"12\n", f"htl: platform {fault}\n".encode(), b"") if fault else (b"0\n", b"", named(*platform))
    got = tuple(read(f"fast-{form}.{it}") for it in ("status", "err", "out"))
    if got != want:
        print(form, want[:2], got[:2])
for kind, count in sorted(kinds.items()):
    print(count, kind)
