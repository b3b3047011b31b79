"""What a class.toml says, and what of it is wrong. Each fault is one line with the file, the line, the key and what to do. start writes
lines of its own above the text and below it, as hub.toml; so a line that the hub refuses there is told as the line of the class."""
import os, re, tomllib
from parts import HERE, SITE, stop_here

OWN = f"{SITE}/class.toml"
FILE = OWN if os.path.exists(OWN) else f"{HERE}/class.toml"
# what start writes itself
KEYS = ("listen", "hub_url", "pool", "proxy_api", "proxy_secret", "command")
NAMES = {"services": ("roll", "front"), "roles": ("front",)}
# names of users become names of folders, and stand in nginx's files
NAME = re.compile(r"[a-z0-9][a-z0-9._@-]{0,63}")
# whom start gives tokens, or asks
NEEDED = {"users": ("operator", "who looks after the site", " and admin = true"), "services": ("culler", "which stops idle servers", "")}


def line_of(text, key, entry=0):
    """The line of a key of no table, or of the header of an entry of its list. Nothing where the text has neither."""
    lines = list(enumerate(text.split("\n"), 1))
    headers = [at for at, line in lines if re.match(rf"\s*\[\[?\s*{key}\s*\]", line)]
    if entry < len(headers):
        return headers[entry]
    first = next((at for at, line in lines if re.match(r"\s*\[", line)), len(lines) + 1)
    return next((at for at, line in lines if at < first and re.match(rf"\s*{key}\s*=", line)), None)


def refuse(text, key, what, entry=None):
    line, place = line_of(text, key, entry or 0), "" if entry is None else f", entry {entry + 1}"
    stop_here(f"{FILE}{f', line {line}' if line else ''}: {key}{place}: {what}")


def read_class():
    try:
        with open(FILE, "rb") as file:
            told = file.read()
    except OSError as fault:
        stop_here(f"{FILE}: it can't be read ({fault.strerror}): copy {HERE}/class.toml there, or take the file away")
    try:
        return told.decode()
    except UnicodeDecodeError as fault:
        stop_here(f"{FILE}, line {told.count(bytes([10]), 0, fault.start) + 1}: this is no UTF-8: save the file as UTF-8")


def table_of(text):
    try:
        return tomllib.loads(text)
    except ValueError as fault:
        said, _, place = str(fault).rstrip(")").partition(" (at ")
        last = len(text.rstrip("\n").split("\n"))
        line = int(found[1]) if (found := re.match(r"line (\d+)", place)) else last
        written = text.split("\n")[line - 1].strip()[:60]
        stop_here(f"{FILE}, line {line}: {written!r} is no TOML: {said}: texts stand between quotes, lists between brackets")


def names_in(text, table, key):
    """The names of a list of tables, each of which has one."""
    entries = table.get(key, [])
    if not isinstance(entries, list):
        refuse(text, key, f"this is no list: write [[{key}]], and below it name = \"..\"")
    for at, entry in enumerate(entries):
        if not isinstance(entry, dict) or not isinstance(entry.get("name"), str):
            refuse(text, key, f"this has no name that is a text: write [[{key}]], and below it name = \"..\"", at)
    return [entry["name"] for entry in entries]


def see_own(text, table, names):
    """What start writes itself stands nowhere else, and where it goes on with a list, that has the form of tables."""
    for key in KEYS:
        if key in table:
            refuse(text, key, "start writes this itself: take the line out")
    for key, own in NAMES.items():
        for at, name in enumerate(names[key]):
            if name in own:
                refuse(text, key, f"start adds {name} itself: take it out, or give it another name", at)
    for key in ("services", "roles", "tokens"):
        if key in table and not re.search(rf"^\s*\[\[\s*{key}\s*\]", text, re.MULTILINE):
            refuse(text, key, f"start adds entries to this list: write each entry under a line [[{key}]] of its own")


def the_class():
    """The text of the class, the names of its users, and those of its services."""
    text = read_class()
    table = table_of(text)
    names = {key: names_in(text, table, key) for key in ("users", "services", "roles")}
    see_own(text, table, names)
    for at, name in enumerate(names["users"]):
        if not NAME.fullmatch(name):
            refuse(text, "users", f"{name!r} is no name: 1 to 64 of a-z 0-9 . _ - @, with a letter or digit first", at)
    for key, (name, what, more) in NEEDED.items():
        if name not in names[key]:
            refuse(text, key, f'there is no {name}, {what}: write a line [[{key}]], and below it name = "{name}"{more}')
    return text, names["users"], names["services"]


def as_of_class(said, whole):
    """What the hub says of hub.toml, of which the class is a part, as what is wrong with the class, where the line is one of its own."""
    with open(FILE, encoding="utf-8") as file:
        text = file.read()
    if found := re.search(r" the \w+ (\S+) is neither kept nor configured", said):
        line = next((at for at, line in enumerate(text.split("\n"), 1) if f'"{found[1]}"' in line), None)
        return f"{FILE}, line {line}: {said}: add {found[1]}, or take it out" if line else said
    found = re.search(r"\bline (\d+)\b", said)
    if not found or "hub.toml" not in said or text not in whole:
        return said
    above = whole[:whole.index(text)].count("\n")
    line = int(found[1]) - above
    if not 1 <= line <= text.count("\n") + 1:
        return f"{said} (a line that start writes, and not one of {FILE})"
    return said.replace(found[0], f"line {line}", 1).replace("hub.toml", FILE, 1)
