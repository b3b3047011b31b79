"""The site's front, which stands in the folder front of this repository: what it is filled with here, and its passwords. Pages, sign-in and
the hub's calls stand at one address, servers and services at another one: so a page of somebody's notebook can't call the hub in the name
of who looks at it. Passwords, cookies and tokens of the front never go on to a server. What a visitor brings does: a token in the header,
and the guard's cookie, whose token may enter that server alone and see its user's name."""
import base64, hashlib, json, os, secrets, sys
from parts import ADDRESS, HERE, HOME, HUB, LISTEN, PROXY, PUBLIC, PUBLIC_SERVERS, SERVERS, SITE, TOLD, drawn, read, token, write

FRONT = os.path.realpath(f"{HERE}/../../front")
sys.path.append(FRONT)
import fill


def hashed(password):
    """How nginx keeps a password: salted, and never itself."""
    salt = secrets.token_bytes(8)
    return "{SSHA}" + base64.b64encode(hashlib.sha1(password.encode() + salt).digest() + salt).decode()


def people(names, tokens={}):
    """The password and the token of each user whom the front knows, these among them: drawn the first time, where no token is given."""
    kept = drawn("people", dict)
    new = [name for name in names if name not in kept]
    for name in new:
        password = "".join(secrets.choice("abcdefghjkmnpqrstuvwxyz23456789") for _ in range(12))
        kept[name] = {"password": password, "token": tokens.get(name) or token()}
    if new:
        write("people", json.dumps(kept, indent=1) + "\n")
        write("passwords", "".join(f"{name} {it['password']}\n" for name, it in kept.items()))
        # who was there may have taken a password of their own, by htpasswd
        before = read("htpasswd") if os.path.exists(f"{SITE}/htpasswd") else ""
        write("htpasswd", before + "".join(f"{name}:{hashed(kept[name]['password'])}\n" for name in new))
    write("tokens.map", "".join(f'"{name}" "{it["token"]}";\n' for name, it in kept.items()))
    return kept


def prepare():
    """Writes the front's configuration."""
    told = {"public": PUBLIC, "servers": PUBLIC_SERVERS, "listen": LISTEN, "home": HOME, "servers_port": SERVERS,
            "hub": f"{ADDRESS}:{HUB}", "proxy": f"{ADDRESS}:{PROXY}", "title": "The class", "services": '{"roll": "Roll"}',
            "sign_in": TOLD.get("sign_in")}
    told |= {key: TOLD[key] for key in ("certificate", "key") if key in TOLD}
    fill.fill(SITE, told | {"own_names": "yes" if TOLD.get("own_names") else ""})


def sign_in_words():
    """The words of the program that gives cookies to who signs in."""
    return [f"{FRONT}/sign-in", "--socket", f"{SITE}/sign-in.socket", "--hub", f"http://{ADDRESS}:{HUB}", "--token-file",
            f"{SITE}/front-token", "--public", PUBLIC]
