#!/usr/bin/python3 -B
"""Writes what a front's nginx reads into a site's folder: nginx.conf, assets.conf, names.conf and the folder page. Run it again after each
change of what pages are made of: browsers keep those parts until then. A file texts.js in FOLDER goes before that of the front.
usage: fill.py FOLDER KEY=VALUE ..., with the keys of KEYS. FOLDER also has htpasswd (names and passwords) and tokens.map (for each name
that programs may sign in by, a line `"NAME" "TOKEN";`; it may be empty). `sign-in` is started with the socket FOLDER/sign-in.socket.
By header:NAME the front that stands before this one says who has signed in. It shows by the header X-Front-Secret that it is that front:
what it sends there stands in FOLDER/front-secret, which is drawn the first time."""
import hashlib, json, os, re, secrets, sys
from urllib.parse import urlsplit

HERE = os.path.dirname(os.path.realpath(__file__))
BOOTSTRAP = "/usr/share/javascript/bootstrap5/css/bootstrap.min.css"
KEYS = {
    "public": "where browsers find the pages, as https://hub.example.org",
    "servers": "where they find servers, a name of its own, as https://servers.example.org",
    "listen": "the address at which this nginx listens", "home": "its port for the pages", "servers_port": "its port for servers",
    "hub": "HOST:PORT of the hub", "proxy": "HOST:PORT of the proxy",
    "title": "what stands on each page", "services": "services that have pages, as {\"roll\":\"Roll\"}",
    "sign_in": "who knows the people: password (FOLDER/htpasswd), pam:SERVICE, or header:NAME of a front before this one",
    "certificate": "a file: TLS ends here, and not before this nginx", "key": "the file with its key",
    "own_names": "`yes` where each user's servers have a host name of their own, as ada.servers.example.org",
}
OPTIONAL = ("title", "services", "sign_in", "certificate", "key", "own_names")
PAM = "/usr/lib/nginx/modules/ngx_http_auth_pam_module.so"


def front_secret(site):
    """What the front before this one says, by which it is known: whoever else asks is believed nothing."""
    file = f"{site}/front-secret"
    if not os.path.exists(file):
        put(file, secrets.token_hex(16) + "\n")
    with open(file) as it:
        return it.read().strip()


def who_signs_in(site, told):
    """What nginx does at the sign-in, and which variable then has the name."""
    how, _, what = (told.get("sign_in") or "password").partition(":")
    # another way to write a name would have tries of its own, where what knows the passwords doesn't mind capitals
    names = 'if ($remote_user !~ "^[a-z0-9][a-z0-9._@-]*$") { return 401; }'
    if how == "password" and not what:
        return {"LOADS": "", "ASKS": f'{names} auth_basic "The hub";', "NAME": "$remote_user"}
    if how == "pam" and re.fullmatch(r"[A-Za-z0-9_-]+", what):
        asks = f'{names} auth_basic off; auth_pam "The hub"; auth_pam_service_name "{what}";'
        return {"LOADS": f"load_module {PAM};", "ASKS": asks, "NAME": "$remote_user"}
    if how == "header" and re.fullmatch(r"[A-Za-z][A-Za-z0-9-]*", what):
        asks = f'auth_basic off; if ($http_x_front_secret != "{front_secret(site)}") {{ return 403; }}'
        return {"LOADS": "", "ASKS": asks, "NAME": "$http_" + what.lower().replace("-", "_")}
    sys.exit(f"sign_in={told['sign_in']}: {KEYS['sign_in']}")


def texts(site):
    """All that people read: the site's own file goes before that of the front."""
    own = f"{site}/texts.js"
    return own if os.path.exists(own) else f"{HERE}/pages/assets/texts.js"


def marks(site, told):
    """What stands between @ in the templates."""
    scheme, _, host = told["public"].partition("://")
    servers_scheme, _, servers_host = told["servers"].partition("://")
    cookie, servers_name = "__Host-front" if scheme == "https" else "front", urlsplit(told["servers"]).hostname
    return {"USER": "user root; " if os.geteuid() == 0 else "", "SITE": site, "FRONT": HERE, "BOOTSTRAP": BOOTSTRAP,
            "LISTEN": told["listen"], "HOME": told["home"], "SERVERS": told["servers_port"], "HUB": told["hub"], "PROXY": told["proxy"],
            "PUBLIC": told["public"], "PUBLIC_SERVERS": told["servers"], "PUBLIC_HOST": host, "SCHEME": scheme, "COOKIE": cookie,
            "PUBLIC_NAME": urlsplit(told["public"]).hostname, "SERVERS_NAME": servers_name, "SERVERS_PATTERN": re.escape(servers_name),
            "SERVERS_SCHEME": servers_scheme, "SERVERS_HOST": servers_host, **of_tls(site, told, servers_scheme),
            **who_signs_in(site, told)}


def of_tls(site, told, servers_scheme):
    """TLS where there is a certificate; and what browsers get by TLS, here or before this nginx, they send by TLS alone. Who comes to the
    port of plain HTTP, where the pages have that of TLS, is led on, but for the files by which `certbot` shows whose the names are."""
    has, names = told.get("certificate"), [urlsplit(told[key]).hostname for key in ("public", "servers")]
    plain = f"server {{ listen {told['listen']}:80; server_name {names[0]} {names[1]} *.{names[1]};\n" \
            f"    location / {{ return 301 https://$host$request_uri; }}\n" \
            f"    location /.well-known/acme-challenge/ {{ root {site}/acme; }}\n  }}"
    return {"TLS": " ssl" if has else "", "CERTIFICATE": f"ssl_certificate {has}; ssl_certificate_key {told['key']};" if has else "",
            "PLAIN": plain if has and str(told["home"]) == "443" else "",
            "SECURE": "proxy_cookie_flags ~ secure;" if servers_scheme == "https" else ""}


def put(file, text):
    """A file that its owner alone may read, put in place as a whole."""
    with open(f"{file}.new", "w", opener=lambda path, flags: os.open(path, flags, 0o600)) as out:
        out.write(text)
    os.replace(f"{file}.new", file)


def version_of(files):
    """A name for what these files have together, which is another one where any of them changes."""
    whole = hashlib.sha256()
    for name in files:
        with open(name, "rb") as file:
            whole.update(hashlib.sha256(file.read()).digest())
    return whole.hexdigest()[:12]


def fill_pages(site):
    """The pages, each of which names its parts with their version."""
    parts = sorted(os.path.join(f"{HERE}/pages/assets", name) for name in os.listdir(f"{HERE}/pages/assets"))
    version = version_of([*parts, f"{site}/page/site.js", texts(site), BOOTSTRAP])
    for name in ("page.html", "error.html"):
        with open(f"{HERE}/pages/{name}") as file:
            put(f"{site}/page/{name}", file.read().replace('"/assets/', f'"/assets/{version}/'))


def fill(site, told):
    for folder in ("page", "tmp", "log"):
        os.makedirs(f"{site}/{folder}", exist_ok=True)
    for name, target in (("front.conf", "nginx.conf"), ("assets.conf", "assets.conf"), ("names.conf", "names.conf")):
        with open(f"{HERE}/{name}") as file:
            text = file.read()
        if name == "names.conf" and told.get("own_names") != "yes":
            text = "map $host $elsewhere { default \"\"; }\n"
        for mark, value in marks(site, told).items():
            text = text.replace(f"@{mark}@", str(value))
        put(f"{site}/{target}", text)
    services = json.loads(told.get("services") or "{}")
    shown = {"title": told.get("title") or "The hub", "public": told["public"], "servers": told["servers"], "services": services,
             "signIn": "header" if (told.get("sign_in") or "").startswith("header:") else "password"}
    put(f"{site}/page/site.js", f"// What this site is called and where its servers are.\nexport default {json.dumps(shown, indent=2)}\n")
    fill_pages(site)


def main():
    told = dict(word.partition("=")[::2] for word in sys.argv[2:])
    lacks = [key for key in KEYS if key not in told and key not in OPTIONAL]
    if len(sys.argv) < 2 or lacks:
        sys.exit("usage: fill.py FOLDER KEY=VALUE ..., and these are missing:\n" + "".join(f"  {key}: {KEYS[key]}\n" for key in lacks))
    fill(os.path.realpath(sys.argv[1]), told)


if __name__ == "__main__":
    main()
