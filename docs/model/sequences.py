"""Random hubs and random calls at them, which are mostly calls that mean something there.

A plan is a configuration for each session, rows that an earlier hub kept, and the moments of the sessions. A `Caller` makes the calls of
a plan one by one, by what the model has kept so far. The text `@@N@@` in a request stands for what the hub drew for request N.
"""
import copy
import json
import random
import re
from typing import NamedTuple

from model import SHARED_ACTIONS, hash_of, json_text, server_path
from reading import CALLS, LISTS, SUBSCOPES, key_text

NOW = 1700000000
ROOT, ROOT_TOKEN = "root", "token-of-root"
# names that a plan may keep, and others that no plan keeps from its beginning
USERS, NEW_USERS = ["ann", "bob", "cat", "dan", "a-b", "9x"], ["zed", "eve", "ann.b", "a"]
GROUPS, NEW_GROUPS = ["a", "b", "a-b", "e"], ["g", "z9"]
SERVICES, NEW_SERVICES = ["bot", "web", "v-1"], ["svc"]
ROLES, NEW_ROLES = ["r1", "r2", "r.3"], ["z", "r1x", "user", "admin"]
SERVERS, NEW_SERVERS = ["", "lab", "x", "a-b"], ["y9", "lab2"]
CUSTOM_SCOPES = [{"name": "custom:lab:write", "subscopes": ["custom:lab:read"]}, {"name": "custom:lab:read"},
                 {"name": "custom:x", "subscopes": ["custom:lab:write"]}]
UNDECLARED = "custom:other"
# actions that decide something
ACTIONS = [action for action in SUBSCOPES if action not in ("admin-ui", "admin:auth_state", "admin:server_state", "groups:shares",
                                                            "read:groups:shares", "read:metrics", "shutdown")]
BAD_SCOPES = ["", "!", "reed:users", "read:users!", "read:users!user=", "read:users!user=An", "read:users!group", "read:users!team=a",
              "self!user", "inherit!user=ann", "read:users!server=ann", "servers!server=/x", "custom:", "custom:a-", "custom:A",
              "custom:" + "a" * 58, "read:users!user=ann!user=bob", "read:users !user", "READ:USERS", "servers!server=ann/x/y",
              "read:users!user=" + "a" * 65]
MOMENTS = ["2023-11-14T22:13:20Z", "2030-01-01T00:00:00Z", "1960-01-01T00:00:00Z", "2023-11-14T23:13:20.9+01:00", "2023-11-14T22:12:50Z",
           "2023-11-14T22:12:51Z", "2023-11-16T02:00:00Z", "2023-11-14 22:13:20Z", "2023-11-14T22:13:60Z"]
BAD_MOMENTS = ["yesterday", "", "2023-02-30T00:00:00Z", "2023-11-14T22:13:20", "2023-11-14T22:13:61Z"]
WAITS = [0, 1, 29, 30, 60, 300, 86400, 1209600]
OFTEN = {"list_users": 3, "show_user": 3, "stop_named": 3, "make_token": 3, "grant_share": 3,
         **dict.fromkeys(("show_caller", "note_activity", "start_default", "start_named", "stop_default", "list_tokens", "accept_code",
                          "list_groups", "show_group", "make_group", "add_members", "remove_members", "show_service", "put_role",
                          "list_shares", "revoke_share", "make_code", "authorize", "trade_code"), 2)}


class Plan(NamedTuple):
    configurations: list    # one for each session
    sessions: list          # of each the moment, and whether it keeps its history
    is_over_file: bool
    rows: list
    secrets: list           # the tokens that the rows have hashes of
    grants: list            # the authorization codes, each with its client and its redirect URI


class Request(NamedTuple):
    number: int
    call: str
    method: str
    target: bytes
    headers: list
    body: bytes


def some(chance, names, most=3):
    return chance.sample(names, chance.randint(0, min(most, len(names))))


def pick(chance, kept, new, rarely=0.12):
    return chance.choice(new if chance.random() < rarely else kept)


def random_scope(chance):
    which = chance.random()
    if which < 0.07:
        return "self" if which < 0.04 else "inherit"
    action = chance.choice(ACTIONS if which < 0.9 else list(SUBSCOPES))
    if chance.random() < 0.06:
        action = chance.choice([row["name"] for row in CUSTOM_SCOPES] + [UNDECLARED])
    kind = chance.choices(["", "user", "group", "server", "service", "own"], [22, 20, 16, 16, 6, 20])[0]
    if kind == "":
        return action
    if kind == "own":
        return action + "!" + chance.choice(["user", "user", "user", "server", "service"])
    value = {"user": lambda: pick(chance, USERS, NEW_USERS), "group": lambda: pick(chance, GROUPS, NEW_GROUPS),
             "server": lambda: pick(chance, USERS, NEW_USERS) + "/" + pick(chance, SERVERS, NEW_SERVERS),
             "service": lambda: pick(chance, SERVICES, NEW_SERVICES)}[kind]()
    return "%s!%s=%s" % (action, kind, value)


def declared(texts, configuration):
    """A file names no custom scope that it doesn't declare."""
    return [text for text in texts if not text.startswith("custom:") or
            ("custom_scopes" in configuration and not text.startswith(UNDECLARED))]


def service_secret(name):
    return "service-secret-" + name


# ---- configurations
def random_configuration(chance):
    users = [{"name": name, "admin": chance.random() < 0.1} for name in USERS if chance.random() < 0.9]
    found = {"users": [{"name": ROOT, "admin": True}] + users, "services": []}
    kept = [user["name"] for user in found["users"]]
    found["groups"] = [{"name": name, "users": some(chance, kept, 4)} for name in GROUPS if chance.random() < 0.85]
    for name in SERVICES:
        if chance.random() < 0.85:
            is_client = chance.random() < 0.6
            client = {"redirect_uri": "/services/%s/cb" % name, "secret": service_secret(name)} if is_client else {}
            found["services"].append({"name": name, **client})
    if chance.random() < 0.7:
        found["custom_scopes"] = CUSTOM_SCOPES
    groups, services = names_of(found, "groups"), names_of(found, "services")
    found["roles"] = [{"name": name, "scopes": random_scopes(chance, found, 0, 5), "users": some(chance, kept),
                       "groups": some(chance, groups, 2), "services": some(chance, services, 2)} for name in ROLES if chance.random() < 0.9]
    found["tokens"] = random_tokens(chance, found)
    found["pool"] = ["http://127.0.0.1:%d" % (9000 + place) for place in range(chance.choice([0, 1, 2, 3, 8]))]
    if chance.random() < 0.5:
        found["hub_url"] = "http://127.0.0.1:8081"
    if chance.random() < 0.5:
        found["limits"] = random_limits(chance, found)
    return {key: value for key, value in found.items() if value != []}


def names_of(configuration, kind):
    return [row["name"] for row in configuration.get(kind, [])]


def random_scopes(chance, configuration, least, most):
    return declared([random_scope(chance) for _ in range(chance.randint(least, most))], configuration)


def random_tokens(chance, configuration):
    found = [{"token": ROOT_TOKEN, "user": ROOT, "scopes": ["inherit"]}]
    for kind, most, all_scopes in (("user", 3, 0.35), ("service", 2, 0.5)):
        for name in names_of(configuration, kind + "s"):
            for number in range(chance.randint(1, most)):
                scopes = ["inherit"] if chance.random() < all_scopes else random_scopes(chance, configuration, 1, 4)
                found.append({"token": "token-%s-%d" % (name, number), kind: name, "scopes": scopes})
    return found


def random_limits(chance, configuration):
    """Limits that are soon reached."""
    most = {kind: len(configuration[kind]) + chance.randint(0, 1) for kind in ("groups", "services", "roles")}
    most.update(users=len(configuration["users"]) + chance.randint(1, 2), tokens=len(configuration["tokens"]) + chance.randint(1, 6),
                servers=chance.randint(0, 2), shares=chance.randint(1, 5), codes=chance.randint(1, 5),
                trail_bytes=chance.randint(500, 6000))
    return {key: value for key, value in most.items() if chance.random() < 0.5}


def changed_configuration(chance, configuration):
    """What the next hub over the same file may be opened with: other rights, other members, and rows that stand twice."""
    found = copy.deepcopy(configuration)
    users, groups, services = (names_of(found, kind) for kind in ("users", "groups", "services"))
    if chance.random() < 0.5:
        found.pop("custom_scopes", None)
    for user in found["users"][1:]:
        user["admin"] = chance.random() < 0.2
    for group in found.get("groups", []):
        group["users"] = some(chance, users)
    for role in found.get("roles", []):
        role["scopes"] = declared(role["scopes"], found) if chance.random() < 0.5 else random_scopes(chance, found, 0, 4)
        if chance.random() < 0.5:
            role.update(users=some(chance, users), groups=some(chance, groups), services=some(chance, services))
    for token in found["tokens"]:
        token["scopes"] = declared(token["scopes"], found) or ["inherit"]
    for number in range(chance.randint(0, 3)):
        scopes = random_scopes(chance, found, 1, 1) or ["self"]
        found["tokens"].append({"token": "later-token-%d" % number, "user": chance.choice(users), "scopes": scopes})
    for service in found.get("services", []):
        if "secret" in service and chance.random() < 0.4:
            service["secret"] += "x"
    for kind in ("users", "groups", "roles", "tokens", "services"):
        if found.get(kind) and chance.random() < 0.3:
            found[kind].insert(chance.randint(1, len(found[kind])), twin(chance, found, kind, users))
    return found


def twin(chance, configuration, kind, users):
    """A row of the same name as another, which says something else."""
    found = dict(chance.choice(configuration[kind]))
    if kind == "users":
        found["admin"] = found["name"] == ROOT or chance.random() < 0.3
    elif kind == "groups":
        found["users"] = some(chance, users)
    elif kind in ("roles", "tokens"):
        found["scopes"] = ["self"]
    return found


# ---- rows of an earlier hub
class Rows:
    """Rows that fit to each other, as an earlier hub kept them: servers that ran, codes that were used, tokens that are about to end."""

    def __init__(self, chance, configuration, now):
        self.chance, self.now, self.before = chance, now, now - 100000
        self.users = names_of(configuration, "users")
        self.found, self.secrets, self.grants = {}, [], []
        self.numbers = {"token": 1, "code": 1, "generation": 1}
        for name in self.users:
            self.put(1, name, {"admin": False, "created": self.before, "last_activity": chance.choice([None, now - 29, now - 30, now])})
        self.groups = [name for name in names_of(configuration, "groups") if chance.random() < 0.5]
        for name in self.groups:
            self.put(2, name, {"users": sorted(some(chance, self.users, 4))})
        self.servers = [(user, server) for user in self.users for server in SERVERS if chance.random() < 0.3]
        self.clients = {"service:web": "/services/web/cb"}
        self.put_servers(list(configuration.get("pool", [])))
        self.put_tokens()
        for key in self.servers + [(user, "") for user in self.users]:
            self.put_codes(key)
            self.put_share(key)
        self.put_grants()
        for name, number in self.numbers.items():
            self.put(12, name, {"next": number + (0 if name == "code" else chance.randint(0, 3))})

    def put(self, number, key, row):
        self.found.setdefault((number, key), json_text(row))

    def take(self, name):
        self.numbers[name] += 1
        return self.numbers[name] - 1

    def put_servers(self, pool):
        for key in self.servers:
            runs = pool and self.chance.random() < 0.3
            activity = self.chance.choice([None, self.before, self.now - 30, self.now])
            self.put(6, key_text(key), {"created": self.before, "last_activity": activity, "started": self.before if runs else None})
            if runs:
                target = pool.pop(self.chance.randrange(len(pool)))
                self.put(7, target, {"generation": self.take("generation"), "server": key_text(key)})
                self.put_token("server-token-" + key_text(key).replace("/", "-"), key[0], ["users:activity!user", "access:servers!server"],
                               issued_for=key_text(key))
            if self.chance.random() < (0.9 if runs else 0.1):
                client = "server:" + key_text(key)
                self.clients[client] = server_path(key) + "/oauth_callback"
                self.put(10, client, {"hash": hash_of("client-secret-" + key_text(key)), "redirect_uri": self.clients[client]})

    def put_token(self, text, user, scopes, **fields):
        self.secrets.append(text)
        row = {"client": None, "created": self.before, "expires_at": None, "hash": hash_of(text), "issued_for": None, "note": "",
               "owner": "user:" + user, "scopes": scopes}
        self.put(5, str(self.take("token")), {**row, **fields})

    def put_tokens(self):
        for number in range(self.chance.randint(0, 8)):
            key = key_text(self.chance.choice(self.servers)) if self.servers and self.chance.random() < 0.4 else None
            scopes = self.chance.choice([["access:servers!server", "read:users:name!user"], ["inherit"], ["self"],
                                         ["read:users", "list:users!server"]])
            self.put_token("kept-token-%d" % number, self.chance.choice(self.users), scopes, issued_for=key,
                           client=None if key is None else "server:" + key, note=self.chance.choice(["", "n\"o\\te", "é\n"]),
                           expires_at=self.chance.choice([None, self.now - 1, self.now, self.now + 1, self.now + 60]))

    def shared(self, key):
        """Scopes that a share of this server may have, in the order of their texts."""
        return sorted(some(self.chance, ["%s!server=%s" % (action, key_text(key)) for action in SHARED_ACTIONS]))

    def put_codes(self, key):
        for _ in range(self.chance.choice([0, 0, 0, 1, 2])):
            number = self.take("code")
            ends = self.chance.choice([self.now - 1, self.now, self.now + 1, self.now + 100])
            scopes = self.shared(key) or ["access:servers!server=" + key_text(key)]
            self.put(9, str(number), {"created": self.before, "expires_at": ends, "hash": hash_of("share-code-%d" % number),
                                      "scopes": scopes, "server": key_text(key)})

    def put_share(self, key):
        recipients = [("user", name) for name in self.users] + [("group", name) for name in self.groups]
        scopes = self.shared(key)
        if scopes and self.chance.random() < 0.3:
            self.put(8, "%s,%s:%s" % (key_text(key), *self.chance.choice(recipients)), {"created": self.before, "scopes": scopes})

    def put_grants(self):
        for number in range(self.chance.randint(0, 5)):
            client = self.chance.choice(list(self.clients))
            ends = self.chance.choice([self.now - 1, self.now, self.now + 1, self.now + 300])
            self.grants.append(("grant-code-%d" % number, client, self.clients[client]))
            self.put(11, hash_of("grant-code-%d" % number),
                     {"client": client, "expires_at": ends, "owner": self.chance.choice(self.users), "redirect_uri": self.clients[client],
                      "token": self.chance.choice([None, None, None, 1, 2, 3])})


def random_plan(chance):
    configuration = random_configuration(chance)
    is_over_file = chance.random() < 0.6
    rows, secrets, grants = [], [], []
    if is_over_file and chance.random() < 0.7:
        kept = Rows(chance, configuration, NOW)
        rows = [key + (text,) for key, text in kept.found.items()]
        secrets, grants = kept.secrets, kept.grants
        for kind in ("tokens", "shares", "codes"):
            configuration.get("limits", {}).pop(kind, None)
    sessions, configurations, now = [], [], NOW
    for number in range(chance.choice([1, 1, 2, 3]) if is_over_file else 1):
        sessions.append((now, chance.random() < 0.8))
        configurations.append(configuration if chance.random() < 0.7 else changed_configuration(chance, configuration))
        now += chance.choice(WAITS)
    return Plan(configurations, sessions, is_over_file, rows, secrets, grants)


# ---- calls
class Caller:
    """Makes the calls of a plan; `hub` is the model, as it stands before each."""

    def __init__(self, chance, plan):
        self.chance = chance
        self.hub = None
        self.draws = {}
        self.count = 0
        self.tokens = sorted({token["token"] for one in plan.configurations for token in one["tokens"]}) + plan.secrets
        self.codes = ["share-code-%d" % number for number in range(1, 6)]
        self.grants = list(plan.grants)
        self.user = self.server = None      # of the call that is being made

    def often(self, likely):
        return self.chance.random() < likely

    def known(self, kind, spare, new, rarely=0.1):
        """A name that is kept, and rarely another."""
        return pick(self.chance, list(getattr(self.hub, kind)) or spare, new, rarely)

    def any_user(self, rarely=0.1):
        return self.known("users", USERS, NEW_USERS, rarely)

    def any_group(self, rarely=0.1):
        return self.known("groups", GROUPS, NEW_GROUPS + GROUPS, rarely)

    def any_server(self, user, rarely=0.25):
        return pick(self.chance, [server for owner, server in self.hub.servers if owner == user] or SERVERS, SERVERS + NEW_SERVERS, rarely)

    def next_request(self):
        self.count += 1
        call = self.chance.choices(CALLS, [OFTEN.get(call.name, 1) for call in CALLS])[0]
        names = self.names(call)
        headers = self.authorization(call, names)
        path = "/hub/api" + re.sub(r"\{(\w+)\??\}", lambda part: names[part.group(1)], call.path)
        if self.often(0.02):
            path = path.replace("a", "%61", 1) if self.often(0.5) else path.replace("ann", "An%6E")
        query = self.query(call)
        body = self.body(call)
        if call.name in LISTS and self.often(0.4):
            headers.append(("Accept", "application/jupyterhub-pagination+json"))
        if self.often(0.05):
            headers.append(("X-Hub-Seen", str(max(0, self.hub.revision + self.chance.choice([-1, 0, 0, 1])))))
        if self.often(0.03):
            query.insert(0, ("unknown", "1"))
        method = call.method if self.often(0.99) else self.chance.choice(["GET", "POST", "PUT", "PATCH", "DELETE", "OPTIONS"])
        target = path + ("?" + "&".join("%s=%s" % pair for pair in query) if query else "")
        self.note_draw(call)
        return Request(self.count, call.name, method, target.encode(), headers, body)

    def note_draw(self, call):
        """What this call draws may be used by later ones."""
        drawn = "@@%d@@" % self.count
        if call.name in ("make_token", "trade_code"):
            self.tokens.append(drawn)
        elif call.name == "make_code":
            self.codes.append(drawn)
        elif call.name == "authorize":
            self.grants.append((drawn,) + self.client)

    def authorization(self, call, names):
        token = self.chance.choice(self.tokens)
        if call.needs and self.often(0.65):
            # mostly one that may make this call, other than that which may do all
            for one in self.chance.sample(self.tokens, min(10, len(self.tokens))):
                if one != ROOT_TOKEN and self.may(one, *self.hub.needed(call, names)):
                    return [("Authorization", "token " + one)]
        which = self.chance.random()
        if which < 0.30:
            token = ROOT_TOKEN
        elif which > 0.98:
            return []
        elif which > 0.97:
            token = "no-such-token"
        return [("Authorization", self.chance.choice(["token ", "Bearer ", "tOKEN "]) + token)]

    def may(self, token, action, thing):
        hashed = hash_of(fill(token, self.draws))
        row = next((row for row in self.hub.tokens.values() if row["hash"] == hashed), None)
        if row is None or row["expires_at"] is not None and row["expires_at"] <= self.hub.now:
            return False
        rights = self.hub.rights_of(row)
        return rights.allows(action, thing) if thing else rights.holds(action)

    def names(self, call):
        """The names in the path. `root` is never deleted, nor its first token, so that somebody may always do all."""
        self.user = self.any_user(0.5 if call.name == "make_user" else 0.1)
        if call.name == "delete_user" and self.user == ROOT:
            self.user = NEW_USERS[0]
        self.server = self.any_server(self.user)
        keys = list(self.hub.live if call.name in ("stop_default", "stop_named") else self.hub.servers)
        if call.on == "server" and keys and self.often(0.6):
            self.user, self.server = self.chance.choice(keys)
        if call.name in ("start_default", "stop_default"):
            self.server = ""
        elif call.name in ("start_named", "stop_named") and self.server == "":
            self.server = self.chance.choice(SERVERS[1:] + NEW_SERVERS)
        return {"user": self.user, "server": self.server, "group": self.name_of_group(call),
                "service": self.known("services", SERVICES, NEW_SERVICES, 0.7 if call.name == "make_service" else 0.1),
                "role": self.known("roles", ROLES, NEW_ROLES, 0.4 if call.name == "put_role" else 0.1), "id": self.number_of_token(call)}

    def name_of_group(self, call):
        return self.chance.choice(NEW_GROUPS + GROUPS) if call.name == "make_group" and self.often(0.7) else self.any_group()

    def number_of_token(self, call):
        if self.often(0.02):
            return self.chance.choice(["01", "-1", "x", "18446744073709551616", "1%30"])
        numbers = [number for number, row in self.hub.tokens.items() if row["owner"] == "user:" + self.user]
        if self.often(0.15):
            numbers = [0, 1, 2, 3, 999]
        if call.name == "delete_token":
            numbers = [number for number in numbers if number != 1]
        return str(self.chance.choice(numbers or [99]))

    # ---- queries
    def query(self, call):
        found = []
        if call.name in LISTS and self.often(0.3):
            bad = ["0", "", "x"] if self.often(0.2) else []
            found.append(("limit", self.chance.choice(["1", "2", "3", "50", "200", "201", "007"] + bad)))
        if call.name in LISTS and self.often(0.3):
            bad = ["", "-1", "18446744073709551616"] if self.often(0.2) else []
            found.append(("offset", self.chance.choice(["0", "1", "2", "5", "18446744073709551615"] + bad)))
        if call.name == "show_caller" and self.often(0.6):
            key, bad = self.user + "/" + self.server, [self.user, "/", "An/"] if self.often(0.1) else []
            found.append(("for", self.chance.choice([key, self.user + "/", key, key.replace("/", "%2F")] + bad)))
        if call.name == "delete_codes" and self.often(0.6):
            number = str(self.chance.choice(list(self.hub.share_codes) or [1]))
            found.append(("id", number if self.often(0.9) else self.chance.choice(["x", "", "007", "99"])))
        if call.name == "authorize":
            found = self.query_of_client()
        if found and self.often(0.05):
            found.append((found[0][0], "zzz"))
        return found

    def query_of_client(self):
        client = self.chance.choice(list(self.hub.clients) or ["service:web"])
        if self.often(0.1):
            client = self.chance.choice(["service:none", "server:ann/", "x", ""])
        place = self.hub.clients.get(client, {"redirect_uri": "/x"})["redirect_uri"]
        self.client = (client, place)
        found = [("response_type", "code"), ("client_id", client.replace("/", "%2F") if self.often(0.3) else client),
                 ("redirect_uri", place if self.often(0.95) else place + "x"),
                 ("state", self.chance.choice(["s1", "a%20b", "a+b%26", "%C3%A9~*", ""]))]
        if self.often(0.05):
            found[0] = ("response_type", "token")
        if self.often(0.1):
            found.pop(self.chance.randrange(4))
        return found

    # ---- bodies
    def body(self, call):
        if call.name == "trade_code":
            return self.form_of_trade()
        fields = getattr(self, "body_of_" + call.name, lambda: None)()
        if fields is None:
            return b"" if self.often(0.9) else b"not json"
        if "scopes" in fields and self.often(0.06):
            fields["scopes"].insert(self.chance.randint(0, len(fields["scopes"])), self.chance.choice(BAD_SCOPES))
        if "scopes" in fields and self.often(0.02):
            fields["scopes"] = ["read:users!user=ann"] * self.chance.choice([64, 65])
        if self.often(0.05):
            fields["zzz"] = {"a": [1, 2.5, None]}
        if fields and self.often(0.03):
            fields[self.chance.choice(list(fields))] = self.chance.choice([None, 1, "x", [], {}, True, ["x", 1]])
        text = json.dumps(fields).encode()
        return text if self.often(0.99) else text[:-1]

    def body_of_make_users(self):
        found = {"usernames": self.chance.sample(USERS + NEW_USERS + ["n%d" % self.chance.randint(0, 20)], self.chance.randint(1, 3))}
        if self.often(0.3):
            found["admin"] = self.often(0.5)
        return found

    def body_of_change_user(self):
        return {"admin": self.user == ROOT or self.often(0.4)}

    def body_of_note_activity(self):
        found = {}
        if self.often(0.7):
            found["last_activity"] = self.chance.choice(MOMENTS if self.often(0.9) else BAD_MOMENTS)
        if self.often(0.6):
            found["servers"] = {self.any_server(self.user, 0.05): {"last_activity": self.chance.choice(MOMENTS)} if self.often(0.8) else {}
                                for _ in range(self.chance.randint(0, 2))}
        return found

    def body_of_stop(self):
        return {"remove": self.often(0.7)} if self.often(0.5) else None

    body_of_stop_default = body_of_stop_named = body_of_stop

    def body_of_make_token(self):
        found = {}
        if self.often(0.8):
            found["scopes"] = [random_scope(self.chance) for _ in range(self.chance.choice([0, 1, 1, 1, 2, 3]))]
        if self.often(0.3):
            own = ["self", "inherit", "read:users!user", "servers!user=" + self.user, "read:users:name!user=" + self.user,
                   "access:servers!server=%s/%s" % (self.user, self.server), "custom:lab:read!user", "read:servers!user", "tokens!user"]
            found["scopes"] = [self.chance.choice(own)]
        if self.often(0.3):
            found["note"] = self.chance.choice(["", "a note", "é\u2028\"\\\n\x7f", "x" * 256, "x" * 257, "é" * 129])
        if self.often(0.4):
            found["expires_in"] = self.chance.choice([1, 30, 60, 4294967295, None, 0, 4294967296, True, "1", -1])
        return found

    def body_of_accept_code(self):
        return {"code": self.chance.choice(self.codes) if self.often(0.9) else "none"}

    def body_of_make_group(self):
        return {"users": [self.any_user(0.05) for _ in range(self.chance.randint(0, 3))]} if self.often(0.8) else None

    def body_of_members(self):
        return {"users": [self.any_user(0.05) for _ in range(self.chance.randint(1, 3))]}

    body_of_add_members = body_of_remove_members = body_of_members

    def body_of_put_role(self):
        found = {"scopes": [random_scope(self.chance) for _ in range(self.chance.randint(0, 4))],
                 "users": [self.any_user(0.04) for _ in range(self.chance.randint(0, 3))],
                 "groups": [self.any_group(0.04) for _ in range(self.chance.randint(0, 2))],
                 "services": [self.known("services", SERVICES, NEW_SERVICES, 0.04) for _ in range(self.chance.randint(0, 2))]}
        return {field: value for field, value in found.items() if self.often(0.65)}

    def shared_scope(self):
        if self.often(0.03):
            return self.chance.choice(["access:servers", "access:servers!server", "self", "servers!user=" + self.user])
        action = self.chance.choice(SHARED_ACTIONS) if self.often(0.95) else "tokens"
        return "%s!server=%s" % (action, self.user + "/" + self.server if self.often(0.97) else self.any_user() + "/x")

    def body_of_share(self):
        found = {"scopes": [self.shared_scope() for _ in range(self.chance.randint(0, 3))]} if self.often(0.7) else {}
        if self.often(0.65):
            found["user"] = self.any_user(0.05)
        if "user" not in found or self.often(0.05):
            found["group"] = self.any_group(0.05)
        return found

    body_of_grant_share = body_of_revoke_share = body_of_share

    def body_of_make_code(self):
        found = {"scopes": [self.shared_scope() for _ in range(self.chance.randint(0, 2))]} if self.often(0.7) else {}
        if self.often(0.5):
            found["expires_in"] = self.chance.choice([60, 61, 86400, 4294967295, 59, 0])
        return found

    def form_of_trade(self):
        code, client, place = "none", self.chance.choice(list(self.hub.clients) or ["x"]), "/services/web/cb"
        if self.grants and self.often(0.9):
            code, client, place = self.chance.choice(self.grants if self.often(0.5) else self.grants[-3:])
        kind, _, name = client.partition(":")
        secret = service_secret(name) if kind == "service" else "client-secret-" + name
        pairs = [["grant_type", "authorization_code"], ["code", code], ["redirect_uri", place], ["client_id", client],
                 ["client_secret", secret]]
        if self.often(0.05):
            pairs[0][1] = "password"
        if self.often(0.08):
            self.chance.choice(pairs)[1] += "x"
        if self.often(0.1):
            pairs.pop(self.chance.randrange(5))
        self.chance.shuffle(pairs)
        return "&".join("%s=%s" % tuple(pair) for pair in pairs).encode()


def fill(text, draws):
    """The draws in the places that stand for them; for one that wasn't told, a text of that form."""
    if isinstance(text, bytes):
        return re.sub(rb"@@(\d+)@@", lambda place: draws.get(int(place.group(1)), "0" * 32).encode(), text)
    return re.sub(r"@@(\d+)@@", lambda place: draws.get(int(place.group(1)), "0" * 32), text)


def random_sequence(seed):
    """A plan, what makes its calls, and how many calls each of its sessions has."""
    chance = random.Random(seed)
    plan = random_plan(chance)
    return plan, Caller(chance, plan), chance.randint(50, 200) // len(plan.sessions) + 1
