"""What a hub keeps and what it answers, written a second time: a model of the REST API over one connection of `session`.

It was written from the rules in words, not from the program, so that a site or a reviewer can try a hub against a second opinion on its
definitions; `compare` does that. docs/API.md has the rules; where they are JupyterHub's so has its documentation on scopes and on the
REST API, and for the authorization code RFC 6749, 4.1. No `session` has a start or a stop under way between two requests, so that a live
server is ready there, or parked: an earlier hub started it. Not modelled: want of memory, a draw that was drawn before, failing devices,
and what stands below a request (heads that are refused, bodies that are cut off).
"""
import hashlib
import json
import re
from typing import NamedTuple
from urllib.parse import quote_plus

from reading import LATEST, SELF, SUBSCOPES, Refused, key_text, moment_text, read_call, read_key, read_scope

VERSION = "5.0.0"
# what rows are called in `full: KIND LIMIT` and in a hub's file
KINDS = {"users": 1, "groups": 2, "services": 3, "roles": 4, "tokens": 5, "servers": 6, "leases": 7, "shares": 8, "share_codes": 9,
         "clients": 10, "grant_codes": 11, "next_numbers": 12}
LIMITS = {"users": 100000, "groups": 10000, "services": 1000, "roles": 1000, "servers": 100, "tokens": 1000000, "shares": 100000,
          "codes": 100000, "trail_bytes": 1073741824}
MOST_CLIENTS = 2000
ENTRY_BYTES = 64            # what an entry of the history costs beside its rows
MOST_REQUESTS = 1000        # of one connection
GRANT_SECONDS = 300
TRADED_SECONDS = 1209600
SHORTEST_CODE_SECONDS = 60
ACTIVITY_SECONDS = 30       # by how much later activity has to be to count
FIXED_ROLES = ("user", "admin")
SHARED_ACTIONS = ("access:servers", "read:servers", "servers", "delete:servers")
UNTOLD = "?" * 64           # stands for the hash of a secret that no reply tells, and is as long
PHRASES = {200: "OK", 201: "Created", 204: "No Content", 302: "Found", 400: "Bad Request", 403: "Forbidden", 404: "Not Found",
           405: "Method Not Allowed", 409: "Conflict", 412: "Precondition Failed", 429: "Too Many Requests",
           500: "Internal Server Error", 503: "Service Unavailable"}


class OpensFull(Exception):
    """A hub that doesn't open, since a kind has more rows than its limit."""


class Reply(NamedTuple):
    status: int
    value: object = None        # None is no body; `null` is the body of no reply
    headers: tuple = ()


class Visit(NamedTuple):
    """What a call is answered with."""
    asked: dict
    body: dict
    rights: "Rights"
    token: dict
    draw: str       # what the hub drew, as its reply tells it; None where it doesn't


def hash_of(text):
    return hashlib.sha256(text.encode()).hexdigest()


def drawn_hash(draw):
    return hash_of(draw) if draw else UNTOLD


def later(moment, seconds):
    return min(LATEST, moment + seconds)


def json_text(value):
    return json.dumps(value, sort_keys=True, separators=(",", ":"), ensure_ascii=False)


def shown_moment(moment):
    return None if moment is None else moment_text(moment)


def server_path(key):
    return "/user/" + key[0] + ("/" + key[1] if key[1] else "")


def form_text(text):
    """A value as the URL Standard's serializer of forms writes it; Python's leaves the tilde."""
    return quote_plus(text, safe="*").replace("~", "%7E")


def owner_of(token):
    return tuple(token["owner"].split(":", 1))


def issued_for(token):
    return None if token["issued_for"] is None else read_key(token["issued_for"])


def without(row, field, name):
    return dict(row, **{field: [other for other in row[field] if other != name]})


class Rights:
    """What a caller may do: what the scopes of the owner and those of the token both allow.

    The groups are those before the call changes any, since fields are chosen by the rights before a change.
    """

    def __init__(self, hub, of_owner, of_token):
        self.hub, self.of_owner, self.of_token = hub, of_owner, of_token
        self.groups = dict(hub.groups)

    def within(self, scopes, action, thing):
        return any(self.hub.covers(held, action) and self.admits(action, only, thing) for held, only in scopes)

    def allows(self, action, thing):
        by_token = self.of_token is None or self.within(self.of_token, action, thing)
        return by_token and self.within(self.of_owner, action, thing)

    def admits(self, action, only, thing):
        """Whether the filter `only` of a scope lets this action touch a thing."""
        if only is None or only == thing:
            return True
        kind, value = only
        user = thing[1] if thing[0] == "user" else thing[1][0] if thing[0] == "server" else None
        if kind == "user":
            return thing[0] == "server" and user == value
        if kind == "group":
            return value in self.groups and user in self.groups[value]["users"]
        return kind == "server" and action == "read:users:name" and thing == ("user", value[0])

    def things(self, action, more=()):
        """So many things that an action allowed on any at all is allowed on one of them.

        What no filter names is to all filters as anything else that none names, so that one of each kind stands for these.
        """
        held = [only for scope, only in self.of_owner + (self.of_token or []) if self.hub.covers(scope, action)]
        users, servers, groups, services = {"~user"}, {"~server"}, {"~group"}, {"~service"}
        for kind, value in filter(None, held + list(more)):
            if kind == "user":
                users.add(value)
            elif kind == "group":
                groups.add(value)
                users.update(self.groups.get(value, {"users": []})["users"])
            elif kind == "server":
                users.add(value[0])
                servers.add(value[1])
            else:
                services.add(value)
        yield ("hub",)
        for kind, names in (("user", users), ("group", groups), ("service", services)):
            yield from ((kind, name) for name in names)
        yield from (("server", (user, server)) for user in users for server in servers)

    def holds(self, action):
        return any(self.allows(action, thing) for thing in self.things(action))


class Hub:
    """A hub in a session. Each kind of rows is a table, from keys to rows; a row is never changed, but replaced by another."""

    def __init__(self, configuration, now, rows=(), keeps_trail=True):
        self.now = now
        self.pool = list(configuration.get("pool", []))
        self.hub_url = configuration.get("hub_url")
        self.limits = {**LIMITS, **configuration.get("limits", {})}
        self.custom = {row["name"]: row.get("subscopes", []) for row in configuration.get("custom_scopes", [])}
        self.covered = {}       # what each action covers, as far as it was asked
        for kind in KINDS:
            setattr(self, kind, {})
        self.live = {}          # the live servers: the generation of each
        self.parked = set()     # those of them that are parked
        self.own = set()        # the generations that this session started; it can stop no other
        self.routes = {}
        self.revision = 0       # how many changes were made
        self.trail_bytes = 0
        self.keeps_trail = keeps_trail
        self.replies = 0
        for number, key, text in rows:
            self.load(number, key, text)
        self.open(configuration)

    # ---- rows as a file has them
    def load(self, number, key, text):
        kind = next(kind for kind, its in KINDS.items() if its == number)
        if kind in ("tokens", "share_codes"):
            key = int(key)
        elif kind == "servers":
            key = read_key(key)
        elif kind == "shares":
            server, _, recipient = key.partition(",")
            key = (read_key(server),) + tuple(recipient.split(":", 1))
        getattr(self, kind)[key] = json.loads(text)

    @staticmethod
    def row_key(kind, key):
        if kind in ("tokens", "share_codes"):
            return str(key)
        if kind == "servers":
            return key_text(key)
        return "%s,%s:%s" % (key_text(key[0]), key[1], key[2]) if kind == "shares" else key

    def rows(self):
        """All rows, in the order of their kinds and keys."""
        found = [(number, self.row_key(kind, key), json_text(row)) for kind, number in KINDS.items()
                 for key, row in getattr(self, kind).items()]
        return sorted(found)

    def next_number(self, name):
        return self.next_numbers.get(name, {"next": 1})["next"]

    def take_number(self, name):
        number = self.next_number(name)
        self.next_numbers[name] = {"next": number + 1}
        return number

    # ---- opening
    def open(self, configuration):
        for target, lease in sorted(self.leases.items()):
            if "generation" not in lease:
                self.leases[target] = {"generation": self.take_number("generation"), "server": lease["server"]}
        self.open_users_and_groups(configuration)
        self.open_services_and_roles(configuration)
        self.open_tokens(configuration)
        for kind in KINDS:
            # the limit of servers is one of each user, asked about when one is started; leases have the pool
            if kind not in ("servers", "leases", "next_numbers") and len(getattr(self, kind)) > self.limit_of(kind):
                raise OpensFull("%d %d" % (KINDS[kind], self.limit_of(kind)))
        # a session's spawner knows no program of an earlier hub, so that each server that was live is parked, by an entry of its own
        for lease in self.leases.values():
            key = read_key(lease["server"])
            self.live[key] = lease["generation"]
            self.parked.add(key)
        self.note_entries(len(self.leases))

    def open_users_and_groups(self, configuration):
        """What is kept stays, but that the file can make an admin; of groups that stand twice the first counts."""
        for user in configuration.get("users", []):
            is_admin = user.get("admin", False)
            if user["name"] not in self.users:
                self.users[user["name"]] = self.new_user(is_admin)
            elif is_admin:
                self.users[user["name"]] = dict(self.users[user["name"]], admin=True)
        for group in configuration.get("groups", []):
            self.groups.setdefault(group["name"], {"users": sorted(set(group.get("users", [])))})

    def open_services_and_roles(self, configuration):
        """The file's roles and clients are put in the place of what was kept."""
        for service in configuration.get("services", []):
            self.services.setdefault(service["name"], {})
            if "secret" in service:
                client = {"hash": hash_of(service["secret"]), "redirect_uri": service["redirect_uri"]}
                self.clients["service:" + service["name"]] = client
        for role in configuration.get("roles", []):
            self.roles[role["name"]] = self.role_row(role)

    def open_tokens(self, configuration):
        for token in configuration.get("tokens", []):
            hashed = hash_of(token["token"])
            if self.is_hash_of_token(hashed):
                continue
            owner = "user:" + token["user"] if "user" in token else "service:" + token["service"]
            row = self.new_token(hashed, owner, list(token.get("scopes", [])) or ["inherit"])
            self.tokens[self.take_number("token")] = row

    # ---- rows that are made
    def new_user(self, is_admin):
        return {"admin": is_admin, "created": self.now, "last_activity": None}

    def new_token(self, hashed, owner, scopes, **fields):
        row = {"client": None, "created": self.now, "expires_at": None, "hash": hashed, "issued_for": None, "note": "", "owner": owner,
               "scopes": scopes}
        return {**row, **fields}

    @staticmethod
    def role_row(role):
        holders = {kind: sorted(set(role.get(kind, []))) for kind in ("users", "groups", "services")}
        return {"scopes": list(role.get("scopes", [])), **holders}

    def is_hash_of_token(self, hashed):
        return any(token["hash"] == hashed for token in self.tokens.values())

    # ---- rights
    def covers(self, action, other):
        """Whether an action covers another: itself, its subscopes, and what these cover; one that isn't declared covers nothing."""
        if action not in self.covered:
            found, todo = set(), [action]
            while todo:
                one = todo.pop()
                if one not in found and (one in SUBSCOPES or one in self.custom):
                    found.add(one)
                    todo += SUBSCOPES.get(one) or self.custom.get(one, [])
            self.covered[action] = found
        return other in self.covered[action]

    @staticmethod
    def meaning(text, owner, server):
        """The scopes without `self`, and with the names of their filters, that a text means to an owner; `server` is what `!server` is."""
        action, only = read_scope(text)
        if action == "inherit":
            return []
        if action == "self":
            return [(one, owner) for one in SELF] if owner[0] == "user" else []
        if only is None or only[1] is not None:
            return [(action, only)]
        if only[0] == "server":
            return [(action, ("server", server))] if server is not None else []
        return [(action, owner)] if owner[0] == only[0] else []

    def roles_of(self, owner):
        """The roles of a user or a service: each user has `user`, an admin `admin` too."""
        kind, name = owner
        if kind == "service":
            return sorted(role for role, row in self.roles.items() if name in row["services"])
        groups = {group for group, row in self.groups.items() if name in row["users"]}
        found = [role for role, row in self.roles.items() if name in row["users"] or groups & set(row["groups"])]
        found.append("user")
        if name in self.users and self.users[name]["admin"]:
            found.append("admin")
        return sorted(found)

    def is_shared_with(self, share, user):
        _, kind, name = share
        return name == user if kind == "user" else name in self.groups and user in self.groups[name]["users"]

    def scopes_of_owner(self, owner):
        """What the roles of an owner, and the shares with it, mean."""
        texts = []
        for role in self.roles_of(owner):
            texts += ["self"] if role == "user" else list(SUBSCOPES) if role == "admin" else self.roles[role]["scopes"]
        for share, row in self.shares.items():
            if owner[0] == "user" and self.is_shared_with(share, owner[1]):
                texts += row["scopes"]
        return [scope for text in texts for scope in self.meaning(text, owner, None)]

    def rights_of(self, token):
        owner = owner_of(token)
        of_token = None
        if "inherit" not in token["scopes"]:
            of_token = [scope for text in token["scopes"] for scope in self.meaning(text, owner, issued_for(token))]
        return Rights(self, self.scopes_of_owner(owner), of_token)

    def first_not_held(self, texts, user):
        """The first scope, by the texts of its action and its filter, that these mean to a user whose rights don't admit it whole."""
        rights = Rights(self, self.scopes_of_owner(("user", user)), None)
        meant = [scope for text in texts for scope in self.meaning(text, ("user", user), None)]
        asked = {(action, only) for held, only in meant for action in [*SUBSCOPES, *self.custom] if self.covers(held, action)}

        def filter_text(only):
            return "" if only is None else "!%s=%s" % (only[0], key_text(only[1]) if only[0] == "server" else only[1])
        for action, only in sorted(asked, key=lambda scope: (scope[0], filter_text(scope[1]))):
            for thing in rights.things(action, [only]):
                if rights.admits(action, only, thing) and not rights.allows(action, thing):
                    return action + filter_text(only)
        return None

    # ---- changes
    def change(self, puts, removals=(), owed=0):
        """Puts rows, then removes rows, by one entry of the history; what changes nothing makes none.

        `owed` is how many entries must still find room behind this one.
        """
        puts = [(kind, key, row) for kind, key, row in puts if getattr(self, kind).get(key) != row]
        removals = [(kind, key) for kind, key in removals if key in getattr(self, kind)]
        if not puts and not removals:
            return
        cost = ENTRY_BYTES + sum(len(self.row_key(kind, key)) + len(json_text(row).encode()) for kind, key, row in puts)
        cost += sum(len(self.row_key(kind, key)) for kind, key in removals)
        self.find_room(cost, owed)
        for kind, key, row in puts:
            getattr(self, kind)[key] = row
        for kind, key in removals:
            del getattr(self, kind)[key]
        self.revision += 1
        self.trail_bytes += cost if self.keeps_trail else 0

    def find_room(self, cost, owed):
        if self.keeps_trail and self.trail_bytes + cost + ENTRY_BYTES * owed > self.limits["trail_bytes"]:
            raise Refused(500, "trail full")

    def note_entries(self, count):
        """Entries whose room was found before; their rows cost nothing."""
        self.revision += count
        self.trail_bytes += ENTRY_BYTES * count if self.keeps_trail else 0

    def limit_of(self, kind):
        return MOST_CLIENTS if kind == "clients" else self.limits["codes" if kind in ("share_codes", "grant_codes") else kind]

    def find_place(self, kind, new=1, leaving=0):
        if new and len(getattr(self, kind)) - leaving + new > self.limit_of(kind):
            raise Refused(500, "full: %d %d" % (KINDS[kind], self.limit_of(kind)))

    def ended_tokens(self, owner):
        return [("tokens", number) for number, row in self.tokens.items()
                if row["owner"] == owner and row["expires_at"] is not None and row["expires_at"] <= self.now]

    # ---- how things are shown
    def shown_user(self, rights, name, is_caller=False):
        """A user with the fields that the caller may read; who asks for itself always learns its name."""
        user, row, shown = ("user", name), self.users[name], {}
        if is_caller or rights.allows("read:users:name", user):
            shown.update(kind="user", name=name)
        if rights.allows("read:users", user):
            shown.update(admin=row["admin"], created=moment_text(row["created"]))
        if rights.allows("read:users:groups", user):
            shown["groups"] = sorted(group for group, its in self.groups.items() if name in its["users"])
        if rights.allows("read:users:activity", user):
            shown["last_activity"] = shown_moment(row["last_activity"])
        if rights.allows("read:roles:users", user):
            shown["roles"] = self.roles_of(user)
        servers = {key[1]: self.shown_server(key) for key in self.live if key[0] == name and rights.allows("read:servers", ("server", key))}
        if servers or rights.allows("read:servers", user):
            shown["servers"] = servers
        return shown

    def shown_server(self, key):
        row, is_parked = self.servers[key], key in self.parked
        return {"last_activity": shown_moment(row["last_activity"]), "name": key[1], "pending": "stop" if is_parked else None,
                "ready": not is_parked, "started": shown_moment(row["started"]), "url": server_path(key) + "/"}

    def shown_group(self, rights, name):
        group, shown = ("group", name), {}
        if rights.allows("read:groups:name", group):
            shown.update(kind="group", name=name)
        if rights.allows("read:groups", group):
            shown["users"] = self.groups[name]["users"]
        if rights.allows("read:roles:groups", group):
            shown["roles"] = sorted(role for role, row in self.roles.items() if name in row["groups"])
        return shown

    def shown_service(self, rights, name, is_caller=False):
        service, shown = ("service", name), {}
        if is_caller or rights.allows("read:services:name", service):
            shown.update(kind="service", name=name)
        if rights.allows("read:roles:services", service):
            shown["roles"] = sorted(role for role, row in self.roles.items() if name in row["services"])
        return shown

    @staticmethod
    def shown_token(number, row):
        kind, name = owner_of(row)
        return {"created": moment_text(row["created"]), "expires_at": shown_moment(row["expires_at"]), "id": str(number),
                "kind": "api_token", "note": row["note"], "oauth_client": row["client"], "scopes": row["scopes"],
                "user": name if kind == "user" else None}

    def shown_role(self, name):
        return dict(self.roles[name], name=name)

    @staticmethod
    def shown_share(share, row):
        server, kind, name = share
        return {"created": moment_text(row["created"]), "group": name if kind == "group" else None, "scopes": row["scopes"],
                "server": key_text(server), "user": name if kind == "user" else None}

    @staticmethod
    def shown_code(number, row):
        return {"created": moment_text(row["created"]), "expires_at": moment_text(row["expires_at"]), "id": str(number),
                "scopes": row["scopes"], "server": row["server"]}

    @staticmethod
    def page(visit, items, path):
        """A part of a list; with the header for it, in JupyterHub's form of pages, and where the next one is."""
        offset, limit = visit.asked["offset"], visit.asked["limit"]
        part = items[offset:offset + limit]
        if not visit.asked["paged"]:
            return Reply(200, part)
        following = None
        if offset + limit < len(items):
            url = "/hub/api%s?limit=%d&offset=%d" % (path, limit, offset + limit)
            following = {"limit": limit, "offset": offset + limit, "url": url}
        return Reply(200, {"_pagination": {"limit": limit, "next": following, "offset": offset, "total": len(items)}, "items": part})

    # ---- one request
    def request(self, method, target, headers, body, draw=None):
        """The bytes of the reply to a request, whose headers are pairs of texts. `draw` is what the hub drew, where its reply tells it."""
        headers = [(name.lower(), value) for name, value in headers]
        path, _, query = target.partition(b"?")
        self.replies += 1
        closes = self.replies >= MOST_REQUESTS or any(
            name == "connection" and "close" in [word.strip(" \t").lower() for word in value.split(",")] for name, value in headers)
        try:
            call, asked = read_call(method, path, query, body)
        except Refused as refused:
            # what doesn't come to the book has no revision
            return self.reply_bytes(Reply(refused.status, refused.body()), closes, None)
        asked["paged"] = ("accept", "application/jupyterhub-pagination+json") in headers
        seen = next((int(value) for name, value in headers if name == "x-hub-seen"), None)
        try:
            reply = self.visit(call, asked, self.text_of_token(headers), seen, draw)
        except Refused as refused:
            reply = Reply(refused.status, refused.body())
        return self.reply_bytes(reply, closes, self.revision)

    @staticmethod
    def text_of_token(headers):
        """The token of exactly one header `Authorization: token T` or `Bearer T`."""
        values = [value for name, value in headers if name == "authorization"]
        words = re.split(r"[ \t]+", values[0].strip(" \t")) if len(values) == 1 else []
        return words[1] if len(words) == 2 and words[0].lower() in ("token", "bearer") else None

    @staticmethod
    def reply_bytes(reply, closes, revision):
        body = b"" if reply.value is None else json_text(reply.value).encode()
        lines = ["HTTP/1.1 %d %s" % (reply.status, PHRASES[reply.status])]
        if reply.value is not None:
            lines.append("Content-Type: application/json")
        if reply.status != 204:
            lines.append("Content-Length: %d" % len(body))
        lines += reply.headers
        if revision is not None:
            lines.append("X-Hub-Revision: %d" % revision)
        if closes:
            lines.append("Connection: close")
        return ("\r\n".join(lines) + "\r\n\r\n").encode() + body

    def visit(self, call, asked, text, seen, draw):
        """The answer to a call: each refusal stands before those below it."""
        if seen is not None and seen > self.revision:
            raise Refused(412, "seen %d, revision %d" % (seen, self.revision))
        token = rights = None
        if call.name not in ("show_version", "trade_code"):
            token = self.find_token(text)
            rights = self.rights_of(token)
        action, thing = self.needed(call, asked)
        if action and not rights.holds(action):
            raise Refused(403, "needs " + action)
        if thing and not rights.allows(action, thing):
            raise Refused(404, "not found")
        if call.name == "delete_role" and asked["role"] in FIXED_ROLES:
            raise Refused(400, "fixed role")
        if not self.is_there(call.there, asked):
            raise Refused(404, "not found")
        return getattr(self, call.name)(Visit(asked, asked["body"], rights, token, draw))

    def find_token(self, text):
        hashed = None if text is None else hash_of(text)
        for token in self.tokens.values():
            if token["hash"] == hashed and (token["expires_at"] is None or token["expires_at"] > self.now):
                return token
        raise Refused(403, "no valid token")

    def needed(self, call, asked):
        """The action that a call needs, and on what; to authorize a client, what lets one enter it."""
        if call.name == "authorize":
            self.find_asking_client(asked)
            kind, _, name = asked["client_id"].partition(":")
            return "access:%ss" % kind, (kind, read_key(name) if kind == "server" else name)
        if call.on == "hub":
            return call.needs, ("hub",)
        if call.on == "server":
            return call.needs, ("server", (asked["user"], asked["server"]))
        return call.needs, (call.on, asked[call.on]) if call.on else None

    def is_there(self, what, asked):
        if what in ("user", "group", "service", "role"):
            return asked[what] in getattr(self, what + "s")
        if what == "token":
            row = self.tokens.get(asked["id"])
            return asked["user"] in self.users and row is not None and row["owner"] == "user:" + asked["user"]
        if what in ("server", "code"):
            # a default server is there as soon as its user is
            key = (asked["user"], asked["server"])
            is_server = key[0] in self.users and (key[1] == "" or key in self.servers)
            if what == "server" or asked["id"] is None:
                return is_server
            row = self.share_codes.get(asked["id"])
            return is_server and row is not None and row["server"] == key_text(key)
        return True

    # ---- the hub
    def show_version(self, visit):
        return Reply(200, {"version": VERSION})

    def show_hub(self, visit):
        return Reply(200, {"leases": len(self.leases), "pool": len(self.pool), "version": VERSION})

    def show_caller(self, visit):
        kind, name = owner_of(visit.token)
        shown = (self.shown_user if kind == "user" else self.shown_service)(visit.rights, name, is_caller=True)
        shown["scopes"] = visit.token["scopes"]
        if visit.asked["for"] is not None:
            shown["access"] = visit.rights.allows("access:servers", ("server", visit.asked["for"]))
        return Reply(200, shown)

    def show_routes(self, visit):
        return Reply(200, {path: {"serial": serial, "target": target} for path, (serial, target) in self.routes.items()})

    def sync_routes(self, visit):
        """In a session each ready server has its route and no other route is there: only the hub's own can lack."""
        lacks = self.hub_url is not None and "/" not in self.routes
        if lacks:
            self.routes["/"] = (None, self.hub_url)
        return Reply(200, {"added": int(lacks), "deleted": 0})

    # ---- users
    def list_users(self, visit):
        names = [name for name in sorted(self.users) if visit.rights.allows("list:users", ("user", name))]
        return self.page(visit, [self.shown_user(visit.rights, name) for name in names], "/users")

    def make_users(self, visit):
        """Those that are kept are passed over; where all are it is a conflict."""
        names = visit.body["usernames"]
        new = [name for name in names if name not in self.users]
        if not new:
            raise Refused(409, "exists: " + names[0])
        self.find_place("users", len(new))
        self.change([("users", name, self.new_user(visit.body["admin"])) for name in new])
        return Reply(201, [self.shown_user(visit.rights, name) for name in new])

    def show_user(self, visit):
        return Reply(200, self.shown_user(visit.rights, visit.asked["user"]))

    def make_user(self, visit):
        name = visit.asked["user"]
        if name in self.users:
            raise Refused(409, "exists: " + name)
        self.find_place("users")
        self.change([("users", name, self.new_user(False))])
        return Reply(201, self.shown_user(visit.rights, name))

    def change_user(self, visit):
        name = visit.asked["user"]
        self.change([("users", name, dict(self.users[name], admin=visit.body["admin"]))])
        return Reply(200, self.shown_user(visit.rights, name))

    def delete_user(self, visit):
        """All that is the user's goes, and the name leaves groups and roles."""
        name = visit.asked["user"]
        if any(key[0] == name for key in self.live):
            raise Refused(400, "live servers")
        gone = [("users", name)]
        gone += [("tokens", number) for number, row in self.tokens.items() if row["owner"] == "user:" + name]
        gone += [("servers", key) for key in self.servers if key[0] == name]
        gone += [("shares", share) for share in self.shares if share[0][0] == name or share[1:] == ("user", name)]
        gone += [("share_codes", number) for number, row in self.share_codes.items() if read_key(row["server"])[0] == name]
        gone += [("grant_codes", hashed) for hashed, row in self.grant_codes.items() if row["owner"] == name]
        gone += [("clients", client) for client in self.clients if client.startswith("server:" + name + "/")]
        left = [("groups", group, without(row, "users", name)) for group, row in self.groups.items()]
        left += [("roles", role, without(row, "users", name)) for role, row in self.roles.items()]
        self.change(left, gone)
        return Reply(204)

    def note_activity(self, visit):
        """A moment counts where none is kept or the kept one is long enough before; one in the future is now."""
        name, servers = visit.asked["user"], visit.body["servers"]
        for server in sorted(servers):
            if (name, server) not in self.servers:
                raise Refused(400, "unknown server " + server)
        told = [("users", name, visit.body["last_activity"])]
        told += [("servers", (name, server), moment) for server, moment in servers.items()]
        puts = []
        for kind, key, moment in told:
            row = getattr(self, kind)[key]
            kept = row["last_activity"]
            if moment is not None and (kept is None or kept + ACTIVITY_SECONDS <= min(moment, self.now)):
                puts.append((kind, key, dict(row, last_activity=min(moment, self.now))))
        self.change(puts)
        return Reply(204)

    # ---- servers
    def start(self, visit):
        """A start finds all that it needs before it changes anything; its program and its route never fail in a session."""
        key = (visit.asked["user"], visit.asked["server"])
        if key in self.live:
            raise Refused(400, "pending stop" if key in self.parked else "already running")
        named = sum(1 for user, server in self.servers if user == key[0] and server)
        if key[1] and key not in self.servers and named >= self.limits["servers"]:
            raise Refused(400, "server limit")
        client = "server:" + key_text(key)
        self.find_place("tokens")
        self.find_place("clients", 0 if client in self.clients else 1)
        free = [target for target in self.pool if target not in self.leases]
        if not free:
            raise Refused(429, "%d of %d servers" % (len(self.leases), len(self.pool)))
        generation = self.next_number("generation")
        # room is found for all that may come of a start: its program, its route, and the ends of both
        self.change(self.rows_of_start(key, client, free[0], generation), owed=4)
        self.live[key] = generation
        self.own.add(generation)
        self.routes[server_path(key)] = (2 * generation, free[0])
        self.note_entries(2)
        return Reply(201)

    def rows_of_start(self, key, client, target, generation):
        """The server's row, its lease, the token that it gets, and itself as a client; the secrets are told to it alone."""
        token = self.next_number("token")
        created = self.servers[key]["created"] if key in self.servers else self.now
        scopes = ["users:activity!user", "access:servers!server"]
        return [("servers", key, {"created": created, "last_activity": None, "started": self.now}),
                ("leases", target, {"generation": generation, "server": key_text(key)}),
                ("tokens", token, self.new_token(UNTOLD, "user:" + key[0], scopes, issued_for=key_text(key))),
                ("clients", client, {"hash": UNTOLD, "redirect_uri": server_path(key) + "/oauth_callback"}),
                ("next_numbers", "generation", {"next": generation + 1}), ("next_numbers", "token", {"next": token + 1})]

    start_default = start_named = start

    def stop(self, visit):
        key, removes = (visit.asked["user"], visit.asked["server"]), visit.body["remove"]
        if removes and key[1] == "":
            raise Refused(400, "default server")
        if key not in self.live:
            if removes:
                self.change([], [("servers", key)] + self.shares_and_codes_of(key))
            return Reply(204)
        # the wish to stop; then that the route is gone, and that the program has ended or couldn't be stopped
        self.find_room(ENTRY_BYTES, 2)
        self.note_entries(3)
        self.routes.pop(server_path(key), None)
        if self.live[key] not in self.own:
            self.parked.add(key)
            raise Refused(503, "spawner")
        self.end_server(key)
        return Reply(204)

    def end_server(self, key):
        """A server that has ended leaves its target, its own token and its client; tokens that were traded for its codes stay."""
        del self.live[key]
        server = key_text(key)
        self.leases = {target: row for target, row in self.leases.items() if row["server"] != server}
        self.tokens = {number: row for number, row in self.tokens.items() if row["issued_for"] != server or row["client"] is not None}
        self.clients.pop("server:" + server, None)
        self.servers[key] = dict(self.servers[key], started=None)

    stop_default = stop_named = stop

    def shares_and_codes_of(self, key):
        codes = [("share_codes", number) for number, row in self.share_codes.items() if row["server"] == key_text(key)]
        return [("shares", share) for share in self.shares if share[0] == key] + codes

    # ---- tokens
    def list_tokens(self, visit):
        owner = "user:" + visit.asked["user"]
        return Reply(200, {"api_tokens": [self.shown_token(number, row) for number, row in sorted(self.tokens.items())
                                          if row["owner"] == owner]})

    def make_token(self, visit):
        """Nobody makes a token that could do more than its user."""
        body, user = visit.body, visit.asked["user"]
        scopes = body["scopes"] or ["inherit"]
        self.refuse_undeclared(scopes)
        lacking = self.first_not_held(scopes, user)
        if lacking is not None:
            raise Refused(403, "not held: " + lacking)
        ended = self.ended_tokens("user:" + user)
        self.find_place("tokens", 1, len(ended))
        number = self.next_number("token")
        ends = None if body["expires_in"] is None else later(self.now, body["expires_in"])
        row = self.new_token(drawn_hash(visit.draw), "user:" + user, scopes, note=body["note"], expires_at=ends)
        self.change([("tokens", number, row), ("next_numbers", "token", {"next": number + 1})], ended)
        return Reply(201, dict(self.shown_token(number, row), token=visit.draw))

    def refuse_undeclared(self, scopes):
        for text in scopes:
            action = text.partition("!")[0]
            if action.startswith("custom:") and action not in self.custom:
                raise Refused(400, "unknown scope " + text)

    def show_token(self, visit):
        number = visit.asked["id"]
        return Reply(200, self.shown_token(number, self.tokens[number]))

    def delete_token(self, visit):
        self.change([], [("tokens", visit.asked["id"])])
        return Reply(204)

    # ---- groups
    def list_groups(self, visit):
        names = [name for name in sorted(self.groups) if visit.rights.allows("list:groups", ("group", name))]
        return self.page(visit, [self.shown_group(visit.rights, name) for name in names], "/groups")

    def show_group(self, visit):
        return Reply(200, self.shown_group(visit.rights, visit.asked["group"]))

    def refuse_unknown_user(self, names):
        for name in names:
            if name not in self.users:
                raise Refused(400, "unknown user " + name)

    def make_group(self, visit):
        name, users = visit.asked["group"], visit.body["users"]
        if name in self.groups:
            raise Refused(409, "exists: " + name)
        self.refuse_unknown_user(users)
        self.find_place("groups")
        self.change([("groups", name, {"users": sorted(set(users))})])
        return Reply(201, self.shown_group(visit.rights, name))

    def delete_group(self, visit):
        """It leaves the roles, and the shares with it go."""
        name = visit.asked["group"]
        left = [("roles", role, without(row, "groups", name)) for role, row in self.roles.items()]
        self.change(left, [("groups", name)] + [("shares", share) for share in self.shares if share[1:] == ("group", name)])
        return Reply(204)

    def put_members(self, visit, members):
        name = visit.asked["group"]
        self.refuse_unknown_user(visit.body["users"])
        self.change([("groups", name, {"users": sorted(members)})])
        return Reply(200, self.shown_group(visit.rights, name))

    def add_members(self, visit):
        return self.put_members(visit, set(self.groups[visit.asked["group"]]["users"]) | set(visit.body["users"]))

    def remove_members(self, visit):
        return self.put_members(visit, set(self.groups[visit.asked["group"]]["users"]) - set(visit.body["users"]))

    # ---- services
    def list_services(self, visit):
        names = [name for name in sorted(self.services) if visit.rights.allows("list:services", ("service", name))]
        return self.page(visit, [self.shown_service(visit.rights, name) for name in names], "/services")

    def show_service(self, visit):
        return Reply(200, self.shown_service(visit.rights, visit.asked["service"]))

    def make_service(self, visit):
        name = visit.asked["service"]
        if name in self.services:
            raise Refused(409, "exists: " + name)
        self.find_place("services")
        self.change([("services", name, {})])
        return Reply(201, self.shown_service(visit.rights, name))

    def delete_service(self, visit):
        """Its tokens and its client go, and its name leaves the roles."""
        name = visit.asked["service"]
        left = [("roles", role, without(row, "services", name)) for role, row in self.roles.items()]
        gone = [("services", name), ("clients", "service:" + name)]
        gone += [("tokens", number) for number, row in self.tokens.items() if row["owner"] == "service:" + name]
        self.change(left, gone)
        return Reply(204)

    # ---- roles
    def list_roles(self, visit):
        return self.page(visit, [self.shown_role(name) for name in sorted(self.roles)], "/roles")

    def show_role(self, visit):
        return Reply(200, self.shown_role(visit.asked["role"]))

    def put_role(self, visit):
        name, body = visit.asked["role"], visit.body
        if name in FIXED_ROLES:
            raise Refused(400, "fixed role")
        self.refuse_undeclared(body["scopes"])
        for kind in ("users", "groups", "services"):
            for holder in sorted(body[kind]):
                if holder not in getattr(self, kind):
                    raise Refused(400, "unknown holder " + holder)
        is_new = name not in self.roles
        self.find_place("roles", int(is_new))
        self.change([("roles", name, self.role_row(body))])
        return Reply(201 if is_new else 200, self.shown_role(name))

    def delete_role(self, visit):
        self.change([], [("roles", visit.asked["role"])])
        return Reply(204)

    # ---- shares
    def page_of_shares(self, visit, is_asked, path):
        """By the server; those with users stand before those with groups."""
        shares = sorted(filter(is_asked, self.shares), key=lambda share: (share[0], share[1] == "group", share[2]))
        return self.page(visit, [self.shown_share(share, self.shares[share]) for share in shares], path)

    def list_shared(self, visit):
        user = visit.asked["user"]
        return self.page_of_shares(visit, lambda share: share[1:] == ("user", user), "/users/%s/shared" % user)

    def list_shares_of_user(self, visit):
        user = visit.asked["user"]
        return self.page_of_shares(visit, lambda share: share[0][0] == user, "/shares/" + user)

    def list_shares(self, visit):
        key = (visit.asked["user"], visit.asked["server"])
        return self.page_of_shares(visit, lambda share: share[0] == key, "/shares/" + key_text(key))

    @staticmethod
    def refuse_other_scopes(key, texts):
        for place, text in enumerate(texts):
            action, only = read_scope(text)
            if action not in SHARED_ACTIONS or only != ("server", key):
                raise Refused(400, "share scope %d" % place)

    def recipient(self, body):
        """The one user or group that is named, and kept."""
        named = [(kind, body[kind]) for kind in ("user", "group") if body[kind] is not None]
        if len(named) != 1 or named[0][1] not in getattr(self, named[0][0] + "s"):
            raise Refused(400, "no recipient")
        return named[0]

    def grant(self, share, scopes):
        """What was shared stays."""
        kept = self.shares.get(share)
        self.find_place("shares", 0 if kept else 1)
        row = {"created": kept["created"] if kept else self.now, "scopes": sorted({*scopes, *(kept["scopes"] if kept else [])})}
        self.change([("shares", share, row)])
        return Reply(200, self.shown_share(share, row))

    def grant_share(self, visit):
        key, body = (visit.asked["user"], visit.asked["server"]), visit.body
        self.refuse_other_scopes(key, body["scopes"])
        share = (key,) + self.recipient(body)
        return self.grant(share, body["scopes"] or ["access:servers!server=" + key_text(key)])

    def revoke_share(self, visit):
        """Without scopes all are revoked; a share that has none left goes."""
        key, body = (visit.asked["user"], visit.asked["server"]), visit.body
        self.refuse_other_scopes(key, body["scopes"])
        share = (key,) + self.recipient(body)
        if share not in self.shares:
            return Reply(200, {})
        kept = self.shares[share]
        left = [text for text in kept["scopes"] if body["scopes"] and text not in body["scopes"]]
        if not left:
            self.change([], [("shares", share)])
            return Reply(200, {})
        row = dict(kept, scopes=left)
        self.change([("shares", share, row)])
        return Reply(200, self.shown_share(share, row))

    def delete_shares(self, visit):
        key = (visit.asked["user"], visit.asked["server"])
        self.change([], [("shares", share) for share in self.shares if share[0] == key])
        return Reply(204)

    # ---- codes of shares
    def accept_code(self, visit):
        hashed = hash_of(visit.body["code"])
        code = next((row for row in self.share_codes.values() if row["hash"] == hashed), None)
        if code is None:
            raise Refused(400, "code unknown")
        if code["expires_at"] <= self.now:
            raise Refused(400, "code expired")
        return self.grant((read_key(code["server"]), "user", visit.asked["user"]), code["scopes"])

    def page_of_codes(self, visit, is_asked, path):
        codes = [self.shown_code(number, row) for number, row in sorted(self.share_codes.items()) if is_asked(read_key(row["server"]))]
        return self.page(visit, codes, "/share-codes/" + path)

    def list_codes_of_user(self, visit):
        user = visit.asked["user"]
        return self.page_of_codes(visit, lambda key: key[0] == user, user)

    def list_codes(self, visit):
        asked = (visit.asked["user"], visit.asked["server"])
        return self.page_of_codes(visit, lambda key: key == asked, key_text(asked))

    def make_code(self, visit):
        key, body = (visit.asked["user"], visit.asked["server"]), visit.body
        self.refuse_other_scopes(key, body["scopes"])
        if body["expires_in"] < SHORTEST_CODE_SECONDS:
            raise Refused(400, "life too short")
        ended = [("share_codes", number) for number, row in self.share_codes.items()
                 if row["server"] == key_text(key) and row["expires_at"] <= self.now]
        self.find_place("share_codes", 1, len(ended))
        number = self.next_number("code")
        row = {"created": self.now, "expires_at": later(self.now, body["expires_in"]), "hash": drawn_hash(visit.draw),
               "scopes": body["scopes"] or ["access:servers!server=" + key_text(key)], "server": key_text(key)}
        self.change([("share_codes", number, row), ("next_numbers", "code", {"next": number + 1})], ended)
        return Reply(201, dict(self.shown_code(number, row), code=visit.draw))

    def delete_codes(self, visit):
        """The one that is named, or all of the server."""
        server, named = key_text((visit.asked["user"], visit.asked["server"])), visit.asked["id"]
        self.change([], [("share_codes", number) for number, row in self.share_codes.items()
                         if row["server"] == server and named in (None, number)])
        return Reply(204)

    # ---- the authorization code grant
    def find_asking_client(self, asked):
        """A client, and its own URI, are looked for before any right, so that nothing is ever sent to another's URI."""
        fields = [asked[field] for field in ("response_type", "client_id", "redirect_uri", "state")]
        if None in fields or asked["response_type"] != "code":
            raise Refused(400, "invalid_request", is_oauth=True)
        if asked["client_id"] not in self.clients:
            raise Refused(400, "invalid_client", is_oauth=True)
        if self.clients[asked["client_id"]]["redirect_uri"] != asked["redirect_uri"]:
            raise Refused(400, "invalid_request", is_oauth=True)

    def authorize(self, visit):
        asked = visit.asked
        kind, user = owner_of(visit.token)
        if kind != "user":
            raise Refused(403, "needs a user")
        ended = [("grant_codes", hashed) for hashed, row in self.grant_codes.items() if row["expires_at"] <= self.now]
        self.find_place("grant_codes", 1, len(ended))
        row = {"client": asked["client_id"], "expires_at": later(self.now, GRANT_SECONDS), "owner": user,
               "redirect_uri": asked["redirect_uri"], "token": None}
        self.change([("grant_codes", drawn_hash(visit.draw), row)], ended)
        location = "Location: %s?code=%s&state=%s" % (asked["redirect_uri"], visit.draw, form_text(asked["state"]))
        return Reply(302, None, (location,))

    def trade_code(self, visit):
        body = visit.body
        self.refuse_bad_trade(body)
        hashed = hash_of(body["code"])
        code = self.grant_codes[hashed]
        owner = "user:" + code["owner"]
        ended = self.ended_tokens(owner)
        self.find_place("tokens", 1, len(ended))
        number = self.next_number("token")
        kind, _, name = body["client_id"].partition(":")
        entered = "access:servers!server" if kind == "server" else "access:services!service=" + name
        row = self.new_token(drawn_hash(visit.draw), owner, [entered, "read:users:name!user"], client=body["client_id"],
                             expires_at=later(self.now, TRADED_SECONDS), issued_for=name if kind == "server" else None)
        used = ("grant_codes", hashed, dict(code, token=number))
        self.change([("tokens", number, row), used, ("next_numbers", "token", {"next": number + 1})], ended)
        told = {"access_token": visit.draw, "expires_in": TRADED_SECONDS, "token_type": "Bearer"}
        return Reply(200, told, ("Cache-Control: no-store", "Pragma: no-cache"))

    def refuse_bad_trade(self, body):
        """A code that is traded a second time takes the token along that it was traded for (RFC 6749, 4.1.2)."""
        if body["grant_type"] is None:
            raise Refused(400, "invalid_request", is_oauth=True)
        if body["grant_type"] != "authorization_code":
            raise Refused(400, "unsupported_grant_type", is_oauth=True)
        if None in body.values():
            raise Refused(400, "invalid_request", is_oauth=True)
        client = self.clients.get(body["client_id"])
        if client is None or client["hash"] != hash_of(body["client_secret"]):
            raise Refused(400, "invalid_client", is_oauth=True)
        code = self.grant_codes.get(hash_of(body["code"]))
        if code is None or (code["client"], code["redirect_uri"]) != (body["client_id"], body["redirect_uri"]):
            raise Refused(400, "invalid_grant", is_oauth=True)
        if code["token"] is not None:
            self.change([], [("tokens", code["token"])])
        if code["token"] is not None or code["expires_at"] <= self.now:
            raise Refused(400, "invalid_grant", is_oauth=True)
