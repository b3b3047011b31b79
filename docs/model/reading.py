"""What a request says: names, scopes, moments, bodies and queries, and which of the hub's 47 calls it asks.

Nothing here knows what a hub keeps. `read_call` gives the call and what it is asked with, or raises `Refused`.
"""
import datetime
import json
import re
from typing import NamedTuple
from urllib.parse import unquote_to_bytes

GREATEST_NUMBER = 2**64 - 1
LATEST = 250_000_000_000    # in seconds since 1970; a later moment is this one
PREFIX = b"/hub/api"

# each action with its direct subscopes, as in JupyterHub's "Available scopes"
SUBSCOPES = {
    "access:servers": [], "access:services": [], "admin-ui": [], "admin:auth_state": [],
    "admin:groups": ["delete:groups", "groups", "read:roles:groups"],
    "admin:roles": [], "admin:server_state": [],
    "admin:servers": ["admin:server_state", "servers"],
    "admin:services": ["list:services", "read:roles:services", "read:services"],
    "admin:users": ["admin:auth_state", "delete:users", "read:roles:users", "users"],
    "delete:groups": [], "delete:servers": [], "delete:users": [],
    "groups": ["list:groups", "read:groups"],
    "groups:shares": ["read:groups:shares"],
    "list:groups": ["read:groups:name"], "list:services": ["read:services:name"], "list:users": ["read:users:name"],
    "proxy": [], "read:groups": ["read:groups:name"], "read:groups:name": [], "read:groups:shares": [],
    "read:hub": [], "read:metrics": [],
    "read:roles": ["read:roles:groups", "read:roles:services", "read:roles:users"],
    "read:roles:groups": [], "read:roles:services": [], "read:roles:users": [],
    "read:servers": ["read:users:name"],
    "read:services": ["read:services:name"], "read:services:name": [],
    "read:shares": [], "read:tokens": [],
    "read:users": ["read:users:activity", "read:users:groups", "read:users:name"],
    "read:users:activity": [], "read:users:groups": [], "read:users:name": [], "read:users:shares": [],
    "servers": ["delete:servers", "read:servers"],
    "shares": ["access:servers", "groups:shares", "read:shares", "users:shares"],
    "shutdown": [], "tokens": ["read:tokens"],
    "users": ["list:users", "read:users", "users:activity"],
    "users:activity": ["read:users:activity"],
    "users:shares": ["read:users:shares"],
}
# what `self` stands for, each on the user alone
SELF = ["read:users", "users:activity", "servers", "tokens", "access:servers", "read:shares", "users:shares"]


class Refused(Exception):
    def __init__(self, status, message, is_oauth=False):
        super().__init__(message)
        self.status, self.message, self.is_oauth = status, message, is_oauth

    def body(self):
        """What the reply says; RFC 6749 has a form of its own for its errors."""
        return {"error": self.message} if self.is_oauth else {"message": self.message, "status": self.status}


class Bad(Exception):
    """A body isn't of its form."""


def need(holds):
    if not holds:
        raise Bad


# ---- names, keys of servers, scopes
NAME = re.compile(r"[a-z0-9][a-z0-9._\-@]{0,63}\Z")
CUSTOM_ACTION = re.compile(r"custom:[a-z0-9](?:[a-z0-9_\-*:]{0,55}[a-z0-9_*])?\Z")


def is_name(text):
    return bool(NAME.match(text))


def is_server_name(text):
    """The default server's name is empty."""
    return text == "" or is_name(text)


def read_key(text):
    """`USER/SERVER` as a pair, or None."""
    user, slash, server = text.partition("/")
    return (user, server) if slash and is_name(user) and is_server_name(server) else None


def key_text(key):
    return key[0] + "/" + key[1]


def read_scope(text):
    """A scope as its action and its filter, or None where the text is none.

    The filter is None, or a kind with a value; the value is None where it is the holder's own. `self` and `inherit` have no filter.
    """
    action, bang, rest = text.partition("!")
    if action in ("self", "inherit"):
        return None if bang else (action, None)
    if action not in SUBSCOPES and not CUSTOM_ACTION.match(action):
        return None
    if not bang:
        return (action, None)
    kind, equals, value = rest.partition("=")
    if not equals:
        return (action, (kind, None)) if kind in ("user", "server", "service") else None
    if kind == "server":
        key = read_key(value)
        return (action, (kind, key)) if key is not None else None
    return (action, (kind, value)) if kind in ("user", "group", "service") and is_name(value) else None


# ---- moments
MOMENT = re.compile(r"(\d{4}-\d\d-\d\d)[Tt ](\d\d:\d\d:)(\d\d)(?:[.,]\d{1,9})?([Zz]|([+-])([01]\d|2[0-3]):([0-5]\d))\Z", re.ASCII)


def moment_text(seconds):
    return (datetime.datetime(1970, 1, 1) + datetime.timedelta(seconds=seconds)).strftime("%Y-%m-%dT%H:%M:%SZ")


def read_moment(text):
    """The whole seconds since 1970 of a text of RFC 3339, or None; earlier moments are 1970, a leap second is the one before it.

    The hub also reads other forms that the crate `jiff` takes, such as a text without seconds; these aren't modelled.
    """
    found = MOMENT.match(text)
    if not found:
        return None
    day, clock, second, _, sign, hours, minutes = found.groups()
    try:
        local = datetime.datetime.fromisoformat(day + "T" + clock + ("59" if second == "60" else second))
    except ValueError:
        return None
    since = local - datetime.datetime(1970, 1, 1)
    ahead = datetime.timedelta(hours=int(hours or 0), minutes=int(minutes or 0))
    since = since + ahead if sign == "-" else since - ahead
    return max(0, min(LATEST, since.days * 86400 + since.seconds))


# ---- JSON as serde_json reads it
# a pair of escapes for one character, else a half of such a pair alone, else any other escape
ESCAPE = re.compile(r"\\(?:u[dD][89abAB][0-9a-fA-F]{2}\\u[dD][c-fC-F][0-9a-fA-F]{2}|(u[dD][89a-fA-F][0-9a-fA-F]{2})|.)", re.DOTALL)
DEEPEST = 127


class Object(dict):
    """An object, which knows how deep it was written: a value counts for that too where an equal key replaces it later."""

    def __init__(self, pairs):
        super().__init__(pairs)
        self.depth = 1 + max((depth(value) for _, value in pairs), default=0)


def depth(value):
    if isinstance(value, Object):
        return value.depth
    return 1 + max(map(depth, value), default=0) if isinstance(value, list) else 0


def finite(text):
    number = float(text)
    need(abs(number) != float("inf"))
    return number


def whole(text):
    """A number of 64 bits as an int, any other as a float, which no field takes."""
    return int(text) if text[0] != "-" and len(text) <= 20 and int(text) <= GREATEST_NUMBER else finite(text)


def read_json(body):
    try:
        text = body.decode("utf-8")
        value = json.loads(text, parse_int=whole, parse_float=finite, parse_constant=lambda _: need(False), object_pairs_hook=Object)
        need(depth(value) <= DEEPEST)
    except (ValueError, RecursionError):
        raise Bad from None
    need(not any(escape.group(1) for escape in ESCAPE.finditer(text)))
    return value


# ---- queries and forms
def read_form(text):
    """The pairs of a form in their order; what isn't UTF-8 is replaced."""
    pairs = []
    for part in text.split(b"&"):
        if part:
            key, _, value = part.partition(b"=")
            pairs.append(tuple(unquote_to_bytes(half.replace(b"+", b" ")).decode("utf-8", "replace") for half in (key, value)))
    return pairs


def first(pairs, key):
    """Of equal keys the first counts."""
    return next((value for name, value in pairs if name == key), None)


def read_number(text):
    if not re.match(r"[0-9]+\Z", text) or int(text) > GREATEST_NUMBER:
        raise Refused(400, "bad query")
    return int(text)


# ---- the calls
class Call(NamedTuple):
    name: str      # the function of the model that answers it
    method: str
    path: str      # behind /hub/api; `{server?}` may be empty
    needs: str     # the action that the caller needs, if any
    on: str        # on what; where nothing stands here it is enough to have it on anything
    there: str     # what has to be kept


CALLS = [Call(*row) for row in (
    ("show_version", "GET", "/", "", "", ""),
    ("show_hub", "GET", "/info", "read:hub", "hub", ""),
    ("show_caller", "GET", "/user", "", "", ""),
    ("list_users", "GET", "/users", "list:users", "", ""),
    ("make_users", "POST", "/users", "admin:users", "hub", ""),
    ("show_user", "GET", "/users/{user}", "read:users:name", "user", "user"),
    ("make_user", "POST", "/users/{user}", "admin:users", "user", ""),
    ("change_user", "PATCH", "/users/{user}", "admin:users", "hub", "user"),
    ("delete_user", "DELETE", "/users/{user}", "delete:users", "user", "user"),
    ("note_activity", "POST", "/users/{user}/activity", "users:activity", "user", "user"),
    ("start_default", "POST", "/users/{user}/server", "servers", "server", "user"),
    ("start_named", "POST", "/users/{user}/servers/{server}", "servers", "server", "user"),
    ("stop_default", "DELETE", "/users/{user}/server", "delete:servers", "server", "user"),
    ("stop_named", "DELETE", "/users/{user}/servers/{server}", "delete:servers", "server", "server"),
    ("list_tokens", "GET", "/users/{user}/tokens", "read:tokens", "user", "user"),
    ("make_token", "POST", "/users/{user}/tokens", "tokens", "user", "user"),
    ("show_token", "GET", "/users/{user}/tokens/{id}", "read:tokens", "user", "token"),
    ("delete_token", "DELETE", "/users/{user}/tokens/{id}", "tokens", "user", "token"),
    ("list_shared", "GET", "/users/{user}/shared", "read:users:shares", "user", "user"),
    ("accept_code", "POST", "/users/{user}/shared", "users:shares", "user", "user"),
    ("list_groups", "GET", "/groups", "list:groups", "", ""),
    ("show_group", "GET", "/groups/{group}", "read:groups:name", "group", "group"),
    ("make_group", "POST", "/groups/{group}", "admin:groups", "group", ""),
    ("delete_group", "DELETE", "/groups/{group}", "delete:groups", "group", "group"),
    ("add_members", "POST", "/groups/{group}/users", "groups", "group", "group"),
    ("remove_members", "DELETE", "/groups/{group}/users", "groups", "group", "group"),
    ("list_services", "GET", "/services", "list:services", "", ""),
    ("show_service", "GET", "/services/{service}", "read:services:name", "service", "service"),
    ("make_service", "POST", "/services/{service}", "admin:services", "service", ""),
    ("delete_service", "DELETE", "/services/{service}", "admin:services", "service", "service"),
    ("list_roles", "GET", "/roles", "admin:roles", "hub", ""),
    ("show_role", "GET", "/roles/{role}", "admin:roles", "hub", "role"),
    ("put_role", "PUT", "/roles/{role}", "admin:roles", "hub", ""),
    ("delete_role", "DELETE", "/roles/{role}", "admin:roles", "hub", "role"),
    ("show_routes", "GET", "/proxy", "proxy", "hub", ""),
    ("sync_routes", "POST", "/proxy", "proxy", "hub", ""),
    ("list_shares_of_user", "GET", "/shares/{user}", "read:shares", "user", "user"),
    ("list_shares", "GET", "/shares/{user}/{server?}", "read:shares", "server", "server"),
    ("grant_share", "POST", "/shares/{user}/{server?}", "shares", "server", "server"),
    ("revoke_share", "PATCH", "/shares/{user}/{server?}", "shares", "server", "server"),
    ("delete_shares", "DELETE", "/shares/{user}/{server?}", "shares", "server", "server"),
    ("list_codes_of_user", "GET", "/share-codes/{user}", "read:shares", "user", "user"),
    ("list_codes", "GET", "/share-codes/{user}/{server?}", "read:shares", "server", "server"),
    ("make_code", "POST", "/share-codes/{user}/{server?}", "shares", "server", "server"),
    ("delete_codes", "DELETE", "/share-codes/{user}/{server?}", "shares", "server", "code"),
    ("authorize", "GET", "/oauth2/authorize", "", "", ""),
    ("trade_code", "POST", "/oauth2/token", "", "", ""),
)]
LISTS = {"list_users", "list_shared", "list_groups", "list_services", "list_roles", "list_shares_of_user", "list_shares",
         "list_codes_of_user", "list_codes"}
AUTHORIZE_FIELDS = ("response_type", "client_id", "redirect_uri", "state")
TRADE_FIELDS = ("grant_type", "code", "redirect_uri", "client_id", "client_secret")


def match(pattern, parts):
    """The names in a path by what they name, still encoded, or None where the path isn't of this pattern."""
    wanted = pattern.split("/")[1:]
    if len(wanted) != len(parts):
        return None
    names = {}
    for want, part in zip(wanted, parts):
        if want.startswith("{"):
            if not part and not want.endswith("?}"):
                return None
            names[want.strip("{?}")] = part
        elif want.encode() != part:
            return None
    return names


def calls_at(path):
    """The calls at this path, each with the names in it."""
    if path == PREFIX:
        path += b"/"
    if not path.startswith(PREFIX + b"/"):
        return []
    parts = path[len(PREFIX) + 1:].split(b"/")
    found = [(call, match(call.path, parts)) for call in CALLS]
    return [(call, names) for call, names in found if names is not None]


def read_path_name(kind, encoded):
    try:
        text = unquote_to_bytes(encoded).decode("utf-8")
    except UnicodeDecodeError:
        raise Refused(400, "bad name") from None
    if kind == "id":
        if re.match(r"(0|[1-9][0-9]*)\Z", text) and int(text) <= GREATEST_NUMBER:
            return int(text)
    elif is_server_name(text) if kind == "server" else is_name(text):
        return text
    raise Refused(400, "bad name")


def read_query(call, query):
    pairs = read_form(query)
    if call.name in LISTS:
        offset, limit = first(pairs, "offset"), first(pairs, "limit")
        offset = 0 if offset is None else read_number(offset)
        limit = 50 if limit is None else read_number(limit)
        if limit < 1:
            raise Refused(400, "bad query")
        return {"offset": offset, "limit": min(limit, 200)}
    if call.name == "show_caller":
        text = first(pairs, "for")
        key = None if text is None else read_key(text)
        if text is not None and key is None:
            raise Refused(400, "bad query")
        return {"for": key}
    if call.name == "delete_codes":
        text = first(pairs, "id")
        return {"id": None if text is None else read_number(text)}
    if call.name == "authorize":
        return {field: first(pairs, field) for field in AUTHORIZE_FIELDS}
    return {}


# ---- bodies
class Fields:
    """The fields of a body. Each is read as what it is to be, or raises `Bad`; where one lacks it is the default, if it has one."""

    def __init__(self, values):
        need(isinstance(values, dict))
        self.values = values

    def read(self, field, is_good, *default):
        if field not in self.values:
            need(default)
            return default[0]
        need(is_good(self.values[field]))
        return self.values[field]

    def flag(self, field, *default):
        return self.read(field, lambda value: isinstance(value, bool), *default)

    def text(self, field, *default):
        return self.read(field, lambda value: isinstance(value, str), *default)

    def name(self, field):
        return self.read(field, lambda value: isinstance(value, str) and is_name(value), None)

    def names(self, field, *default):
        def is_good(value):
            return isinstance(value, list) and all(isinstance(text, str) and is_name(text) for text in value)
        return self.read(field, is_good, *default)

    def scopes(self):
        def is_good(value):
            return isinstance(value, list) and len(value) <= 64 and all(isinstance(text, str) for text in value)
        return self.read("scopes", is_good, [])

    def number(self, field, least, *default):
        """A number of 32 bits; to Python `True` is an int too."""
        return self.read(field, lambda value: type(value) is int and least <= value < 2**32, *default)

    def moment(self):
        text = self.text("last_activity", None)
        moment = None if text is None else read_moment(text)
        need(text is None or moment is not None)
        return moment


def users_body(fields):
    names = fields.names("usernames")
    need(1 <= len(names) <= 1000 and len(set(names)) == len(names))
    return {"usernames": names, "admin": fields.flag("admin", False)}


def activity_body(fields):
    servers = {}
    for name, value in fields.read("servers", lambda value: isinstance(value, dict), {}).items():
        need(is_server_name(name))
        servers[name] = Fields(value).moment()
    return {"last_activity": fields.moment(), "servers": servers}


def token_body(fields):
    note = fields.text("note", "")
    need(len(note.encode()) <= 256)
    life = None if fields.values.get("expires_in") is None else fields.number("expires_in", 1)
    return {"scopes": fields.scopes(), "note": note, "expires_in": life}


def members_body(fields):
    names = fields.names("users")
    need(1 <= len(names) <= 1000)
    return {"users": names}


def role_body(fields):
    return {"scopes": fields.scopes(), **{kind: fields.names(kind, []) for kind in ("users", "groups", "services")}}


def share_body(fields):
    return {"user": fields.name("user"), "group": fields.name("group"), "scopes": fields.scopes()}


BODIES = {
    "make_users": users_body,
    "change_user": lambda fields: {"admin": fields.flag("admin")},
    "note_activity": activity_body,
    "stop_default": lambda fields: {"remove": fields.flag("remove", False)},
    "stop_named": lambda fields: {"remove": fields.flag("remove", False)},
    "make_token": token_body,
    "accept_code": lambda fields: {"code": fields.text("code")},
    "make_group": lambda fields: {"users": fields.names("users", [])},
    "add_members": members_body,
    "remove_members": members_body,
    "put_role": role_body,
    "grant_share": share_body,
    "revoke_share": share_body,
    "make_code": lambda fields: {"scopes": fields.scopes(), "expires_in": fields.number("expires_in", 0, 86400)},
}


def read_body(call, body):
    """What the body says; a call that has none takes any bytes."""
    if call.name == "trade_code":
        pairs = read_form(body)
        return {field: first(pairs, field) for field in TRADE_FIELDS}
    if call.name not in BODIES:
        return {}
    try:
        asked = BODIES[call.name](Fields(read_json(body) if body else {}))
    except Bad:
        raise Refused(400, "bad body") from None
    if any(read_scope(text) is None for text in asked.get("scopes", [])):
        raise Refused(400, "bad scope")
    return asked


def read_call(method, path, query, body):
    """The call, and what it is asked with: the names in its path, the values of its query, and `body`."""
    found = calls_at(path)
    if not found:
        raise Refused(404, "no such path")
    found = [(call, names) for call, names in found if call.method == method]
    if not found:
        raise Refused(405, "method not allowed")
    call, names = found[0]
    asked = {kind: read_path_name(kind, encoded) for kind, encoded in names.items()}
    if call.name in ("start_default", "stop_default"):
        asked["server"] = ""
    asked.update(read_query(call, query))
    asked["body"] = read_body(call, body)
    return call, asked
