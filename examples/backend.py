#!/usr/bin/env python3
"""backend.py API_PORT HOOK_PORT HOOK_FILE [CERTIFICATE KEY CA]

Two small servers on 127.0.0.1 for trying `apiaggd serve`. The first behaves as an API server does, for clients that ask
for little: it keeps objects of any resource in memory, with managed fields, lists them in chunks, and sends a watch each
change when it is made. A pod's log has no length, and ends when its connection does. Its version and its OpenAPI documents
are those of openapi.py. It believes X-Remote-User and X-Remote-Group. The second takes the batches of an audit webhook. It
appends one line of text for each of their events to HOOK_FILE. With three more files of PEM the first one takes TLS, from clients
alone that have a certificate of that authority.
"""

import copy
import http.server
import json
import ssl
import sys
import threading
import time
import urllib.parse

import openapi

VERBS = ["create", "delete", "get", "list", "patch", "update", "watch"]


def resource(name, kind, namespaced=True, short=()):
    return {"name": name, "singularName": kind.lower(), "namespaced": namespaced, "kind": kind, "verbs": VERBS,
            "shortNames": list(short)}


# What each group and version serves. One that is not named here serves things.
SERVED = {
    "v1": [resource("pods", "Pod", short=("po",)), resource("configmaps", "ConfigMap", short=("cm",)),
           resource("secrets", "Secret"), resource("namespaces", "Namespace", False, ("ns",)),
           {"name": "pods/log", "singularName": "", "namespaced": True, "kind": "Pod", "verbs": ["get"]},
           {"name": "pods/exec", "singularName": "", "namespaced": True, "kind": "PodExecOptions", "verbs": ["create"]}],
    "apps/v1": [resource("deployments", "Deployment", short=("deploy",))],
    "widgets.example/v1": [resource("widgets", "Widget")],
    "apiregistration.k8s.io/v1": [resource("apiservices", "APIService", False)],
}
OTHERS = [resource("things", "Thing")]
# Widgets are another server's, so that this one doesn't describe them.
DESCRIBED = {version: its for version, its in SERVED.items() if version != "widgets.example/v1"}


def pod(name):
    return {"kind": "Pod", "apiVersion": "v1", "metadata": {"name": name, "namespace": "a"},
            "spec": {"containers": [{"name": "main", "image": "none"}]}, "status": {"phase": "Running"}}


def fields(value):
    """The names of all fields of a value, as managed fields have them (Kubernetes, "Server-Side Apply")."""
    return {f"f:{name}": fields(it) for name, it in value.items()} if isinstance(value, dict) else {}


class Store:
    """Objects by their collection's path and their name, and every change in its order."""

    def __init__(self):
        self.objects = {}
        self.changes = []
        self.changed = threading.Condition()

    def put(self, place, value, manager="stand-in"):
        """Adds or replaces an object, of which all fields are that manager's then, and returns it as it is kept."""
        with self.changed:
            value = copy.deepcopy(value)
            kind = "MODIFIED" if place in self.objects else "ADDED"
            meta = value.setdefault("metadata", {})
            moment = time.strftime("%Y-%m-%dT%H:%M:%SZ", time.gmtime())
            meta.setdefault("creationTimestamp", moment)
            meta.setdefault("uid", f"uid-{len(self.changes)}")
            own = {name: it for name, it in value.items() if name not in ("apiVersion", "kind", "metadata")}
            meta["managedFields"] = [{"manager": manager, "operation": "Update", "apiVersion": value.get("apiVersion"),
                                      "time": moment, "fieldsType": "FieldsV1", "fieldsV1": fields(own)}]
            return self.note(place, kind, value)

    def note(self, place, kind, value):
        value["metadata"]["resourceVersion"] = str(len(self.changes) + 1)
        if kind == "DELETED":
            del self.objects[place]
        else:
            self.objects[place] = value
        self.changes.append((place, kind, value))
        self.changed.notify_all()
        return value

    def delete(self, place):
        with self.changed:
            return self.note(place, "DELETED", copy.deepcopy(self.objects[place]))


STORE = Store()
for number in range(20):
    STORE.put(("/api/v1", "a", "pods", f"pod-{number}"), pod(f"pod-{number}"))
STORE.put(("/api/v1", "", "namespaces", "a"), {"kind": "Namespace", "apiVersion": "v1", "metadata": {"name": "a"}})


def field(data, wanted):
    """The last field of that number in a message of protobuf whose fields are texts and messages (Kubernetes' own begin so)."""
    found, at = b"", 0
    while at < len(data) and data[at] & 7 == 2:
        number, at = data[at] >> 3, at + 1
        size = shift = 0
        while True:
            size, shift, at = size | (data[at] & 127) << shift, shift + 7, at + 1
            if data[at - 1] < 128:
                break
        found = data[at : at + size] if number == wanted else found
        at += size
    return found


def object_of(body):
    """The object of a body, or None. Of protobuf, which kubectl sends to create what it knows, it has the kind and the name."""
    if body[:4] == b"k8s\0":
        kind, meta = field(body[4:], 1), field(field(body[4:], 2), 1)
        return {"kind": field(kind, 2).decode(), "apiVersion": field(kind, 1).decode(),
                "metadata": {"name": field(meta, 1).decode()}}
    try:
        return json.loads(body)
    except ValueError:
        return None


def merged(old, new):
    """What a merge patch makes of a value (RFC 7386)."""
    if not isinstance(new, dict) or not isinstance(old, dict):
        return new
    both = {**old, **{name: merged(old.get(name, {}), value) for name, value in new.items()}}
    return {name: value for name, value in both.items() if value is not None}


class Api(http.server.BaseHTTPRequestHandler):
    protocol_version = "HTTP/1.1"

    def log_message(self, *args):
        pass

    def start(self, status, *headers, content="application/json"):
        self.send_response(status)
        self.send_header("Content-Type", content)
        for name, value in headers:
            self.send_header(name, value)
        self.end_headers()

    def send(self, data):
        if self.command != "HEAD":
            self.wfile.write(data)

    def chunk(self, data):
        self.send(b"%x\r\n%s\r\n" % (len(data), data))

    def whole(self, status, value):
        body = json.dumps(value).encode() + b"\n"
        self.start(status, ("Content-Length", str(len(body))))
        self.send(body)

    def text(self, data, content):
        """A reply that has no length, and ends when its connection does."""
        self.start(200, ("Connection", "close"), content=content)
        self.send(data)
        self.close_connection = True

    def refuse(self, code, reason, message):
        self.whole(code, {"kind": "Status", "apiVersion": "v1", "metadata": {}, "status": "Failure", "message": message,
                          "reason": reason, "code": code})

    def read(self):
        """The target's parts as this server uses them, and the body."""
        path, _, query = self.path.partition("?")
        self.query = dict(urllib.parse.parse_qsl(query))
        self.body = self.rfile.read(int(self.headers.get("Content-Length", 0)))
        parts = path.strip("/").split("/")
        depth = 2 if parts[0] == "api" else 3
        self.api, rest = "/" + "/".join(parts[:depth]), parts[depth:]
        space = ""
        if rest[:1] == ["namespaces"] and len(rest) > 2:
            space, rest = rest[1], rest[2:]
        self.version = self.api.removeprefix("/apis/").removeprefix("/api/")
        resource, name, self.sub = (rest + ["", "", ""])[:3]
        self.place = (self.api, space, resource, name)
        self.manager = self.query.get("fieldManager") or self.headers.get("User-Agent", "unknown").partition("/")[0]

    def is_mine(self, place, value):
        """Whether an object is in the collection that was asked for, and has the labels NAME=VALUE,.. and the name."""
        api, space, of, name = self.place
        wanted = self.query.get("fieldSelector", "").removeprefix("metadata.name=")
        labels = [it.split("=", 1) for it in self.query.get("labelSelector", "").split(",") if it]
        has = value["metadata"].get("labels") or {}
        return (place[0] == api and place[2] == of and space in ("", place[1]) and name in ("", place[3])
                and wanted in ("", place[3]) and all(has.get(it[0]) == it[-1] for it in labels))

    def watch(self):
        """Each change, as soon as it is made, until the client's timeout or for five minutes."""
        self.start(200, ("Transfer-Encoding", "chunked"))
        seen = int(self.query.get("resourceVersion") or 0)
        end = time.monotonic() + float(self.query.get("timeoutSeconds", 300))
        while True:
            with STORE.changed:
                STORE.changed.wait_for(lambda: len(STORE.changes) > seen, max(end - time.monotonic(), 0))
                changes, seen = STORE.changes[seen:], len(STORE.changes)
            for place, kind, value in changes:
                if self.is_mine(place, value):
                    self.chunk(json.dumps({"type": kind, "object": value}).encode() + b"\n")
            if time.monotonic() >= end:
                return self.chunk(b"")

    def listed(self):
        with STORE.changed:
            items = [value for place, value in STORE.objects.items() if self.is_mine(place, value)]
            version = str(len(STORE.changes))
        kinds = [it["kind"] for it in SERVED.get(self.version, OTHERS) if it["name"] == self.place[2]]
        value = {"kind": (kinds or ["Object"])[0] + "List", "apiVersion": self.version,
                 "metadata": {"resourceVersion": version}, "items": items}
        text = json.dumps(value).encode()
        self.start(200, ("Transfer-Encoding", "chunked"))
        for at in range(0, len(text), 1000):
            self.chunk(text[at : at + 1000])
        self.chunk(b"")

    def told(self, path):
        """What this server says of itself at a path, or None."""
        version = path.removeprefix("/openapi/v3/").removeprefix("apis/").removeprefix("api/")
        if path.startswith("/openapi/v3/") and version in DESCRIBED:
            return openapi.document(version, DESCRIBED[version])
        return {"/api": {"kind": "APIVersions", "versions": ["v1"]}, "/version": openapi.VERSION,
                "/openapi/v3": openapi.index(DESCRIBED)}.get(path)

    def do_GET(self):
        self.read()
        of, name = self.place[2:]
        path = self.path.partition("?")[0].rstrip("/")
        if self.told(path):
            self.whole(200, self.told(path))
        elif path == "/openapi/v2":
            self.text(openapi.document_2(DESCRIBED), "application/com.github.proto-openapi.spec.v2.v1.0+protobuf")
        elif path == "/metrics":
            self.text(b"standin_objects %d\n" % len(STORE.objects), "text/plain")
        elif not of:
            self.whole(200, {"kind": "APIResourceList", "apiVersion": "v1", "groupVersion": self.version,
                             "resources": SERVED.get(self.version, OTHERS)})
        elif self.query.get("watch") in ("1", "true"):
            self.watch()
        elif not name:
            self.listed()
        elif self.place not in STORE.objects:
            self.refuse(404, "NotFound", f'{of} "{name}" not found')
        elif self.sub == "log":
            self.text(b"a line of a log\n", "text/plain")
        else:
            self.whole(200, STORE.objects[self.place])

    do_HEAD = do_GET

    def do_POST(self):
        self.read()
        value = object_of(self.body)
        if not isinstance(value, dict):
            return self.refuse(415, "UnsupportedMediaType", "the body is no object")
        user = {"username": self.headers.get("X-Remote-User"), "groups": self.headers.get_all("X-Remote-Group")}
        if self.place[2] == "selfsubjectreviews":
            return self.whole(201, {**value, "status": {"userInfo": user}})
        place = (*self.place[:3], value.get("metadata", {}).get("name", ""))
        if place in STORE.objects:
            return self.refuse(409, "AlreadyExists", f'{place[2]} "{place[3]}" already exists')
        # who created it, as this server was told
        value.setdefault("metadata", {}).setdefault("annotations", {})["for"] = user["username"]
        if place[1]:
            value["metadata"]["namespace"] = place[1]
        self.whole(201, STORE.put(place, value, self.manager) if "dryRun" not in self.query else value)

    def do_PUT(self):
        self.read()
        value = object_of(self.body)
        if self.place not in STORE.objects:
            return self.refuse(404, "NotFound", f'"{self.place[3]}" not found')
        if not isinstance(value, dict):
            return self.refuse(415, "UnsupportedMediaType", "the body is no object")
        if self.command == "PATCH":
            value = merged(STORE.objects[self.place], value)
        self.whole(200, STORE.put(self.place, value, self.manager) if "dryRun" not in self.query else value)

    do_PATCH = do_PUT

    def do_DELETE(self):
        self.read()
        if self.place not in STORE.objects:
            return self.refuse(404, "NotFound", f'"{self.place[3]}" not found')
        STORE.delete(self.place)
        self.whole(200, {"kind": "Status", "apiVersion": "v1", "metadata": {}, "status": "Success"})


class Hook(http.server.BaseHTTPRequestHandler):
    protocol_version = "HTTP/1.1"

    def log_message(self, *args):
        pass

    def do_POST(self):
        events = json.loads(self.rfile.read(int(self.headers["Content-Length"])))["items"]
        with open(sys.argv[3], "a", encoding="utf-8") as file:
            for event in events:
                code = event.get("responseStatus", {}).get("code", "")
                acting = event.get("impersonatedUser")
                whom = f" {event['user']['username']} as {acting['username']}" if acting else ""
                print(f"{event['stage']:16} {event['verb']:7} {event['requestURI']} {code}".rstrip() + whom, file=file)
        self.send_response(200)
        self.send_header("Content-Length", "0")
        self.end_headers()


class Server(http.server.ThreadingHTTPServer):
    daemon_threads = True
    request_queue_size = 64

    def handle_error(self, *args):
        """A client that goes away is no error here."""


if __name__ == "__main__":
    threading.Thread(target=Server(("127.0.0.1", int(sys.argv[2])), Hook).serve_forever, daemon=True).start()
    server = Server(("127.0.0.1", int(sys.argv[1])), Api)
    if sys.argv[4:]:
        context = ssl.create_default_context(ssl.Purpose.CLIENT_AUTH, cafile=sys.argv[6])
        context.load_cert_chain(sys.argv[4], sys.argv[5])
        context.verify_mode = ssl.CERT_REQUIRED
        server.socket = context.wrap_socket(server.socket, server_side=True)
    server.serve_forever()
