"""What an API server's stand-in says of itself: its version, and its objects as OpenAPI describes them. It is as much as
kubectl reads to explain an object, to check one (1.20, by version 2), and to find out that the server checks fields and
takes strategic merge patches (1.32, by version 3)."""

import json

VERSION = {"major": "1", "minor": "32", "gitVersion": "v1.32.4", "gitCommit": "none", "gitTreeState": "clean",
           "buildDate": "2025-04-22T16:03:58Z", "goVersion": "go1.23.6", "compiler": "gc", "platform": "linux/amd64"}

TEXT, TEXTS = {"type": "string"}, {"type": "object", "additionalProperties": {"type": "string"}}

# The types that objects are made of, each with what it is for and its fields. A text names another type.
TYPES = {
    "ObjectMeta": ("What every object has beside its own fields.",
                   {"name": TEXT, "namespace": TEXT, "uid": TEXT, "resourceVersion": TEXT, "creationTimestamp": TEXT,
                    "labels": TEXTS, "annotations": TEXTS, "managedFields": {"type": "array", "items": {"type": "object"}}}),
    "Container": ("One container of a pod.", {"name": TEXT, "image": TEXT, "command": {"type": "array", "items": TEXT}}),
    "PodSpec": ("What a pod runs, and where.",
                {"containers": {"type": "array", "items": "Container", "x-kubernetes-patch-merge-key": "name",
                                "x-kubernetes-patch-strategy": "merge"},
                 "nodeName": TEXT, "restartPolicy": TEXT}),
    "PodStatus": ("What has become of a pod.", {"phase": TEXT, "podIP": TEXT}),
    "Any": ("Fields that this server doesn't look at.", {}),
}

# What each kind is for, and its fields beside those of every object.
KINDS = {
    "Pod": ("Containers that run together on one node.", {"spec": "PodSpec", "status": "PodStatus"}),
    "ConfigMap": ("Settings for pods to read.", {"data": TEXTS, "immutable": {"type": "boolean"}}),
    "Secret": ("Settings that not everybody may read.", {"data": TEXTS, "stringData": TEXTS, "type": TEXT}),
    "Namespace": ("A room for names.", {"spec": "Any", "status": "Any"}),
    "Deployment": ("Pods that are alike, and are made anew.", {"spec": "Any", "status": "Any"}),
    "Widget": ("An object of another server.", {"spec": "Any"}),
    "APIService": ("A group and version, and the server that has it.", {"spec": "Any", "status": "Any"}),
}


def schema(field):
    """A field's schema, in which a text refers to a type."""
    if isinstance(field, str):
        return {"allOf": [{"$ref": f"#/components/schemas/{field}"}], "default": {}}
    return {name: schema(part) if name == "items" else part for name, part in field.items()}


def described(about, fields):
    """The schema of a type. One without fields may have any."""
    names = {"properties": {name: schema(of) for name, of in fields.items()}} if fields else {}
    return {"description": about, "type": "object", **names}


def gvk(version, kind):
    group, _, version = version.rpartition("/")
    return {"group": group, "version": version, "kind": kind}


def operation(verb, version, kind, *media):
    return {"x-kubernetes-action": verb, "x-kubernetes-group-version-kind": gvk(version, kind), "responses": {},
            "parameters": [{"name": name, "in": "query", "schema": TEXT} for name in ("dryRun", "fieldValidation")],
            "requestBody": {"content": {name: {"schema": {"type": "object"}} for name in media}}}


def paths(version, of):
    """The path of a resource's collection, and that of one object, with what is asked of kubectl's users there."""
    kind, top = of["kind"], ("/apis/" if "/" in version else "/api/") + version
    many = top + ("/namespaces/{namespace}/" if of["namespaced"] else "/") + of["name"]
    patch = operation("patch", version, kind, "application/merge-patch+json", "application/strategic-merge-patch+json")
    return {many: {"post": operation("post", version, kind, "*/*")},
            many + "/{name}": {"put": operation("put", version, kind, "*/*"), "patch": patch}}


def index(served):
    """The document of /openapi/v3: where that of each group and version is."""
    places = [("apis/" if "/" in version else "api/") + version for version in served]
    return {"paths": {place: {"serverRelativeURL": f"/openapi/v3/{place}"} for place in places}}


def document(version, resources):
    """The document of one group and version."""
    whole = [of for of in resources if "/" not in of["name"]]
    schemas = {name: described(*it) for name, it in TYPES.items()}
    for of in whole:
        about, fields = KINDS.get(of["kind"], ("An object.", {"spec": "Any"}))
        both = {"apiVersion": TEXT, "kind": TEXT, "metadata": "ObjectMeta", **fields}
        schemas[of["kind"]] = {**described(about, both), "x-kubernetes-group-version-kind": [gvk(version, of["kind"])]}
    return {"openapi": "3.0.0", "info": {"title": "stand-in", "version": VERSION["gitVersion"]},
            "paths": {path: it for of in whole for path, it in paths(version, of).items()},
            "components": {"schemas": schemas}}


def varint(number):
    return bytes([number]) if number < 128 else bytes([number & 127 | 128]) + varint(number >> 7)


def part(number, *data):
    """A field of a message of protobuf, which is a text or a message of such parts."""
    data = b"".join(it.encode() if isinstance(it, str) else it for it in data)
    return varint(number << 3 | 2) + varint(len(data)) + data


def schema_2(of):
    """A schema as a message of version 2 has it."""
    parts = [part(31, part(1, name), part(2, part(2, json.dumps(it)))) for name, it in of.items() if name.startswith("x-")]
    if "allOf" in of:
        parts.append(part(1, of["allOf"][0]["$ref"].replace("components/schemas", "definitions")))
    if "description" in of:
        parts.append(part(4, of["description"]))
    if "additionalProperties" in of:
        parts.append(part(21, part(1, schema_2(of["additionalProperties"]))))
    if "type" in of:
        parts.append(part(22, part(1, of["type"])))
    if "items" in of:
        parts.append(part(23, part(1, schema_2(of["items"]))))
    if "properties" in of:
        parts.append(part(25, named(of["properties"])))
    return b"".join(parts)


def named(schemas):
    return b"".join(part(1, part(1, name), part(2, schema_2(it))) for name, it in schemas.items())


def patch_2(of):
    """The operation of a patch, of which kubectl 1.20 reads whether the server has dry runs."""
    asked = [part(8, part(1, part(2, part(3, part(2, it["in"]), part(4, it["name"]))))) for it in of["parameters"]]
    kind = "x-kubernetes-group-version-kind"
    return part(8, *asked, part(13, part(1, kind), part(2, part(2, json.dumps(of[kind])))))


def document_2(served):
    """The document of /openapi/v2, which has all groups and versions, in protobuf as kubectl asks for it."""
    schemas, items = {}, b""
    for version, resources in served.items():
        its = document(version, resources)
        schemas |= its["components"]["schemas"]
        for path, it in its["paths"].items():
            if "patch" in it:
                items += part(2, part(1, path), part(2, patch_2(it["patch"])))
    return (part(1, "2.0") + part(2, part(1, "stand-in"), part(2, VERSION["gitVersion"])) + part(8, items)
            + part(9, named(schemas)))
