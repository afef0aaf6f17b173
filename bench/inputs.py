"""The requests and the files that the scripts over the program `apiaggd` give it."""
import json
import os
import subprocess
import sys

TOP = os.path.dirname(os.path.dirname(os.path.abspath(__file__)))

# What kubectl 1.31 sends, with a bearer token that the token file has.
HEADERS = (b"Host: cluster.example:6443\r\n"
           b"User-Agent: kubectl/v1.31.0 (linux/amd64) kubernetes/9edcffc\r\n"
           b"Accept: application/json;as=Table;v=v1;g=meta.k8s.io,application/json;as=Table;v=v1beta1;g=meta.k8s.io,"
           b"application/json\r\n"
           b"Authorization: Bearer token-500\r\n"
           b"Accept-Encoding: gzip\r\n")


def get(target):
    return b"GET " + target + b" HTTP/1.1\r\n" + HEADERS + b"\r\n"


GET = get(b"/api/v1/namespaces/a/pods?limit=500")
GROUP = get(b"/apis/team-500.example.org")
LIST = get(b"/apis")
IN_GROUP = get(b"/apis/team-500.example.org/v1/namespaces/a/things")

# Seven kinds of GET: a collection and a named resource in the core group and in a group, a watch, discovery, one
# APIService, a health path.
MIX = b"".join(map(get, (
    b"/api/v1/namespaces/a/pods?limit=500", b"/apis/team-500.example.org/v1/namespaces/a/things/one",
    b"/api/v1/namespaces/a/pods?watch=1", b"/apis", b"/apis/team-500.example.org",
    b"/apis/apiregistration.k8s.io/v1/apiservices/v1.team-500.example.org", b"/healthz")))
MIX_COUNT = 7


def post_head(framing):
    return (b"POST /api/v1/namespaces/a/configmaps HTTP/1.1\r\n" + HEADERS + b"Content-Type: application/json\r\n" + framing
            + b"\r\n\r\n")


def body(size):
    """A JSON object of that size."""
    empty = json.dumps({"kind": "ConfigMap", "data": {"text": ""}})
    return json.dumps({"kind": "ConfigMap", "data": {"text": "x" * (size - len(empty))}}).encode()


def post(size):
    return post_head(b"Content-Length: %d" % size) + body(size)


def fields(value):
    """The names of all fields of a value as managed fields have them (Kubernetes, "Server-Side Apply")."""
    if isinstance(value, dict):
        return {f"f:{name}": fields(it) for name, it in value.items()}
    if isinstance(value, list) and isinstance(value[0], dict):
        key = "name" if "name" in value[0] else "type"
        return {f'k:{{"{key}":"{it[key]}"}}': {".": {}, **fields(it)} for it in value}
    return {}


def managed(manager, value, **more):
    return {"manager": manager, "operation": "Update", "apiVersion": "v1", "time": "2026-11-27T09:10:11Z",
            "fieldsType": "FieldsV1", "fieldsV1": fields(value), **more}


def pod(number):
    """A pod that a node runs, as an API server sends it, its managed fields being about half of it."""
    moment, name = "2026-11-27T09:10:11Z", f"web-7c9f8d6b5-{number:05}"
    labels = {"app.kubernetes.io/name": "web", "app.kubernetes.io/part-of": "shop", "pod-template-hash": "7c9f8d6b5"}
    probe = {"httpGet": {"path": "/healthz", "port": 8080, "scheme": "HTTP"}, "initialDelaySeconds": 5, "timeoutSeconds": 1,
             "periodSeconds": 10, "successThreshold": 1, "failureThreshold": 3}
    main = {"name": "main", "image": "registry.example/shop/web:1.27.4", "ports": [{"name": "http", "containerPort": 8080,
            "protocol": "TCP"}], "env": [{"name": f"SETTING_{i}", "value": f"value {i}"} for i in range(4)],
            "resources": {"limits": {"cpu": "1", "memory": "512Mi"}, "requests": {"cpu": "100m", "memory": "128Mi"}},
            "livenessProbe": probe, "readinessProbe": probe, "terminationMessagePath": "/dev/termination-log",
            "terminationMessagePolicy": "File", "imagePullPolicy": "IfNotPresent"}
    spec = {"containers": [main], "restartPolicy": "Always", "terminationGracePeriodSeconds": 30, "dnsPolicy": "ClusterFirst",
            "serviceAccountName": "web", "securityContext": {"runAsNonRoot": True, "fsGroup": 1000},
            "schedulerName": "default-scheduler", "enableServiceLinks": True}
    conditions = [{"type": of, "status": "True", "lastProbeTime": None, "lastTransitionTime": moment}
                  for of in ("PodReadyToStartContainers", "Initialized", "Ready", "ContainersReady", "PodScheduled")]
    status = {"phase": "Running", "conditions": conditions, "hostIP": "10.0.0.7", "podIP": "10.244.1.9", "startTime": moment,
              "containerStatuses": [{"name": "main", "state": {"running": {"startedAt": moment}}, "ready": True,
                                     "restartCount": 0, "image": "registry.example/shop/web:1.27.4"}]}
    made = managed("kube-controller-manager", {"metadata": {"generateName": "", "labels": labels}, "spec": spec})
    told = managed("kubelet", {"status": status}, subresource="status")
    return {"metadata": {"name": name, "generateName": "web-7c9f8d6b5-", "namespace": "a",
                         "uid": f"7d0c5d4e-2f6b-4b0e-9a57-{number:012x}", "resourceVersion": str(100000 + number),
                         "creationTimestamp": moment, "labels": labels, "managedFields": [made, told]},
            "spec": {**spec, "nodeName": "node-1"}, "status": status}


def post_of_pods(size):
    """A body of at most that size: a list of pods as an API server sends it, without white space and with a line feed."""
    whole = lambda items: json.dumps({"kind": "PodList", "apiVersion": "v1", "metadata": {"resourceVersion": "200000"},
                                      "items": items}, separators=(",", ":")).encode() + b"\n"
    one, none = len(whole([pod(0)])), len(whole([]))
    text = whole([pod(i) for i in range((size - none) // (one - none + 1))])
    return post_head(b"Content-Length: %d" % len(text)) + text


def post_in_chunks_of_one_byte(size):
    return post_head(b"Transfer-Encoding: chunked") + b"".join(b"1\r\n%c\r\n" % byte for byte in body(size)) + b"0\r\n\r\n"


def long_head():
    """A head of some 64,000 bytes."""
    line = b"X-Note: " + b"y" * 900 + b"\r\n"
    return b"GET /api/v1/pods HTTP/1.1\r\n" + HEADERS + line * (63400 // len(line)) + b"\r\n"


def audit_line(size):
    """The line of an audit event with a request object, of that size."""
    event = {"kind": "Event", "apiVersion": "audit.k8s.io/v1", "level": "Request",
             "auditID": "00000000-0000-0000-0000-000000000001", "stage": "ResponseComplete",
             "requestURI": "/api/v1/namespaces/a/configmaps", "verb": "create", "user": {"username": "ann"},
             "responseStatus": {"metadata": {}, "code": 201}, "requestObject": {"data": ""}}
    empty = len(json.dumps(event, separators=(",", ":")))
    event["requestObject"]["data"] = "x" * (size - empty)
    return json.dumps(event, separators=(",", ":")).encode()


def tokens():
    """The option of a token file of 1,000 users."""
    return {"token-auth-file": "".join(f'token-{i},user-{i},{i},"dev,ops"\n' for i in range(1000))}


def rules(count, level, omit=False):
    """The option of a policy whose last rule alone matches. `omit` is its omitManagedFields."""
    others = [{"level": "None", "users": [f"system:serviceaccount:team-{i}:robot"], "verbs": ["get", "list"],
               "resources": [{"group": "apps", "resources": ["deployments", "deployments/scale"]}]}
              for i in range(count - 1)]
    return {"audit-policy-file": json.dumps({"kind": "Policy", "apiVersion": "audit.k8s.io/v1", "omitManagedFields": omit,
                                             "rules": others + [{"level": level}]})}


def services(count):
    """The option of a list of APIServices: the core API, and groups of one version each."""
    items = [{"apiVersion": "apiregistration.k8s.io/v1", "kind": "APIService", "metadata": {"name": f"v1.{group}"},
              "spec": {"group": group, "version": "v1", "groupPriorityMinimum": 1000, "versionPriority": 15}}
             for group in ["", *(f"team-{i}.example.org" for i in range(count - 1))]]
    return {"apiservices": json.dumps({"apiVersion": "v1", "kind": "List", "items": items})}


def program():
    """The program that the command line names, or that of this checkout, which is proved and built first."""
    if len(sys.argv) > 1:
        return sys.argv[1]
    if subprocess.run([os.path.join(TOP, "apiaggd"), "--version"], stdout=subprocess.DEVNULL).returncode != 0:
        sys.exit(1)
    return os.path.join(TOP, "crates", "apiaggd", "out", "apiaggd")


def command(of, place, options):
    """The words of a run under files with these texts, by the names of their options. They are written to a folder. A number
    is the option's value itself."""
    words = [of, "explain"]
    for option, text in options.items():
        if isinstance(text, int):
            words.append(f"--{option}={text}")
            continue
        path = os.path.join(place, option)
        with open(path, "w") as out:
            out.write(text)
        words.append(f"--{option}={path}")
    return words
