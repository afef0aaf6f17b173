#!/usr/bin/env python3
"""Writes the rows and the expected output of the programs cases_modes and cases_twins, worked out from the rules of docs/FORMATS.md: events and their
lines, batches, posts, strict sinks and full buffers. It knows nothing of the code."""
import copy, json, os

CRATES = os.path.join(os.path.dirname(os.path.abspath(__file__)), '..', '..')
MOMENT = '2025-01-01T00:00:00.000000Z'
POLICY = [
    {"level": "None", "nonResourceURLs": ["/healthz*"]},
    {"level": "Metadata", "resources": [{"group": "", "resources": ["secrets", "configmaps"]}]},
    {"level": "RequestResponse", "resources": [{"group": "", "resources": ["pods"]}]},
    {"level": "Metadata"},
]
V1 = {"apiVersion": "apiregistration.k8s.io/v1", "kind": "APIService", "metadata": {"name": "v1."},
      "spec": {"version": "v1", "groupPriorityMinimum": 18000, "versionPriority": 1}}
VG = {"apiVersion": "apiregistration.k8s.io/v1", "kind": "APIService", "metadata": {"name": "v1.g"},
      "spec": {"group": "g", "groupPriorityMinimum": 100, "service": {"name": "x", "namespace": "s"}, "version": "v1",
               "versionPriority": 10}}
USERS = {None: {"username": "system:anonymous", "groups": ["system:unauthenticated"]},
         't1': {"username": "root", "uid": "1", "groups": ["system:masters", "system:authenticated"]},
         't2': {"username": "ann", "uid": "2", "groups": ["dev", "system:authenticated"]}}
REASONS = {201: 'Created', 200: 'OK', 403: 'Forbidden', 503: 'Service Unavailable'}
REFUSED = {"kind": "Status", "apiVersion": "v1", "metadata": {}, "status": "Failure", "message": "the audit event was not stored",
           "reason": "InternalError", "code": 500}


def text(value):
    return json.dumps(value, separators=(',', ':'))


def spelled(bytes_):
    return bytes_.replace('\\', '\\\\').replace('\r', '\\r').replace('\n', '\\n')


class Request:
    """What a client sends, the reply of its backend if one is asked, and what the policy and the path make of it."""

    def __init__(self, method, target, token, body, reply, level, verb, ref, code, acting=None, watch=False):
        self.__dict__.update(locals())

    def sent(self):
        head = f'{self.method} {self.target} HTTP/1.1\r\nHost: front\r\n'
        if self.token:
            head += f'Authorization: Bearer {self.token}\r\n'
        if self.acting:
            head += f'Impersonate-User: {self.acting}\r\n'
        if self.body is not None:
            head += f'Content-Type: application/json\r\nContent-Length: {len(self.body)}\r\n'
        return head + '\r\n' + (self.body or '')

    def row(self):
        if self.reply is None:
            return spelled(self.sent())
        code, body = self.reply
        return spelled(self.sent()) + ' | ' + spelled(
            f'HTTP/1.1 {code} {REASONS[code]}\r\nContent-Type: application/json\r\nContent-Length: {len(body)}\r\n\r\n{body}')

    def stages(self):
        if self.level == 'None':
            return []
        return ['RequestReceived'] + (['ResponseStarted'] if self.watch else []) + ['ResponseComplete']


def pruned(body, omits):
    """The value that an event shows of a body."""
    value = json.loads(body)
    if omits:
        for holder in [value] + [x for x in value.get('items', []) if isinstance(x, dict)]:
            holder.get('metadata', {}).pop('managedFields', None)
    return value


def identity(number):
    return '00000000-0000-0001-0000-%012x' % number


def event(request, number, stage, omits=False, refused=False):
    out = {"kind": "Event", "apiVersion": "audit.k8s.io/v1", "level": request.level, "auditID": identity(number), "stage": stage,
           "requestURI": request.target, "verb": request.verb, "user": USERS[request.token]}
    if request.acting:
        out["impersonatedUser"] = {"username": request.acting, "groups": ["system:authenticated"]}
    out["sourceIPs"] = ["10.0.0.7"]
    out["objectRef"] = request.ref
    if stage != 'RequestReceived':
        out["responseStatus"] = {"metadata": {}, "code": 500 if refused else request.code}
        if request.level in ('Request', 'RequestResponse') and request.body is not None:
            out["requestObject"] = pruned(request.body, omits)
    if stage == 'ResponseComplete' and request.level == 'RequestResponse' and not request.watch:
        out["responseObject"] = REFUSED if refused else pruned(request.reply[1], omits)
    out["requestReceivedTimestamp"] = MOMENT
    out["stageTimestamp"] = MOMENT
    return text(out)


def post(lines):
    body = '{"kind":"EventList","apiVersion":"audit.k8s.io/v1","metadata":{},"items":[%s]}' % ','.join(lines)
    return (f'POST / HTTP/1.1\r\nHost: 127.0.0.1:9400\r\nContent-Type: application/json\r\nContent-Length: {len(body)}\r\n'
            f'Connection: close\r\n\r\n{body}')


def log(lines):
    return ''.join(line + '\n' for line in lines)


# ---- pairs of runs

PODS = {"resource": "pods", "namespace": "a", "apiVersion": "v1"}
SECRETS = {"resource": "secrets", "namespace": "a", "apiVersion": "v1"}
MAPS = {"resource": "configmaps", "namespace": "a", "apiVersion": "v1"}
APIS = {"resource": "apiservices", "name": "v1.g", "apiGroup": "apiregistration.k8s.io", "apiVersion": "v1"}
THINGS = {"resource": "things", "apiGroup": "g", "apiVersion": "v1"}


def secret(value):
    return '{"kind":"Secret","data":{"key":"%s"}}' % value


def make_secret(value, code=201, reply=None):
    return Request('POST', '/api/v1/namespaces/a/secrets', 't2', secret(value), (code, reply or secret(value)), 'Metadata', 'create',
                   SECRETS, code)


def make_pod(body, reply='{"kind":"Pod"}'):
    return Request('POST', '/api/v1/namespaces/a/pods', 't2', body, (201, reply), 'RequestResponse', 'create', PODS, 201)


def make_map(body):
    return Request('POST', '/api/v1/namespaces/a/configmaps', 't2', body, (201, body), 'Metadata', 'create', MAPS, 201)


def health(target='/healthz', token=None, acting=None):
    return Request('GET', target, token, None, None, 'None', None, None, 200, acting)


def list_things(code=200, acting=None):
    return Request('GET', '/apis/g/v1/things', 't1', None, (200, '{"kind":"ThingList"}') if code == 200 else None, 'Metadata', 'list',
                   THINGS, code, acting)


def change(value, code):
    return [Request('PUT', '/apis/apiregistration.k8s.io/v1/apiservices/v1.g', 't1', text(value), None, 'Metadata', 'update', APIS, 200),
            list_things(code)]


def managed(manager):
    return '"managedFields":[{"manager":"%s","operation":"Update"}]' % manager


def pod(manager):
    return '{"kind":"Pod","metadata":{"name":"p",%s},"spec":{"nodeName":"n"}}' % managed(manager)


def list_pods(manager):
    reply = '{"kind":"PodList","metadata":{},"items":[{"metadata":{"name":"p",%s}},{"metadata":{%s}}]}' % (managed(manager), managed('z'))
    return Request('GET', '/api/v1/namespaces/a/pods', 't2', None, (200, reply), 'RequestResponse', 'list', PODS, 200)


OFF = copy.deepcopy(VG)
OFF['status'] = {"conditions": [{"status": "False", "type": "Available"}]}
FIRST = [make_secret('Zmlyc3Q='), health(), make_pod('{"kind":"Pod"}')]
OTHER = [make_secret('c2Vjb25k'), health('/healthz/ping', 't1'), make_pod('{ "kind": "Pod" }')]
WORLDS = {
    'secret.txt': ('A secret is made, nothing of the second request is recorded, and a pod is made, whose bodies are recorded.', FIRST),
    'other-secret.txt': ('The secret has another value, the second request is another one of another user, and the pod\'s body is spelled '
                         'with blanks.', OTHER),
    'body.txt': ('A config map is made.', [make_map('{"kind":"ConfigMap","data":{"key":"one"}}')]),
    'other-body.txt': ('Its body is another one, and longer.', [make_map('{"kind":"ConfigMap","data":{"key":"another","more":"one"}}')]),
    'managed.txt': ('A pod is made, and pods are listed: bodies are recorded.', [make_pod(pod('kubectl'), pod('apiserver')), list_pods('kubectl')]),
    'other-managed.txt': ('Bodies have other managed fields.', [make_pod(pod('helm'), pod('operator')), list_pods('helm')]),
    'twin.txt': ('A secret, a config map and a pod are made.',
                 [make_secret('Zmlyc3Q='), make_map('{"kind":"ConfigMap","data":{"key":"one"}}'), make_pod(pod('kubectl'), pod('kubectl'))]),
    'other-twin.txt': ('The secret has another value, the config map another body, and the pod other managed fields.',
                       [make_secret('c2Vjb25k'), make_map('{"kind":"ConfigMap"}'), make_pod(pod('helm'), pod('helm'))]),
    'acting.txt': ('A member of system:masters acts as bob.', [list_things(acting='bob')]),
    'other-acting.txt': ('The same one acts as eve.', [list_things(acting='eve')]),
    'acting-none.txt': ('A request is made as bob, of which nothing is recorded, and then one for oneself.', [health(token='t1', acting='bob'), list_things()]),
    'other-acting-none.txt': ('The same ones, the first as eve.', [health(token='t1', acting='eve'), list_things()]),
    'available.txt': ('As secret.txt, and then an APIService is replaced by itself and asked for.', FIRST + change(VG, 200)),
    'unavailable.txt': ('It is replaced by one that is not available.', FIRST + change(OFF, 503)),
    'created.txt': ('A secret is made.', [make_secret('Zmlyc3Q=', 201, '{}')]),
    'forbidden.txt': ('The backend refuses it.', [make_secret('Zmlyc3Q=', 403, '{}')]),
}
PAIRS = [
    ('a secret has another value', 'secret.txt', 'other-secret.txt', 'policy.json'),
    ('another request body at Metadata', 'body.txt', 'other-body.txt', 'policy.json'),
    ('other managed fields, which the policy omits', 'managed.txt', 'other-managed.txt', 'omits.json'),
    ('other managed fields, which the policy keeps', 'managed.txt', 'other-managed.txt', 'policy.json'),
    ('another secret\'s value, another request body at Metadata, and other managed fields, which the policy omits', 'twin.txt', 'other-twin.txt', 'omits.json'),
    ('another impersonated user at Metadata', 'acting.txt', 'other-acting.txt', 'policy.json'),
    ('another impersonated user at None', 'acting-none.txt', 'other-acting-none.txt', 'policy.json'),
    ('an API is no longer available', 'available.txt', 'unavailable.txt', 'policy.json'),
    ('a backend refuses', 'created.txt', 'forbidden.txt', 'policy.json'),
]


def sent(requests, omits):
    lines = [event(r, i, s, omits) for i, r in enumerate(requests) for s in r.stages()]
    return log(lines), ''.join(spelled(post(lines[k:k + 2])) + '\n' for k in range(0, len(lines), 2))


def write(crate, name, content):
    with open(os.path.join(CRATES, crate, name), 'w') as out:
        out.write(content)


def services():
    return '{\n  "kind": "List",\n  "apiVersion": "v1",\n  "items": [\n    %s,\n    %s\n  ]\n}\n' % (json.dumps(V1), json.dumps(VG))


def policy(omits):
    head = '{\n  "apiVersion": "audit.k8s.io/v1",\n  "kind": "Policy",\n' + ('  "omitManagedFields": true,\n' if omits else '')
    return head + '  "rules": [\n%s\n  ]\n}\n' % ',\n'.join('    ' + json.dumps(rule) for rule in POLICY)


def setting(crate):
    write(crate, 'data/services.json', services())
    write(crate, 'data/policy.json', policy(False))
    write(crate, 'data/tokens.csv', 't1,root,1,"system:masters"\nt2,ann,2,dev\n')
    write(crate, 'data/endpoints.csv', 'local,127.0.0.1:9001\ns/x:443,127.0.0.1:9002\n')


def twins():
    setting('cases_twins')
    write('cases_twins', 'data/omits.json', policy(True))
    for name, (why, requests) in WORLDS.items():
        write('cases_twins', 'data/' + name, '# ' + why + '\n' + ''.join(r.row() + '\n' for r in requests))
    rows = '# What differs, the files of the two runs, and their policy. A row of these has a request, and the reply of its backend, if one is asked.\n'
    out = ''
    for what, first, other, by in PAIRS:
        rows += f'{what} | {first} | {other} | {by}\n'
        one, two = (sent(WORLDS[name][1], by == 'omits.json') for name in (first, other))
        out += f'== {what}\n-- {first}\n{one[0]}{one[1]}-- {other}\n'
        for sink, x, y in (('log', one[0], two[0]), ('webhook', one[1], two[1])):
            out += f'the same bytes to the {sink}\n' if x == y else f'other bytes to the {sink}:\n{y}'
    write('cases_twins', 'data/pairs.txt', rows)
    write('cases_twins', 'stdout', out)


# ---- runs with a log in each mode

REQUESTS = [make_secret('Zmlyc3Q='), health(), make_pod('{"kind":"Pod"}', '{"kind":"Pod","status":{}}'),
            Request('GET', '/api/v1/pods?watch=1', 't2', None, (200, '{"type":"ADDED"}'), 'RequestResponse', 'watch',
                    {"resource": "pods", "apiVersion": "v1"}, 200, watch=True)]
MOST = 2  # lines of a batch


class Sink:
    """A sink: its mode, which of its tries fail and how, what it was tried with, and what came of its lines."""

    def __init__(self, name, mode, allotment, outcome, most):
        self.name, self.mode, self.allotment, self.outcome, self.most = name, mode, allotment, outcome, most
        self.tries, self.waiting, self.untaken = [], [], []
        self.offered = self.accepted = self.written = self.failed = self.lost = self.full = 0

    def attempt(self, lines):
        answer, whole = self.outcome(len(self.tries))
        text_ = (log if self.name == 'Log' else post)([line for _, line in lines])
        self.tries.append((answer, len(text_) if whole else 0, [name for name, _ in lines]))
        return answer == 'Done'

    def offer(self, name, line):
        """Whether it wasn't written, of a sink that is written to at once."""
        self.offered += 1
        if self.mode == 'batch':
            if self.accepted == self.allotment:
                self.full += 1
                self.untaken.append(name)
                return False
            self.accepted += 1
            self.waiting.append((name, line))
            if len(self.waiting) == self.most:
                self.put()
            return False
        if self.attempt([(name, line)]):
            self.written += 1
            return False
        self.failed += 1
        return True

    def put(self):
        if self.waiting:
            if self.attempt(self.waiting):
                self.written += len(self.waiting)
            else:
                self.lost += len(self.waiting)
            self.waiting = []

    def shown(self, sums):
        if sums:
            return f'{self.name}\n  {self.offered} offered: {self.offered} written or full\n'
        out = self.name + '\n'
        for answer, size, names in self.tries:
            out += f'  {answer}, {size} bytes\n' + ''.join(f'    {name}\n' for name in names)
        if self.untaken:
            out += '  not taken\n' + ''.join(f'    {name}\n' for name in self.untaken)
        return out + (f'  {self.offered} offered: {self.written} written, {self.failed} failed, {self.lost} lost, {self.full} full\n')


def log_outcome(fails):
    return lambda at: ('Port', False) if at + 1 in fails else ('Done', True)


def post_outcome(words):
    known = {'dial': ('Port', False), 'write': ('Port', False), 'bad': ('BadAnswer', True), '503': ('Refused(503)', True)}
    return lambda at: known.get(words[at], ('Done', True))


def run(log_mode, hook_mode, allotment, fails, words, sums, step):
    # Where the clock passes the wait between two pumps, each line is put before the next one is taken.
    sinks = [Sink(name, mode, allotment, outcome, 1 if step else MOST) for name, mode, outcome in
             (('Log', log_mode, log_outcome(fails)), ('Webhook', hook_mode, post_outcome(words))) if mode]
    links = [r.reply for r in REQUESTS if r.reply]
    codes = []
    for number, request in enumerate(REQUESTS):
        refused = False
        answered = copy.copy(request)
        for at, stage in enumerate(request.stages()):
            if at == 1 and not refused and request.reply:
                # The backend's next link answers, whatever it was meant for.
                answered.reply = links.pop(0)
                answered.code = answered.reply[0]
            name = f'{stage} {identity(number)} {request.level}'
            line = event(answered, number, stage, refused=refused)
            for sink in sinks:
                if sink.offer(name, line) and at == 0 and sink.mode == 'blocking-strict':
                    refused = True
        codes.append(500 if refused else answered.code)
    for sink in sinks:
        sink.put()
    return 'status Done\nreplies ' + ' '.join(map(str, codes)) + '\n' + ''.join(sink.shown(sums) for sink in sinks)


MODES = ['blocking', 'blocking-strict', 'batch']
RUNS = []  # what, log mode, webhook mode, buffer, allotment, failing writes, posts, sums, and the clock's step where it has one
for mode in MODES:
    RUNS.append((f'a log in mode {mode}', mode, None, None, 1000, [], '', False))
for mode, fails in (('blocking', [2, 3]), ('blocking-strict', [2, 5]), ('batch', [2])):
    RUNS.append((f'a log in mode {mode} with faults', mode, None, None, 1000, fails, '', False))
for mode in MODES:
    for hook in MODES:
        RUNS.append((f'a log in mode {mode} and a webhook in mode {hook}, with faults', mode, hook, None, 1000, [3],
                     '200 dial write 503 bad 200 200' if hook != 'batch' else 'dial write 503 bad', False))
RUNS += [
    ('a webhook in mode batch that takes all', 'blocking', 'batch', None, 1000, [], '200 200 200 200', False),
    ('a strict log that fails at one request, and a strict webhook that refuses the next one', 'blocking-strict', 'blocking-strict', None, 1000,
     [1], '200 200 503 200 200 200 200', False),
    ('two buffers of one line, each of which takes one over the whole run', 'batch', 'batch', 1, 1, [], '200', False),
    ('a buffer of one line beside a log in mode blocking, with faults', 'blocking', 'batch', 1, 1, [1], '503', False),
    ('a buffer of three lines beside a webhook in mode blocking-strict, with faults', 'batch', 'blocking-strict', 3, 3, [2],
     '200 200 200 200 200 200 200', False),
    ('two buffers of one line, which are full at any turns', 'batch', 'batch', 1, 1000, [], '200 200 200 200', True),
    ('a log and a webhook in mode batch, where each line is put for its age', 'batch', 'batch', None, 1000, [3], '200 200 503 200 200 200 200',
     False, 1_000_000),
]


def sinks():
    setting('cases_modes')
    write('cases_modes', 'data/requests.txt',
          '# A secret is made, health is asked for, a pod is made, and pods are watched. A row has a request, and the reply of its backend.\n'
          + ''.join(r.row() + '\n' for r in REQUESTS))
    rows = ('# What a run is, its options, how many lines a buffer takes over the whole run, the numbers of the log\'s writes that fail, what becomes of\n'
            '# the webhook\'s posts, `sums` where the rest depends on turns, and by how many microseconds clocks go on at each call, if they do.\n')
    out = ''
    for what, log_mode, hook_mode, buffer, allotment, fails, posts, sums, *step in RUNS:
        options = f'--audit-policy-file=policy.json --audit-log-path=log --audit-log-mode={log_mode} --batch-max-size={MOST}'
        if hook_mode:
            options += f' --audit-webhook-url=http://127.0.0.1:9400/ --audit-webhook-mode={hook_mode}'
        if buffer:
            options += f' --batch-buffer={buffer}'
        if step:
            options += f' --batch-max-wait-ms={step[0] // 1000}'
        rows += f'{what} | {options} | {allotment} | {" ".join(map(str, fails)) or "none"} | {posts or "200"} | {"sums" if sums else "all"}{"".join(f" | {s}" for s in step)}\n'
        out += f'== {what}\n' + run(log_mode, hook_mode, allotment, fails, posts.split(' '), sums, step)
    write('cases_modes', 'data/runs.txt', rows)
    write('cases_modes', 'stdout', out)


twins()
sinks()
