"""`examples/kubernetes.yml`: its fields, what they name, and what a relay answers to its probes."""

import json
import os
import re
import subprocess
import unittest

from cases.status import Serving
from fixtures import harness
from fixtures.configured import WithFiles
from fixtures.program import TOP

DEBIAN_PYTHON = "/usr/bin/python3"  # which has the package python3-yaml
READ = "import json, sys, yaml; json.dump(list(yaml.safe_load_all(open(sys.argv[1]))), sys.stdout)"
MANIFEST = os.path.join(TOP, "examples", "kubernetes.yml")

# The fields of Kubernetes' API that the file uses, each with the type of its value: `{str: X}` has names of its own.
LABELS = {str: str}
META = {"name": str, "labels": LABELS, "annotations": LABELS}
EXEC = {"exec": {"command": [str]}}
PROBE = {"httpGet": {"path": str, "port": str}, "periodSeconds": int, "failureThreshold": int}
CONTAINER = {
    "name": str, "image": str, "args": [str], "env": [{"name": str, "value": str}],
    "ports": [{"name": str, "containerPort": int, "protocol": str}], "readinessProbe": PROBE, "livenessProbe": PROBE,
    "lifecycle": {"preStop": EXEC}, "resources": {"requests": LABELS, "limits": LABELS},
    "securityContext": {"allowPrivilegeEscalation": bool, "readOnlyRootFilesystem": bool, "capabilities": {"drop": [str]}},
    "volumeMounts": [{"name": str, "mountPath": str, "readOnly": bool}],
}
POD = {
    "automountServiceAccountToken": bool, "terminationGracePeriodSeconds": int, "containers": [CONTAINER],
    "securityContext": {"runAsNonRoot": bool, "runAsUser": int, "runAsGroup": int, "fsGroup": int,
                        "seccompProfile": {"type": str}},
    "volumes": [{"name": str, "configMap": {"name": str}}],
}
KINDS = {
    "ConfigMap": ("v1", {"data": LABELS}),
    "Service": ("v1", {"spec": {"selector": LABELS, "ports": [
        {"name": str, "port": int, "targetPort": str, "protocol": str}]}}),
    "StatefulSet": ("apps/v1", {"spec": {
        "serviceName": str, "replicas": int, "podManagementPolicy": str, "selector": {"matchLabels": LABELS},
        "template": {"metadata": META, "spec": POD},
        "volumeClaimTemplates": [{"metadata": META, "spec": {"accessModes": [str], "resources": {"requests": LABELS}}}]}}),
}


def unlike(value, kind, path=""):
    """The paths of fields that a kind does not have, or whose values have another type."""
    if isinstance(kind, dict):
        if not isinstance(value, dict):
            return [path]
        return [it for name, inner in value.items() for it in (
            unlike(inner, kind.get(name, kind.get(str)), f"{path}.{name}") if name in kind or str in kind else [f"{path}.{name}"])]
    if isinstance(kind, list):
        return [it for inner in value for it in unlike(inner, kind[0], f"{path}[]")] if isinstance(value, list) else [path]
    return [] if type(value) is kind else [path]


def manifest():
    """The documents of the file, by their kinds."""
    ran = subprocess.run([DEBIAN_PYTHON, "-c", READ, MANIFEST], stdout=subprocess.PIPE, stderr=subprocess.PIPE)
    if b"No module named 'yaml'" in ran.stderr or not os.path.exists(DEBIAN_PYTHON):
        raise unittest.SkipTest("python3-yaml is missing")
    if ran.returncode != 0:
        raise AssertionError(ran.stderr.decode())
    return {it["kind"]: it for it in json.loads(ran.stdout)}


def container(documents):
    """The one container of the pods."""
    one, = documents["StatefulSet"]["spec"]["template"]["spec"]["containers"]
    return one


class Kubernetes(WithFiles):
    """What the file says."""

    def setUp(self):
        super().setUp()
        self.documents = manifest()
        self.set = self.documents["StatefulSet"]["spec"]
        self.pod = self.set["template"]["spec"]
        self.container = container(self.documents)

    def test_fields(self):
        self.assertEqual(set(self.documents), set(KINDS))
        for kind, (version, fields) in KINDS.items():
            document = self.documents[kind]
            self.assertEqual(document["apiVersion"], version)
            self.assertEqual(unlike(document, {"apiVersion": str, "kind": str, "metadata": META, **fields}), [])

    def test_names(self):
        """Whatever one part names, another part has."""
        labels = self.set["template"]["metadata"]["labels"]
        service = self.documents["Service"]
        self.assertEqual([self.set["selector"]["matchLabels"], service["spec"]["selector"]], [labels, labels])
        self.assertEqual(self.set["serviceName"], service["metadata"]["name"])
        ports = {it["name"]: (it["containerPort"], it["protocol"]) for it in self.container["ports"]}
        for port in service["spec"]["ports"]:
            self.assertEqual(ports[port["targetPort"]], (port["port"], port["protocol"]))
        for probe in ("readinessProbe", "livenessProbe"):
            self.assertIn(self.container[probe]["httpGet"]["port"], ports)
        annotations = self.set["template"]["metadata"]["annotations"]
        self.assertEqual(annotations["prometheus.io/port"], str(ports["status"][0]))
        volumes = [it["name"] for it in self.pod["volumes"]] + [it["metadata"]["name"] for it in self.set["volumeClaimTemplates"]]
        self.assertEqual(sorted(it["name"] for it in self.container["volumeMounts"]), sorted(volumes))
        self.assertEqual([it["configMap"]["name"] for it in self.pod["volumes"]], [self.documents["ConfigMap"]["metadata"]["name"]])
        version = harness.run(("--version",)).out.decode().split()[1]
        self.assertEqual(self.container["image"], f"localhost/relayd:{version}")

    def test_the_command_line(self):
        """Its options are those of `relayd run`, and its ports those of the file and the configuration."""
        args = self.container["args"]
        known = set(re.findall(r"--[a-z]+(?:-[a-z]+)*", harness.run(("run", "-h")).out.decode()))
        self.assertLessEqual({word for word in args if word.startswith("--")}, known)
        values = dict(zip(args, args[1:]))
        mounted = {it["name"]: it["mountPath"] for it in self.container["volumeMounts"]}
        self.assertEqual(values["--config"], f"{mounted['configuration']}/relay.conf")
        self.assertEqual(values["--spool"], mounted["spool"])
        ports = {it["name"]: str(it["containerPort"]) for it in self.container["ports"]}
        self.assertEqual(values["--status"], ports["status"])
        config = self.documents["ConfigMap"]["data"]["relay.conf"]
        found = dict(re.findall(r"(?m)^(\w+)_RECEIVER_PORT = (\d+)$", config))
        self.assertEqual(found, {"LINE": ports["lines"], "PICKLE": ports["pickles"], "UDP": ports["datagrams"]})
        words = ("check", *self.given({"config": config, "rules": None}), "--longest-name", values["--longest-name"])
        self.assertEqual(harness.run(words).out, b"ok 2 destinations\n")

    def test_the_time_of_a_stop(self):
        """preStop and relayd-supervised, by default, are done before a SIGKILL."""
        waits = int(self.container["lifecycle"]["preStop"]["exec"]["command"][1])
        drain = int(dict(zip(self.container["args"], self.container["args"][1:]))["--drain"])
        with open(os.path.join(TOP, "packaging", "relayd-supervised"), encoding="ascii") as file:
            self.assertIn("drain + 20 : 25", file.read())
        self.assertLess(waits + max(25, drain + 20), self.pod["terminationGracePeriodSeconds"])


class Probes(Serving):
    """What a relay answers to them."""

    def statuses(self, relay):
        """The status of the answer to each probe: whether it is ready, and whether it is live."""
        return [self.ask(relay, self.probed[probe]["httpGet"]["path"])[0] for probe in ("readinessProbe", "livenessProbe")]

    def test_a_relay_that_drains_is_live_and_not_ready(self):
        self.probed = container(manifest())
        store, = self.stores(1, reads=False, room=4096)
        with self.serving([f"127.0.0.1:{store.port}"], ("--drain", "3600"), MAX_QUEUE_SIZE="10000") as relay:
            self.assertEqual(self.statuses(relay), [200, 200])
            with self.draining(relay, store):
                self.wait_for(lambda: self.statuses(relay) == [503, 200], "it drains")
            self.assertEqual(relay.end().status, 0)
