"""The manifests of dist/kubernetes: what the schema of Kubernetes says of them, and what has to
agree within and between stores."""
import contextlib
import functools
import importlib.machinery
import importlib.util
import os
import re
import shutil
import signal
import socket
import subprocess
import sys
import tempfile
import threading
import unittest
from unittest import mock

from tests.gateway.gateways import SECONDS, Gateway, left_out
from tests.support.certificates import Authority
from tests.support.running import ROOT, Cases
from tests.support.wire import oaut

FOLDER = f"{ROOT}/dist/kubernetes"
CHECK = f"{os.path.dirname(os.path.abspath(__file__))}/manifests.py"


@functools.lru_cache(None)
def python():
    """A Python that has the models, or nothing."""
    for it in dict.fromkeys((sys.executable, "/usr/bin/python3")):
        if (
            os.path.exists(it)
            and not subprocess.run(
                [it, "-c", "import kubernetes, yaml"], capture_output=True
            ).returncode
        ):
            return it
    return ""


@functools.lru_cache(None)
def built_by_kustomize(name):
    """A folder of manifests as kustomize puts it together; nothing if there is none, or one that is
    too old for it."""
    if not shutil.which("kubectl"):
        return ""
    done = subprocess.run(
        ["kubectl", "kustomize", f"{FOLDER}/{name}"], capture_output=True, text=True
    )
    return (
        ""
        if done.returncode and re.search(r"unknown field|invalid Kustomization", done.stderr)
        else done.stdout or done.stderr
    )


needs_models = unittest.skipUnless(python(), "python3-kubernetes is not there")
needs_kustomize = unittest.skipUnless(
    built_by_kustomize("base"), "a kubectl with kustomize 4.1 or later is not there"
)


def faults(text):
    """What the models say of manifests: the lines of faults, and the last one."""
    done = subprocess.run([python(), CHECK], input=text, capture_output=True, text=True)
    if done.returncode:
        raise AssertionError(done.stderr[-2000:])
    *lines, last = done.stdout.splitlines()
    return lines, last


def documents(text):
    """Manifests as Python has them."""
    import yaml

    return [it for it in yaml.safe_load_all(text) if it]


def text_of(path):
    with open(f"{FOLDER}/{path}") as file:
        return file.read()


class Starts(Cases):
    def test_a_store_may_take_minutes_to_open(self):
        """Two banks of 1 GiB on a slow volume: nothing kills what makes or opens such a store, and
        begins anew."""
        probe = re.search(
            r"(?m)^( +)startupProbe:\n((?:\1 +.*\n)+)", text_of("base/statefulset.yaml")
        )
        numbers = dict(
            re.findall(r"(periodSeconds|failureThreshold): (\d+)", probe[2] if probe else "")
        )
        self.tell(
            "in a pod",
            int(numbers.get("periodSeconds", 0)) * int(numbers.get("failureThreshold", 0)) >= 600,
            numbers,
        )
        with open(f"{ROOT}/dist/units/oaut@.service") as file:
            given = re.search(r"(?m)^TimeoutStartSec=(\d+)min$", file.read())
        self.tell("as a service", given and int(given[1]) >= 10, given)


class Probes(Cases):
    def test_at_the_limit_of_clients(self):
        """The gateway turns the probe away, and serves all the same: no client is kept from the pod
        for that."""
        loader = importlib.machinery.SourceFileLoader("probe", f"{ROOT}/dist/container/probe")
        probe = importlib.util.module_from_spec(importlib.util.spec_from_loader("probe", loader))
        loader.exec_module(probe)
        with tempfile.TemporaryDirectory() as room, Gateway("--clients", "1") as gateway:
            os.symlink(gateway.binary, f"{room}/oaut-gateway")
            probe.SOCKET, probe.CONTROL, probe.SECONDS = (
                f"{gateway.room}/listen",
                f"{gateway.room}/control",
                SECONDS,
            )
            with mock.patch.dict(os.environ, {"PATH": f"{room}:{os.environ['PATH']}"}):
                gateway.settles()
                self.tell("it is ready", probe.is_ready())
                gateway.settles()
                with gateway.session() as server:
                    item = server.create("Item")
                    self.tell("and with as many clients as may come", probe.is_ready())
                    process = gateway.server()
                    os.kill(process, signal.SIGSTOP)
                    asking = threading.Thread(target=lambda: item.Count)
                    asking.start()
                    Gateway.wait_for(
                        lambda: gateway.counters()["oaut_gateway_unanswered_seconds"] > 1.5,
                        "the server answers",
                    )
                    probe.SECONDS = 1
                    self.tell("not if the server does not answer", not probe.is_ready())
                    probe.SECONDS = SECONDS
                    os.kill(process, signal.SIGCONT)
                    asking.join()
                    self.tell("it is again", probe.is_ready())


@needs_models
class Schema(Cases):
    def test_files(self):
        """Each file of the base, as it is."""
        for name in sorted(os.listdir(f"{FOLDER}/base")):
            if name.endswith(".yaml") and name != "kustomization.yaml":
                lines, last = faults(text_of(f"base/{name}"))
                self.tell(f"{name}: {last}", not lines and not last.startswith("0 "), lines)

    @needs_kustomize
    def test_overlays(self):
        for name in ("base", "second", "tls"):
            lines, last = faults(built_by_kustomize(name))
            self.tell(
                f"{name}: {last}",
                not lines and int(last.split()[0]) >= 7,
                lines or built_by_kustomize(name)[-500:],
            )

    def test_faults_are_found(self):
        """The same manifests with one fault each."""
        rows = (
            (
                "backup.yaml",
                "concurrencyPolicy:",
                "concurrency:",
                "CronJob.spec.concurrency: V1CronJobSpec has no such key",
            ),
            (
                "backup.yaml",
                "backoffLimit: 2",
                'backoffLimit: "2"',
                "CronJob.spec.jobTemplate.spec.backoffLimit: '2' is no int",
            ),
            (
                "backup.yaml",
                'accessModes: ["ReadWriteOnce"]',
                "accessModes: ReadWriteOnce",
                "PersistentVolumeClaim.spec.accessModes: is no list",
            ),
            (
                "statefulset.yaml",
                "  serviceName: store\n",
                "",
                "StatefulSet.spec: Invalid value for `service_name`, must not be `None`",
            ),
            (
                "statefulset.yaml",
                "runAsNonRoot: true",
                "runAsNonRoot: 1",
                "StatefulSet.spec.template.spec.securityContext.runAsNonRoot: 1 is no bool",
            ),
            (
                "statefulset.yaml",
                "emptyDir: {}",
                "emptyDir: []",
                "StatefulSet.spec.template.spec.volumes[0].emptyDir: is no mapping",
            ),
            (
                "networkpolicy.yaml",
                "kind: NetworkPolicy",
                "kind: NetworkPolicies",
                "networking.k8s.io/v1 NetworkPolicies: there is no such kind",
            ),
        )
        for name, old, new, wanted in rows:
            text = text_of(f"base/{name}")
            lines = faults(text.replace(old, new, 1))[0]
            self.tell(f"{name}: {new or old.strip()}", old in text and lines == [wanted], lines)


def labels_match(selector, labels):
    return all(labels.get(key) == value for key, value in selector.items())


def pod_of(documents_of_it):
    return next(it for it in documents_of_it if it["kind"] == "StatefulSet")["spec"]["template"]


def selectors_of(documents_of_it):
    """What selects pods of the store, by kind."""
    for it in documents_of_it:
        spec = it.get("spec", {})
        if it["kind"] == "Service":
            yield "Service", spec["selector"]
        elif it["kind"] == "NetworkPolicy":
            yield "NetworkPolicy", spec["podSelector"]["matchLabels"]
        elif it["kind"] in ("StatefulSet", "PodDisruptionBudget"):
            yield it["kind"], spec["selector"]["matchLabels"]
        elif it["kind"] == "CronJob":
            terms = spec["jobTemplate"]["spec"]["template"]["spec"]["affinity"]["podAffinity"][
                "requiredDuringSchedulingIgnoredDuringExecution"
            ]
            yield "CronJob's affinity", terms[0]["labelSelector"]["matchLabels"]


@needs_kustomize
class Agreement(Cases):
    def of(self, name):
        return documents(built_by_kustomize(name))

    def test_stores_do_not_mix(self):
        """What selects pods selects those of its own store, and of no other one. The pod of a
        backup is none of these."""
        for own, other in (("base", "second"), ("second", "base"), ("tls", "second")):
            for kind, selector in selectors_of(self.of(own)):
                labels = pod_of(self.of(own))["metadata"]["labels"]
                self.tell(
                    f"{own}: {kind} selects its own pod",
                    labels_match(selector, labels),
                    (selector, labels),
                )
                labels = pod_of(self.of(other))["metadata"]["labels"]
                self.tell(
                    f"{own}: {kind} does not select the pod of {other}",
                    not labels_match(selector, labels),
                    (selector, labels),
                )
                job = next(it for it in self.of(own) if it["kind"] == "CronJob")["spec"][
                    "jobTemplate"
                ]["spec"]["template"]
                self.tell(
                    f"{own}: {kind} does not select the pod of the backup",
                    not labels_match(selector, job["metadata"]["labels"]),
                )

    def test_names(self):
        """Two stores share no name, and what a pod mounts is there."""
        names = {
            of: {(it["kind"], it["metadata"]["name"]) for it in self.of(of)}
            for of in ("base", "second")
        }
        self.tell("no name of both", not names["base"] & names["second"], names)
        for of in ("base", "second", "tls"):
            found = {it["metadata"]["name"] for it in self.of(of) if it["kind"] == "ConfigMap"}
            pod = pod_of(self.of(of))["spec"]
            volumes = {it["name"] for it in pod["volumes"]} | {"data"}
            asked = {it["configMap"]["name"] for it in pod["volumes"] if "configMap" in it}
            self.tell(f"{of}: config maps", asked and asked <= found, (asked, found))
            mounted = {it["name"] for one in pod["containers"] for it in one["volumeMounts"]}
            self.tell(f"{of}: volumes", mounted <= volumes, (mounted, volumes))

    def test_the_backup(self):
        """It mounts the claim of its own store, runs as the same user, and asks a control socket
        that the gateway has there."""
        for of in ("base", "second", "tls"):
            every = self.of(of)
            store = next(it for it in every if it["kind"] == "StatefulSet")
            job = next(it for it in every if it["kind"] == "CronJob")["spec"]["jobTemplate"][
                "spec"
            ]["template"]["spec"]
            claims = {it["name"]: it["persistentVolumeClaim"]["claimName"] for it in job["volumes"]}
            own = f"data-{store['metadata']['name']}-0"
            self.tell(f"{of}: its claim", claims["data"] == own, (claims, own))
            there = {
                it["metadata"]["name"] for it in every if it["kind"] == "PersistentVolumeClaim"
            }
            self.tell(f"{of}: the claim of the copies", claims["backup"] in there, (claims, there))
            pod = store["spec"]["template"]["spec"]
            users = [it["securityContext"]["runAsUser"] for it in (job, pod)]
            self.tell(f"{of}: its user", users[0] == users[1], users)
            words, args = job["containers"][0]["command"], pod["containers"][0]["args"]
            sockets = [args[at + 1] for at, it in enumerate(args) if it == "--control"]
            self.tell(
                f"{of}: its control socket",
                words[3] in sockets and words[3].startswith("/data/"),
                (words, sockets),
            )
            self.tell(f"{of}: that of the probes", "/run/oaut/control.sock" in sockets, sockets)
            places = {it["mountPath"]: it["name"] for it in job["containers"][0]["volumeMounts"]}
            self.tell(
                f"{of}: the store is where the gateway has it",
                places == {"/data": "data", "/backup": "backup"},
                places,
            )

    def test_who_may_connect(self):
        """The base lets pods with a label in; with TLS anybody may connect, since certificates
        decide."""
        for of, wanted in (
            (
                "base",
                [
                    {
                        "podSelector": {
                            "matchExpressions": [
                                {"key": "oaut-client", "operator": "In", "values": ["true"]}
                            ]
                        }
                    }
                ],
            ),
            ("tls", None),
        ):
            rule = next(it for it in self.of(of) if it["kind"] == "NetworkPolicy")["spec"][
                "ingress"
            ]
            self.tell(f"{of}: from whom", len(rule) == 1 and rule[0].get("from") == wanted, rule)
            self.tell(
                f"{of}: which port", rule[0]["ports"] == [{"protocol": "TCP", "port": 8766}], rule
            )


@left_out("haproxy", "openssl", "cc")
class Tls(Cases):
    """The configuration of HAProxy in the overlay, with the paths of this test, before a
    gateway."""

    def test_a_session(self):
        with Gateway(
            sockets=("listen",)
        ) as gateway, tempfile.TemporaryDirectory() as room, contextlib.ExitStack() as stack:
            stores, clients, others = (
                Authority(room, it) for it in ("stores", "clients", "others")
            )
            # (clients.pem is the authority's own file)
            shutil.copy(stores.both("server", "items.stores.example"), f"{room}/server.pem")
            text = (
                text_of("tls/haproxy.cfg")
                .replace("/etc/certificates", room)
                .replace("/run/oaut/oaut.sock", f"{gateway.room}/listen")
            )
            with open(f"{room}/haproxy.cfg", "w") as file:
                file.write(re.sub(r"bind :8766 ", f"bind unix@{room}/tls.sock ", text))
            done = subprocess.run(
                ["haproxy", "-c", "-f", f"{room}/haproxy.cfg"], capture_output=True, text=True
            )
            self.tell(
                "HAProxy takes it",
                done.returncode == 0 and "WARNING" not in done.stderr.upper(),
                done.stderr + done.stdout,
            )
            child = subprocess.Popen(
                ["haproxy", "-db", "-f", f"{room}/haproxy.cfg"],
                stdout=subprocess.DEVNULL,
                stderr=subprocess.DEVNULL,
            )
            stack.callback(child.wait)
            stack.callback(child.kill)
            Gateway.wait_for(lambda: listens(f"{room}/tls.sock"), "HAProxy does not listen")
            port = forwarded(stack, f"{room}/tls.sock")
            for name, authority, wanted in (
                ("its own", clients, "7"),
                ("another's", others, "ClientCertificateRefused"),
                ("none", None, "ClientCertificateRefused"),
            ):
                self.tell(
                    f"a client with a certificate of {name}",
                    (got := self.asked(port, room, authority)) == wanted,
                    got,
                )

    def asked(self, port, room, authority):
        """What a client gets: a count, or the name of what it raises."""
        url = f"oauts://127.0.0.1:{port}?name=items.stores.example&ca={room}/stores.pem"
        if authority:
            certificate, key = authority.signed(f"me-{authority.name}")
            url += f"&cert={certificate}&key={key}"
        try:
            with oaut.connect(url, timeout=SECONDS) as server:
                item = server.create("Item")
                item.Count = 7
                return str(item.Count)
        except (oaut.Fault, OSError) as error:
            return type(error).__name__


def listens(path):
    with contextlib.suppress(OSError), socket.socket(socket.AF_UNIX) as sock:
        sock.connect(path)
        return True
    return False


def forwarded(stack, path):
    """A port of this machine that leads to a socket. HAProxy's own port cannot be drawn without a
    race."""
    there = socket.create_server(("127.0.0.1", 0))
    stack.callback(there.close)

    def pass_on(source, target):
        with contextlib.suppress(OSError):
            while some := source.recv(1 << 16):
                target.sendall(some)
        with contextlib.suppress(OSError):
            target.shutdown(socket.SHUT_WR)

    def serve():
        with contextlib.suppress(OSError):
            while True:
                one, other = there.accept()[0], socket.socket(socket.AF_UNIX)
                other.connect(path)
                for pair in ((one, other), (other, one)):
                    threading.Thread(target=pass_on, args=pair, daemon=True).start()

    threading.Thread(target=serve, daemon=True).start()
    return there.getsockname()[1]


if __name__ == "__main__":
    unittest.main()
