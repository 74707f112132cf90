#!/usr/bin/env python3
"""Checks examples/kubernetes/pollrelay.yaml without a cluster: each field is one of its kind, with a value of its type, by the models of
Debian's python3-kubernetes; its numbers and names fit each other and the program; and the container that looks at the rules has a
running relay read them anew, once, when they change as a mounted ConfigMap does.

    python3 tests/packaging/kubernetes_manifest.py

It installs python3-kubernetes and python3-yaml where they are missing.
"""
import os
import re
import shlex
import subprocess
import sys
import tempfile

SYSTEMS_OWN = "/usr/bin/python3"
sys.path.insert(1, f"{sys.path[0]}/..")
from lib.checks import Checks
from lib.packages import install
from lib.places import PROGRAM, ROOT
from lib.relay import Relay
from lib.sockets import free_port
from lib.waiting import wait_until

SAMPLE = f"{ROOT}/examples/kubernetes/pollrelay.yaml"
PACKAGES = "/usr/lib/python3/dist-packages"
# How the models call what is no model.
PLAIN = {"str": str, "int": int, "bool": bool, "float": (int, float), "object": object}
SECONDS = 20

install(f"{PACKAGES}/kubernetes:python3-kubernetes", f"{PACKAGES}/yaml:python3-yaml")
if os.path.realpath(sys.executable) != os.path.realpath(SYSTEMS_OWN):
    # (another python than Debian's hasn't Debian's packages)
    os.execv(SYSTEMS_OWN, [SYSTEMS_OWN, *sys.argv])

import yaml
from kubernetes.client import models


def faults(value, kind, place):
    """What of a value isn't of a kind, as the models name kinds."""
    inner = re.fullmatch(r"list\[(.*)\]|dict\(str, (.*)\)", kind)
    if inner and inner[1]:
        items = value if isinstance(value, list) else [value]
        own = [] if isinstance(value, list) else [f"{place} is no list"]
        return own + [it for at, item in enumerate(items) for it in faults(item, inner[1], f"{place}[{at}]")]
    if inner:
        items = value.items() if isinstance(value, dict) else []
        own = [] if isinstance(value, dict) else [f"{place} is no map"]
        return own + [it for name, item in items for it in faults(item, inner[2], f"{place}.{name}")]
    if kind in PLAIN:
        is_one = isinstance(value, PLAIN[kind]) and (kind != "int" or not isinstance(value, bool))
        return [] if is_one else [f"{place} is {value!r}, and no {kind}"]
    return faults_of_model(value, getattr(models, kind), place)


def faults_of_model(value, model, place):
    if not isinstance(value, dict):
        return [f"{place} is no {model.__name__}"]
    fields = {key: model.openapi_types[name] for name, key in model.attribute_map.items()}
    found = [f"{place} has no field {name}" for name in value if name not in fields]
    found += [it for name, item in value.items() if name in fields for it in faults(item, fields[name], f"{place}.{name}")]
    try:
        # (a model refuses to be without what its kind asks for)
        model(**{name: value.get(key) for name, key in model.attribute_map.items()})
    except ValueError as fault:
        found.append(f"{place}: {fault}")
    return found


def of_kinds(checks, parts):
    for part in parts:
        model = getattr(models, {"ConfigMap": "V1ConfigMap", "Deployment": "V1Deployment", "Service": "V1Service"}[part["kind"]])
        checks.expect(f"the fields of {part['kind']}", [], faults_of_model(part, model, part["kind"]))
    # (that the check itself sees a wrong field, type and want)
    wrong = {"spec": {"replicas": "two", "selector": {}, "templat": {}}}
    checks.expect("a wrong Deployment has its faults", 3, len(faults_of_model(wrong, models.V1Deployment, "it")))


def value_of(words, option):
    return words[words.index(option) + 1]


def fits(checks, rules, pod, service):
    relay, reloader = pod["containers"]
    words = [*relay["command"], *relay["args"]]
    ports = {it["name"]: it["containerPort"] for it in relay["ports"]}
    wait = int(relay["lifecycle"]["preStop"]["exec"]["command"][1])
    most = wait + int(value_of(words, "--finish")) / 1_000
    checks.holds("the end has more time than its parts", pod["terminationGracePeriodSeconds"] > most, most)
    checks.expect("the metrics listen at their port", f"tcp:0.0.0.0:{ports['metrics']}", value_of(words, "--metrics"))
    for probe in ("readinessProbe", "livenessProbe"):
        checks.expect(f"{probe} asks the metrics", "metrics", relay[probe]["httpGet"]["port"])
    listening = {int(it.split()[2].rsplit(":")[-1]) for it in rules.splitlines() if it.startswith("relay ")}
    checks.expect("the rules listen at the pod's ports", {it for name, it in ports.items() if name != "metrics"}, listening)
    checks.holds("the service leads to ports of the pod", {it["targetPort"] for it in service["spec"]["ports"]} <= set(ports), service)
    checks.expect("both containers are of one image", relay["image"], reloader["image"])
    checks.expect("both have the same folders", relay["volumeMounts"], reloader["volumeMounts"])
    mounts = tuple(f"{it['mountPath']}/" for it in relay["volumeMounts"])
    for option in ("--rules", "--admin"):
        checks.holds(f"{option} is in a mounted folder", value_of(words, option).startswith(mounts), words)
        checks.holds(f"the other container has that of {option}", value_of(words, option) in reloader["args"][0], reloader["args"])
    with tempfile.NamedTemporaryFile("w", suffix=".rules") as file:
        file.write(rules)
        file.flush()
        ran = subprocess.run([PROGRAM, "check", "--rules", file.name], capture_output=True, text=True, check=False)
    checks.expect("the rules are good", (0, "rules 1\n"), (ran.returncode, ran.stdout))
    made = subprocess.run([PROGRAM, "serve", *relay["args"], "--burst"], capture_output=True, text=True, check=False)
    checks.expect("one option too many is a bad command line", 2, made.returncode)


def change(folder, text, generation):
    """Puts a text into a folder as the kubelet does: a new folder beside, and one exchange of a link."""
    os.mkdir(f"{folder}/..{generation}")
    with open(f"{folder}/..{generation}/rules", "w", encoding="ascii") as file:
        file.write(text)
    os.symlink(f"..{generation}", f"{folder}/..new")
    os.rename(f"{folder}/..new", f"{folder}/..data")
    if not os.path.islink(f"{folder}/rules"):
        os.symlink("..data/rules", f"{folder}/rules")


def lines_of(path):
    with open(path, encoding="ascii") as file:
        return file.read().splitlines()


def reloads(checks, pod):
    """The second container's own words beside a relay."""
    script = pod["containers"][1]["args"][0]
    rule = "relay {} tcp:127.0.0.1:{} tcp:127.0.0.1:9 never\n"
    first = rule.format("one", free_port())
    with Relay(first) as relay, tempfile.TemporaryDirectory(prefix="rules-") as folder, open(f"{relay.folder}/told", "wb") as told:
        os.remove(f"{relay.folder}/rules")
        change(folder, first, 1)
        os.symlink(f"{folder}/rules", f"{relay.folder}/rules")
        script = script.replace("/run/pollrelay/admin.sock", relay.admin).replace("/etc/pollrelay", folder)
        script = re.sub(r"\bpollrelay ctl", f"{shlex.quote(PROGRAM)} ctl", script).replace("sleep 2", "sleep 0.05")
        second = first + rule.format("two", free_port())
        # (while the relay starts)
        change(folder, second, 2)
        looks = subprocess.Popen(["sh", "-c", script], stdout=told, stderr=told)
        try:
            checks.holds("rules that came ahead of it are read", wait_until(lambda: len(relay.ids()) == 2, SECONDS), relay.ids())
            change(folder, second + rule.format("three", free_port()), 3)
            checks.holds("new rules are read", wait_until(lambda: len(relay.ids()) == 3, SECONDS), relay.ids())
            change(folder, "relay\n", 4)
            checks.holds("a refusal is told", wait_until(lambda: "bad rules: line 1" in lines_of(told.name), SECONDS), lines_of(told.name))
            checks.expect("a refusal changes nothing", 3, len(relay.ids()))
            looks.terminate()
            checks.holds("it ends by TERM", looks.wait(SECONDS) in (0, 143, -15), looks.returncode)
            checks.expect("each change is told once", ["rules 2", "rules 3", "bad rules: line 1"], lines_of(told.name))
        finally:
            if looks.poll() is None:
                looks.kill()


def main():
    checks = Checks()
    with open(SAMPLE, encoding="utf-8") as file:
        parts = list(yaml.safe_load_all(file))
    of_kinds(checks, parts)
    by_kind = {it["kind"]: it for it in parts}
    pod = by_kind["Deployment"]["spec"]["template"]["spec"]
    fits(checks, by_kind["ConfigMap"]["data"]["rules"], pod, by_kind["Service"])
    reloads(checks, pod)
    return checks.end()


if __name__ == "__main__":
    sys.exit(main())
