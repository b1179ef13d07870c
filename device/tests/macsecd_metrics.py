"""`macsecctl NAME metrics`: Prometheus's own parser reads it, and it has what integrations/prometheus names."""

from __future__ import annotations

import json
import re
import shutil
import subprocess

from house import ROOT
from house.reporting import report

HERE = ROOT / "integrations/prometheus"
# Prints each metric that Prometheus's parser finds: its name, type and help, and its samples.
PARSE = """
import json, sys
from prometheus_client.parser import text_string_to_metric_families
def row(it): return it.name, it.type, it.documentation, [(s.name, s.labels, s.value) for s in it.samples]
print(json.dumps(list(map(row, text_string_to_metric_families(sys.stdin.read())))))
"""


def lint(text: str) -> None:
    """Each sample is below its HELP and TYPE, and a counter's name ends in _total."""
    helped, kind = "", ("", "")
    for line in text.splitlines():
        words = line.split(" ")
        if words[:2] == ["#", "HELP"]:
            helped = words[2] if len(words) > 4 else ""
        elif words[:2] == ["#", "TYPE"]:
            kind = words[2], words[3]
            good = kind in ((helped, "gauge"), (helped, "counter")) and (kind[1] == "counter") == helped.endswith(
                "_total"
            )
            report(good, f"metrics: {line} after HELP of {helped!r}")
        else:
            report(line.split("{")[0] == kind[0], f"metrics: {line} below {kind}")


def parsed(text: str) -> None:
    """Prometheus's parser for Python finds each sample, in the metric of its name."""
    for python in ("python3", "/usr/bin/python3"):
        ended = subprocess.run([python, "-c", PARSE], input=text, capture_output=True, text=True)
        if "No module named" not in ended.stderr:
            break
    else:
        print("metrics: no python3-prometheus-client (tools/needed): no other parser reads them", flush=True)
        return
    if ended.returncode:
        report(False, f"metrics: Prometheus's parser: {ended.stderr[-300:]}")
        return
    samples = 0
    for name, kind, helped, found in json.loads(ended.stdout):
        samples += len(found)
        total = "_total" * (kind == "counter")
        good = kind in ("counter", "gauge") and helped and all(it[0] == name + total and it[1] for it in found)
        report(bool(good), f"metrics: Prometheus reads {name} as {kind}, {helped!r}: {found[:2]}")
    lines = sum(not it.startswith("#") for it in text.splitlines())
    report(samples == lines > 40, f"metrics: Prometheus reads {samples} samples of {lines}")


def named(text: str) -> None:
    """Each metric of the dashboard and the rules is there."""
    there = set(re.findall(r"^# TYPE (\S+)", text, re.M))
    for path in (HERE / "dashboard.json", HERE / "alerts.yml"):
        names = set(re.findall(r"\bmacsec_\w+", path.read_text()))
        report(
            len(names) > 5 and names <= there, f"metrics: {path.name} names {sorted(names - there)}, of {len(names)}"
        )
    panels = json.loads((HERE / "dashboard.json").read_text())["panels"]
    empty = [it["title"] for it in panels if not all("macsec_" in each["expr"] for each in it["targets"])]
    report(len(panels) > 3 and not empty, f"metrics: panels without a metric: {empty}")


def judged_by_promtool(text: str) -> None:
    """What Prometheus's own checker says of the metrics and of the rules."""
    if shutil.which("promtool") is None:
        return
    for words, given in (("check metrics", text), ("check rules alerts.yml", ""), ("test rules test-alerts.yml", "")):
        ended = subprocess.run(["promtool", *words.split()], input=given, capture_output=True, text=True, cwd=HERE)
        report(ended.returncode == 0, f"promtool {words}: {ended.stdout[-300:]}{ended.stderr[-300:]}")


def check_metrics(text: str) -> None:
    """The metrics of a device with associations in both directions."""
    for check in (lint, parsed, named, judged_by_promtool):
        check(text)
