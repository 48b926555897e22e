"""The alerts of dist/alerts.yml: Prometheus reads them, they fire when they should, the gateway has
the metrics that they ask for, and the page says what to do for each."""
import re
import shutil
import subprocess
import unittest

from tests.gateway.gateways import Gateway
from tests.support.preloaded import COMPILER
from tests.support.running import ROOT, Cases

with open(f"{ROOT}/dist/alerts.yml") as file:
    ALERTS = file.read()
NAMES = re.findall(r"^ +- alert: (\w+)$", ALERTS, re.MULTILINE)


class Alerts(Cases):
    @unittest.skipIf(shutil.which("promtool") is None, "promtool is not there")
    def test_promtool(self):
        for words in (
            ["check", "rules", f"{ROOT}/dist/alerts.yml"],
            ["test", "rules", f"{ROOT}/tests/package/alerts.yml"],
        ):
            done = subprocess.run(
                ["promtool", *words],
                stdout=subprocess.PIPE,
                stderr=subprocess.STDOUT,
                text=True,
                timeout=600,
            )
            self.tell(" ".join(words[:2]), done.returncode == 0, done.stdout[-2_000:])

    def test_each_alert_is_tried(self):
        with open(f"{ROOT}/tests/package/alerts.yml") as file:
            fires = re.findall(r"^ +alertname: (\w+)\n +exp_alerts:\n", file.read(), re.MULTILINE)
        self.tell("each is seen to fire", sorted(set(fires)) == sorted(NAMES), (fires, NAMES))

    def test_each_alert_has_a_summary_and_a_row(self):
        with open(f"{ROOT}/docs/operations/operating.md") as file:
            rows = re.findall(r"^\| `(Oaut\w+)` \|", file.read(), re.MULTILINE)
        self.tell(
            "docs/operations/operating.md has a row for each, in their order",
            rows == NAMES,
            (rows, NAMES),
        )
        for name, rule in zip(NAMES, re.split(r"^ +- alert: .*\n", ALERTS, flags=re.MULTILINE)[1:]):
            for what in ("expr", "severity", "summary", "description"):
                self.tell(
                    f"{name} has its {what}", re.search(rf"^ +{what}: ", rule, re.MULTILINE), rule
                )

    @unittest.skipUnless(COMPILER, "cc is not there")
    def test_the_gateway_has_their_metrics(self):
        asked = set(re.findall(r"\boaut_\w+", re.sub("summary: .*|description: .*", "", ALERTS)))
        with Gateway() as gateway:
            found = gateway.counters()

            def scraped():
                text = gateway.ask(b"GET /metrics HTTP/1.1\r\n\r\n", "metrics", ends=False).decode()
                return text if "oaut_store_bytes_used" in text else None

            text = Gateway.wait_for(scraped, "the store is not measured")
        self.tell("there are some", len(asked) > 8, asked)
        there = {line.split()[2] for line in text.splitlines() if line.startswith("# TYPE")} | {
            it.split("{")[0] for it in found
        }
        lacking = {
            it for it in asked if it not in there and it.removesuffix("_bucket") not in there
        }
        self.tell("each is told", not lacking, lacking)
