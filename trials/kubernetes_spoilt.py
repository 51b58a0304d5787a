#!/usr/bin/env python3
"""Single faults in right sets of Kubernetes objects: python3 -m trials kubernetes_spoilt

`trials/spoilt/` has ten sets in which nothing is wrong. Each fault is one edit of one of them, as somebody would make it by mistake.
`lint` has to tell what never comes up, or what the API server refuses, as an error, and what comes up and does half or nothing as a
warning at least; what it does not tell so is listed. A false alarm on a set that nobody has spoilt, fewer than 50 errors for the 54
faults of the first kind, or fewer than 17 lines for the 19 of the second end the trial with status 1.
"""

import json
import os
import pathlib
import subprocess
import sys
import tempfile
from typing import Any, NamedTuple

from trials.trial import TOP, expect

SETS = pathlib.Path(__file__).resolve().parent / "spoilt"

# The definitions that a cluster with these controllers has.
GIVEN = {
    "certificates": ("Issuer.cert-manager.io", "Certificate.cert-manager.io"),
    "gateway": ("GatewayClass.gateway.networking.k8s.io", "Gateway.gateway.networking.k8s.io", "HTTPRoute.gateway.networking.k8s.io"),
    "secrets": ("SealedSecret.bitnami.com", "SecretStore.external-secrets.io", "ExternalSecret.external-secrets.io"),
}
ERRORS, WARNINGS = 50, 17


class Fault(NamedTuple):
    """A text of a set, which stands there once, and what stands in its place."""

    into: str
    old: str
    new: str


# What never comes up, or what the API server refuses.
NEVER = (
    Fault("shop", "{name: shop}\n---\napiVersion: v1\nkind: ConfigMap", "{name: shpo}\n---\napiVersion: v1\nkind: ConfigMap"),
    Fault("shop", "metadata: {name: shop-settings}", "metadata: {name: shop-setting}"),
    Fault("shop", "data: {currency: EUR, theme: plain}", "data: {curency: EUR, theme: plain}"),
    Fault("shop", "metadata: {name: shop-login}", "metadata: {name: shop-login, namespace: other}"),
    Fault("shop", "stringData: {password: secret}", "stringData: {passwort: secret}"),
    Fault("shop", "metadata: {name: pictures}", "metadata: {name: picture}"),
    Fault("shop", "selector: {matchLabels: {app: shop}}", "selector: {matchLabels: {app: shop, tier: back}}"),
    Fault("shop", "kind: Deployment", "kind: Deploymnt"),
    Fault("shop", "serviceAccountName: shop", "serviceAccountName: shopkeeper"),
    Fault("shop", "path: /ready, port: http", "path: /ready, port: htpp"),
    Fault("shop", "volumeMounts: [{name: pictures,", "volumeMounts: [{name: pitcures,"),
    Fault("shop", "claimName: pictures", "claimName: photos"),
    Fault("database", "metadata: {name: postgres-config}", "metadata: {name: postgres-conf}"),
    Fault("database", "metadata: {name: postgres-password}", "metadata: {name: pg-password}"),
    Fault("database", "{app: postgres}}\n  template:", "{app: postgresql}}\n  template:"),
    Fault("database", "tcpSocket: {port: sql}", "tcpSocket: {port: psql}"),
    Fault("database", "- metadata: {name: data}", "- metadata: {name: datas}"),
    Fault("database", "configMap: {name: postgres-config}", "configMap: {name: postgres-settings}"),
    Fault("database", "POSTGRES_PASSWORD, valueFrom: {secretKeyRef: {name: postgres-password, key: password}", "POSTGRES_PASSWORD, valueFrom: {secretKeyRef: {name: postgres-password, key: pass}"),
    Fault("database", "PGPASSWORD, valueFrom: {secretKeyRef: {name: postgres-password,", "PGPASSWORD, valueFrom: {secretKeyRef: {name: postgres-passwd,"),
    Fault("database", "kind: StatefulSet", "kind: StatefulSets"),
    Fault("database", "nc -z postgres 5432", "nc -z postgresql 5432"),
    Fault("nightly", "kind: ServiceAccount\nmetadata: {name: nightly}", "kind: ServiceAccount\nmetadata: {name: night}"),
    Fault("nightly", "metadata: {name: nightly-script}", "metadata: {name: nightly-scripts}"),
    Fault("nightly", 'data: {run.sh: "echo done"}', 'data: {run: "echo done"}'),
    Fault("nightly", "metadata: {name: nightly-target}", "metadata: {name: nightly-targets}"),
    Fault("nightly", "stringData: {bucket: backups, token: secret}", "stringData: {bucket: backups, tokn: secret}"),
    Fault("nightly", "serviceAccountName: nightly", "serviceAccountName: nightlies"),
    Fault("nightly", "secretRef: {name: nightly-target}", "secretRef: {name: target}"),
    Fault("nightly", "volumeMounts: [{name: scripts,", "volumeMounts: [{name: script,"),
    Fault("nightly", "kind: CronJob", "kind: Cronjob"),
    Fault("operator", "names: {kind: Cellar, plural", "names: {kind: Celler, plural"),
    Fault("operator", "group: wine.example.org\n", "group: wines.example.org\n"),
    Fault("operator", "apiVersion: wine.example.org/v1\nkind: Cellar\nmetadata: {name: red}", "apiVersion: wine.example.org/v1alpha1\nkind: Cellar\nmetadata: {name: red}"),
    Fault("operator", "apiVersion: wine.example.org/v1\nkind: Cellar\nmetadata: {name: white}", "apiVersion: wine.example.org/v2\nkind: Cellar\nmetadata: {name: white}"),
    Fault("operator", "kind: Cellar\nmetadata: {name: white}", "kind: Cellars\nmetadata: {name: white}"),
    Fault("operator", "kind: ServiceAccount\nmetadata: {name: cellarer}", "kind: ServiceAccount\nmetadata: {name: cellarer, namespace: wine}"),
    Fault("operator", "port: health}}\n---", "port: healthz}}\n---"),
    Fault("gateway", "kind: Deployment\nmetadata: {name: pages}", "kind: Deployments\nmetadata: {name: pages}"),
    Fault("gateway", "selector: {matchLabels: {app: calls}}", "selector: {matchLabels: {app: call}}"),
    Fault("release", "metadata:\n  name: release-database", "metadata:\n  name: release-db"),
    Fault("release", 'name: release-database\n  annotations: {helm.sh/hook: "pre-install,pre-upgrade", helm.sh/hook-weight: "-5"}', 'name: release-database\n  annotations: {helm.sh/hook: "pre-install,pre-upgrade", helm.sh/hook-weight: "5"}'),
    Fault("release", 'name: release-migrate\n  annotations: {helm.sh/hook: "pre-install,pre-upgrade", helm.sh/hook-weight: "-5"}', "name: release-migrate"),
    Fault("release", "configMapRef: {name: release-app}", "configMapRef: {name: release-apps}"),
    Fault("release", "path: /, port: http", "path: /, port: web"),
    Fault("release", "stringData: {url: postgres://database}", "stringData: {uri: postgres://database}"),
    Fault("certificates", "secretName: mail-tls, dnsNames", "secretName: mail-cert, dnsNames"),
    Fault("certificates", "configMap: {name: mail}", "configMap: {name: post}"),
    Fault("secrets", "encryptedData: {key: AgB}", "encryptedData: {keys: AgB}"),
    Fault("secrets", "metadata: {name: session}", "metadata: {name: sessions}"),
    Fault("secrets", "data: [{secretKey: token,", "data: [{secretKey: tokens,"),
    Fault("waits", "args: [job, topics]", "args: [job, topic]"),
    Fault("waits", "serviceAccountName: worker", "serviceAccountName: workers"),
    Fault("webhook", "secret: {secretName: guard-tls}", "secret: {secretName: guard-cert}"),
)
# What comes up, and does half or nothing.
HALF = (
    Fault("shop", "spec:\n  selector: {app: shop}", "spec:\n  selector: {app: shops}"),
    Fault("shop", "port: 80, targetPort: http", "port: 80, targetPort: web"),
    Fault("shop", "secretName: shop-tls", "secretName: shop-cert"),
    Fault("shop", "service: {name: shop, port: {name: web}}", "service: {name: shops, port: {name: web}}"),
    Fault("shop", "service: {name: shop, port: {name: web}}", "service: {name: shop, port: {name: http}}"),
    Fault("database", "serviceName: postgres\n", "serviceName: database\n"),
    Fault("nightly", "kind: Role, name: nightly", "kind: Role, name: night"),
    Fault("nightly", "subjects: [{kind: ServiceAccount, name: nightly,", "subjects: [{kind: ServiceAccount, name: night,"),
    Fault("operator", "kind: ClusterRole, name: cellarer", "kind: ClusterRole, name: cellar"),
    Fault("operator", "subjects: [{kind: ServiceAccount, name: cellarer,", "subjects: [{kind: ServiceAccount, name: cellar,"),
    Fault("gateway", "certificateRefs: [{name: site-tls}]", "certificateRefs: [{name: site-cert}]"),
    Fault("gateway", "gatewayClassName: plain", "gatewayClassName: plane"),
    Fault("gateway", "metadata: {name: pages}\nspec:\n  parentRefs: [{name: site}]", "metadata: {name: pages}\nspec:\n  parentRefs: [{name: sites}]"),
    Fault("gateway", "backendRefs: [{name: pages, port: 80}]", "backendRefs: [{name: page, port: 80}]"),
    Fault("gateway", "backendRefs: [{name: calls, port: 8000}]", "backendRefs: [{name: calls, port: 80}]"),
    Fault("gateway", "port: 8000, targetPort: api", "port: 8000, targetPort: http"),
    Fault("certificates", "port: 25, targetPort: smtp", "port: 25, targetPort: mail"),
    Fault("secrets", "spec: {selector: {app: pay},", "spec: {selector: {app: payment},"),
    Fault("webhook", "spec: {selector: {app: guard}, ports: [{port: 443, targetPort: webhook}]}", "spec: {selector: {app: guard}, ports: [{port: 443, targetPort: hook}]}"),
)


def linted(name: str, text: str, folder: pathlib.Path) -> list[dict[str, Any]]:
    """What `lint` finds in the text of a set."""
    path = folder / f"{name}.yaml"
    path.write_text(text)
    given = [word for kind in GIVEN.get(name, ()) for word in ("--given", f"kind/{kind}")]
    words = [sys.executable, "-m", "metis_planner", "lint", "kubernetes", str(path), *given, "--format", "json"]
    done = subprocess.run(words, cwd=TOP, capture_output=True, text=True, check=False, env={**os.environ})
    expect(done.returncode in (0, 1) and done.stdout, f"{name}: {done.stderr}")
    found: list[dict[str, Any]] = json.loads(done.stdout)
    return found


def spoilt(fault: Fault) -> str:
    text = (SETS / f"{fault.into}.yaml").read_text()
    expect(text.count(fault.old) == 1, f"{fault.into}: it does not have this once: {fault.old}")
    return text.replace(fault.old, fault.new)


def told(faults: tuple[Fault, ...], levels: tuple[str, ...], folder: pathlib.Path) -> int:
    """How many of them are told on such a level; the others are listed."""
    count = 0
    for fault in faults:
        found = linted(fault.into, spoilt(fault), folder)
        if any(each["level"] in levels for each in found):
            count += 1
        else:
            print(f"  {fault.into}: {fault.new!r} is not told: {[each['message'] for each in found]}")
    return count


def main() -> int:
    with tempfile.TemporaryDirectory() as name:
        folder = pathlib.Path(name)
        for path in sorted(SETS.glob("*.yaml")):
            found = linted(path.stem, path.read_text(), folder)
            expect(not found, f"{path.stem}: a false alarm: {found}")
        errors = told(NEVER, ("error",), folder)
        print(f"{errors} of {len(NEVER)} that never come up, or are refused, are errors")
        lines = told(HALF, ("error", "warning"), folder)
        print(f"{lines} of {len(HALF)} that do half are warnings at least")
    return 0 if errors >= ERRORS and lines >= WARNINGS else 1


if __name__ == "__main__":
    sys.exit(main())
