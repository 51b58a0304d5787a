"""The keys of a Compose project, as the Compose specification has them: any other one is a slip that loses what it says."""

import difflib
import re
from collections.abc import Iterator, Mapping

from metis_planner.answers import Refused

# Whoever writes a project may add keys of this form anywhere; nobody reads them.
EXTENSION = "x-"
PROJECT = frozenset("version name include services models networks volumes secrets configs".split())
SERVICE = frozenset(
    "annotations attach build blkio_config cap_add cap_drop cgroup cgroup_parent command configs container_name cpu_count "
    "cpu_percent cpu_shares cpu_quota cpu_period cpu_rt_period cpu_rt_runtime cpus cpuset credential_spec depends_on deploy "
    "develop device_cgroup_rules devices dns dns_opt dns_search domainname entrypoint env_file environment expose extends "
    "external_links extra_hosts gpus group_add healthcheck hostname image init ipc isolation label_file labels links logging "
    "mac_address mem_limit mem_reservation mem_swappiness memswap_limit models network_mode networks oom_kill_disable "
    "oom_score_adj pid pids_limit platform ports post_start pre_stop privileged profiles provider pull_policy "
    "pull_refresh_after read_only restart runtime scale secrets security_opt shm_size stdin_open stop_grace_period "
    "stop_signal storage_opt sysctls tmpfs tty ulimits use_api_socket user userns_mode uts volumes volumes_from "
    "working_dir".split()
)
DEPENDENCE = frozenset("condition required restart".split())
VOLUME_OF_SERVICE = frozenset("type source target read_only consistency bind volume tmpfs image".split())
# The keys of what stands below a service, by the path of keys to it; `[]` is each entry of a list, `*` of a mapping.
BELOW_SERVICE: Mapping[str, frozenset[str]] = {
    "build": frozenset(
        "context dockerfile dockerfile_inline entitlements args ssh labels cache_from cache_to no_cache no_cache_filter "
        "additional_contexts network provenance sbom pull target shm_size extra_hosts isolation privileged secrets tags "
        "ulimits platforms".split()
    ),
    "depends_on.*": DEPENDENCE,
    "deploy": frozenset(
        "mode endpoint_mode replicas labels rollback_config update_config resources restart_policy placement".split()
    ),
    "deploy.restart_policy": frozenset("condition delay max_attempts window".split()),
    "deploy.resources": frozenset("limits reservations".split()),
    "deploy.placement": frozenset("constraints preferences max_replicas_per_node".split()),
    "healthcheck": frozenset("disable interval retries test timeout start_period start_interval".split()),
    "networks.*": frozenset(
        "aliases interface_name ipv4_address ipv6_address link_local_ips mac_address driver_opts gw_priority priority".split()
    ),
    "ports.[]": frozenset("name mode host_ip target published protocol app_protocol".split()),
    "volumes.[]": VOLUME_OF_SERVICE,
    "volumes.[].bind": frozenset("propagation create_host_path recursive selinux".split()),
    "volumes.[].volume": frozenset("labels nocopy subpath".split()),
    "volumes.[].tmpfs": frozenset("size mode".split()),
    "secrets.[]": frozenset("source target uid gid mode".split()),
    "configs.[]": frozenset("source target uid gid mode".split()),
}
# The keys of what a project defines by name.
OF_KIND: Mapping[str, frozenset[str]] = {
    "networks": frozenset(
        "name driver driver_opts ipam external internal enable_ipv4 enable_ipv6 attachable labels".split()
    ),
    "volumes": frozenset("name driver driver_opts external labels".split()),
    "secrets": frozenset("name environment file external labels driver driver_opts template_driver".split()),
    "configs": frozenset("name content environment file external labels template_driver".split()),
}
# A name of a service, a network, a volume, a secret or a configuration; that of a project; that of a container.
NAME = re.compile(r"[A-Za-z0-9._-]+")
PROJECT_NAME = re.compile(r"[a-z0-9][a-z0-9_-]*")
CONTAINER_NAME = re.compile(r"[A-Za-z0-9][A-Za-z0-9_.-]*")
# What an external network or volume may have besides.
OF_EXTERNAL = frozenset(("external", "name"))
CLOSE = 0.75


def check_project_keys(told: Mapping[str, object], where: str) -> None:
    """Refuses keys and names of a project that are none; what stands below its services is looked at one by one."""
    check_keys(told, PROJECT, where)
    for kind in ("services", *OF_KIND):
        table = told.get(kind)
        for each in table if isinstance(table, Mapping) else ():
            if not NAME.fullmatch(str(each)):
                raise Refused(f"{where}: no name of a {kind[:-1]}, which has letters, digits, ., - and _: {each}")
    for kind, known in OF_KIND.items():
        table = told.get(kind)
        for each, entry in table.items() if isinstance(table, Mapping) else ():
            if isinstance(entry, Mapping):
                check_keys(entry, known, f"{kind[:-1]} {each}")


def check_service_keys(told: Mapping[str, object], where: str) -> None:
    """Refuses keys of a service, and of what stands below it, that Compose does not have."""
    check_keys(told, SERVICE, where)
    for path, known in BELOW_SERVICE.items():
        for place, entry in entries_at(told, path.split(".")):
            check_keys(entry, known, ", ".join((where, *place)))


def entries_at(told: object, path: list[str]) -> Iterator[tuple[tuple[str, ...], Mapping[str, object]]]:
    """The mappings at the end of a path, each with the words that say where it stands."""
    if not path:
        if isinstance(told, Mapping):
            yield (), told
        return
    first, *rest = path
    if first == "[]":
        for each in told if isinstance(told, list) else ():
            yield from entries_at(each, rest)
    elif first == "*":
        for key, each in told.items() if isinstance(told, Mapping) else ():
            yield from (((str(key), *place), entry) for place, entry in entries_at(each, rest))
    elif isinstance(told, Mapping) and first in told:
        yield from (((first, *place), entry) for place, entry in entries_at(told[first], rest))


def check_keys(told: Mapping[str, object], known: frozenset[str], where: str) -> None:
    for key in told:
        if key not in known and not str(key).startswith(EXTENSION):
            near = difflib.get_close_matches(str(key)[:60], known, 1, CLOSE)
            hint = f"; did you mean '{near[0]}'?" if near else ""
            raise Refused(f"{where}: Compose has no key '{key}' here{hint}")
