"""Hosts of logs that the hosts file does not have, and what to do about them."""

from collections.abc import Iterable, Mapping

SHOWN = 3


def folded(host: str) -> bytes:
    """Returns a host's name as the program compares it: with small letters of ASCII."""
    return host.encode("utf-8", "surrogateescape").lower()


def domain_of(hosts: Iterable[str]) -> str:
    """Returns the one domain that all hosts are in, by the text behind the first dot; empty if there is none."""
    domains = {folded(host).partition(b".")[2] for host in hosts}
    return domains.pop().decode("utf-8", "surrogateescape") if len(domains) == 1 else ""


def warning(requests: Mapping[str, int], hosts: Iterable[str]) -> str:
    """Returns how many requests name a host that is not among these, and what helps; empty if none does."""
    known = list(hosts)
    named = {folded(host) for host in known}
    missing = [host for host in requests if folded(host) not in named]
    if not missing:
        return ""
    total = sum(requests[host] for host in missing)
    shown = ", ".join(missing[:SHOWN]) + (f" and {len(missing) - SHOWN} more" if len(missing) > SHOWN else "")
    advice = _advice(any("." not in host for host in missing), domain_of(known))
    return f"{total} requests are not judged, since hosts.csv does not have their hosts: {shown}; {advice}"


def _advice(short: bool, domain: str) -> str:
    """Returns what to do, by whether a missing host has a short name, and by the one domain of the hosts that are there."""
    named = "name them by --host-map"
    if not short:
        return f"{named}, or add them to hosts.csv"
    if domain:
        return f"all hosts of hosts.csv are in one domain: say --domain {domain}, or {named}"
    return f"name their domain by --domain, or {named}"
