"""A network of a script's own, with nothing but 127.0.0.1, in which nftables cuts sites from each other and loses datagrams. It ends with the script."""
import itertools
import os
import shutil
import subprocess
import sys

OWN = 'mkdir -p /run/netns && mount -t tmpfs none /run/netns && ip link set lo up && exec "$@"'  # namespaces that it names are its own too


def enter():
    """Starts the script anew in a network of its own, unless it is there already. Without root, iproute2, nftables or unshare it is skipped with a word."""
    if os.geteuid() or not all(map(shutil.which, ("ip", "nft", "unshare", "sysctl"))):
        print("skipped: it needs root, iproute2, nftables and unshare")
        sys.exit(0)
    if os.environ.get("VP_NETWORK") != sys.argv[0]:
        words = ["unshare", "--net", "--mount", "sh", "-c", OWN, "sh", sys.executable, *sys.argv]
        os.execvpe("unshare", words, {**os.environ, "VP_NETWORK": sys.argv[0]})


def give(rules):
    subprocess.run(["nft", "-f", "-"], input=rules, text=True, check=True)


def table(name, lines):
    """A table that looks at what comes in, so that no sender is told anything."""
    return "\n".join([f"table ip {name} {{", "chain taken {", "type filter hook input priority 0", *lines, "}", "}", ""])


def cut(ports, some, others, is_one_way=False):
    """Nothing comes through any more between these sites, as on a cable that is cut; or only from the first ones to the others."""
    pairs = [f"{ports[at]} . {ports[of]}" for one, other in itertools.product(some, others) for at, of in ((one, other), (other, one))[: 2 - is_one_way]]
    give(table("cut", [f"udp sport . udp dport {{ {', '.join(pairs)} }} drop"]))


def join():
    """What `cut` cut is joined again."""
    give("table ip cut\ndelete table ip cut\n")


def dropped(ports):
    """How many datagrams the sockets of these sites had no room for so far."""
    with open("/proc/net/udp", encoding="ascii") as lines:
        rows = [line.split() for line in lines][1:]
    return sum(int(row[-1]) for row in rows if int(row[1].split(":")[1], 16) in ports.values())


def lose(ports, per_thousand):
    """Of the datagrams between sites and others, such as calls and their answers, so many in a thousand are lost from now on."""
    sites, some = ", ".join(map(str, ports.values())), f"numgen random mod 1000 < {per_thousand} drop"
    give("table ip lossy\ndelete table ip lossy\n")
    if per_thousand:
        give(table("lossy", [f"udp sport {{ {sites} }} udp dport != {{ {sites} }} {some}", f"udp dport {{ {sites} }} udp sport != {{ {sites} }} {some}"]))
