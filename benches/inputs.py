"""The inputs of the benchmark: policies and traces, the same ones each time."""
import math, random, re
from dataclasses import dataclass, field
from ipaddress import ip_address, ip_network

COMMANDS = ["decorrelate", "judge", "replay", "narrow", "audit", "check"]
PLAIN_COMMANDS = [command for command in COMMANDS if command != "replay"]
MOST = 200_000  # The greatest LIMIT.
MOST_CERTIFICATE = 1_073_741_824
PACKETS = 1_000_000
EDIT_EACH = 10_000  # Packets from one edit to the next.
ANY = ["any"]


@dataclass
class Input:
    """What one run is given: a command, its numbers, a policy, and what else it reads."""
    name: str
    command: str
    policy: object  # A function from the size, where there is one, to the lines.
    size: int = None
    numbers: tuple = ()  # The words between the command and its files.
    trace: object = None  # A function from the lines to the text.
    proposal: object = None  # A function without parameters to the text.
    peer: object = None  # A function from the lines to those of the other gateway.
    into_pipe: bool = False  # Standard output is a pipe and not a file.
    is_quick: bool = False  # Belongs to the quick subset.

    def files(self):
        """The files that the command reads, in the order of its words: their names and texts."""
        lines = self.policy() if self.size is None else self.policy(self.size)
        made = {"policy.toml": policy_text(lines)}
        if self.peer:
            made["peer.toml"] = policy_text(self.peer(lines))
        if self.trace:
            made["trace.txt"] = self.trace(lines)
        if self.proposal:
            made["proposal.txt"] = self.proposal()
        return made

    def about(self):
        """The first sentences of the functions that make it."""
        makers = [self.policy, self.peer, self.trace, self.proposal]
        makers = [maker for maker in makers if maker]
        return " ".join(" ".join(maker.__doc__.split()) for maker in makers)


@dataclass
class Line:
    name: str
    local: list = field(default_factory=lambda: ANY)
    remote: list = field(default_factory=lambda: ANY)
    protocol: int = None
    local_port: list = field(default_factory=lambda: ANY)
    remote_port: list = field(default_factory=lambda: ANY)
    rest: str = 'action = "bypass"'  # The rows of the other keys.

    def mirrored(self):
        """The line as the gateway at the other end of its packets has it."""
        other = {"local": "remote", "remote": "local"}
        rest = re.sub("local|remote", lambda side: other[side[0]], self.rest)
        return Line(self.name, self.remote, self.local, self.protocol, self.remote_port,
                    self.local_port, rest)

    def text(self):
        rows = ["", "[[line]]", f'name = "{self.name}"']
        if self.protocol is not None:
            rows.append(f"protocol = {self.protocol}")
        for key in "local", "remote", "local_port", "remote_port":
            items = getattr(self, key)
            texts = [f'"{item}"' for item in items]
            if items != ANY:
                rows.append(f"{key} = " + (texts[0] if len(items) == 1 else f"[{','.join(texts)}]"))
        return "\n".join(rows + [self.rest, ""])


def policy_text(lines):
    return "format = 1\n" + "".join(line.text() for line in lines)


TRANSPORT = 'action = "protect"\nipsec = "esp"\nmode = "transport"'
ACTIONS = ['action = "discard"', 'action = "bypass"', TRANSPORT]


# Policies.

def sites(count):
    """Each line one local and one remote network."""
    return [Line(f"site{i}", [f"10.{i // 256}.{i % 256}.0/24"],
                 [f"172.{16 + i // 256}.{i % 256}.0/24"], 6, rest=ACTIONS[i % 3])
            for i in range(count)]


def overlapping(count, locals_of=2, remotes_of=1):
    """Prefixes of 16 to 24 bits and ports that overlap."""
    seed = 7.0

    def draw(most):
        nonlocal seed
        seed = math.fmod(seed * 1103515245.0 + 12345.0, 2147483648.0)
        return int(seed / 65536) % most

    lines = []
    for i in range(count):
        action = ACTIONS[draw(3)]
        local = f"10.{draw(locals_of)}.{draw(256)}.0/{16 + draw(9)}"
        network = 16 + (draw(remotes_of) if remotes_of > 1 else 0)
        remote = f"172.{network}.{draw(256)}.0/{16 + draw(9)}"
        first = draw(2000)
        ports = f"{first}-{first + draw(2000)}"
        lines.append(Line(f"line{i}", [local], [remote], 6, remote_port=[ports], rest=action))
    return lines


def crossing(count):
    """Prefixes and ports that overlap over more networks, so that fewer cover others."""
    return overlapping(count, 16, 8)


def both_families(count):
    """Lines of both families by turns, with a network each, and lists and flags."""
    flagged = TRANSPORT + '\npfp = ["remote", "remote_port"]'
    lines = []
    for i in range(count):
        if i % 2:
            local = f"2001:db8:{i:x}::/48"
            remote = ["2001:db8:f000::/48", "2001:db8:f001::/48"]
        else:
            local = f"10.{i // 256}.{i % 256}.0/24"
            remote = ["192.0.2.0/24", "198.51.100.0-198.51.100.99"]
        lines.append(Line(f"branch{i}", [local], remote, 6, remote_port=["80", "443", "8000-8999"],
                          rest='action = "bypass"\ndirection = "both"' if i % 4 < 2 else flagged))
    return lines


def offices(count):
    """Lists of several networks and ports a line."""
    draw = random.Random(11)
    services = ["22", "25", "53", "80", "123", "443", "5060-5061", "8000-8999"]
    lines = []
    for i in range(count):
        own = [f"10.{i // 256}.{i % 256}.0/25", f"192.168.{i % 256}.0/24"]
        shared = [f"172.{16 + part // 16}.{part % 16 * 16}.0/20"
                  for part in draw.sample(range(64), 2)]
        line = Line(f"office{i}", own[:draw.randint(1, 2)], shared[:draw.randint(1, 2)])
        line.protocol = draw.choice([6, 17])
        line.remote_port = draw.sample(services, draw.randint(1, 3))
        line.rest = ACTIONS[draw.randrange(3)]
        lines.append(line)
    return lines


def shared(count):
    """Each line a network of its own, and three remote networks of 10 to 24 bits that overlap."""
    draw = random.Random(5)

    def network():
        second, third = draw.randrange(16), draw.randrange(256)
        return f"172.{16 + second}.{third}.0/{draw.randint(10, 24)}"

    return [Line(f"office{i}", [f"10.{i // 256}.{i % 256}.0/24"], [network() for _ in range(3)],
                 draw.choice([6, 17]), remote_port=[draw.choice(["22", "25", "53", "80", "443"])],
                 rest=ACTIONS[i % 3])
            for i in range(count)]


def hub():
    """A tunnel to each of 256 branches, with three remote prefixes each."""
    tunnel = ('action = "protect"\nipsec = "esp"\nmode = "tunnel"\n'
              'gate_local = "198.51.100.1"\ngate_remote = "203.0.113.%d"')
    return [Line(f"branch{i}", ["10.200.0.0/16"],
                 [f"10.{i}.0.0/24", f"172.16.{i}.0/24", f"192.168.{i}.0/24"], rest=tunnel % i)
            for i in range(256)]


def apart(first, base):
    """64 addresses of which no two are neighbours."""
    return [f"{base}.{2 * i // 256}.{2 * i % 256}" for i in range(first + 1, first + 65)]


def disjoint(lines, protocol=None):
    """Lines of 64 by 64 addresses, so 4,096 boxes each, without overlaps."""
    remote = apart(0, "172.16")
    return [Line(f"grid{i}", apart(64 * i, "10.0"), remote, protocol) for i in range(lines)]


def grids(lines):
    """Lines of 64 by 64 addresses without overlaps, and TCP alone."""
    return disjoint(lines, 6)


def shadowed(lines):
    """A line that takes all, and lines of 4,096 boxes behind it."""
    items = [str(number) for number in range(1, 9)]
    addresses = [f"10.0.0.{item}" for item in items]
    return [Line("all")] + [Line(f"grid{i}", addresses, addresses, 6, items, items)
                            for i in range(lines)]


def unreal(lines):
    """Lines of 4,096 boxes that no packet has, since ICMP shows one field alone."""
    items = [f"{kind}/1" for kind in range(64)]
    return [Line(f"grid{i}", [f"10.0.{i}.0/24"], ["10.1.0.0/16"], 1, items, items)
            for i in range(lines)]


def item_lists():
    """42 lines with 4,096 IPv6 items each, a policy of nearly the most bytes."""
    items = [f"::{digit:x}" for digit in range(16)] + [f"{digit:x}::" for digit in range(1, 16)]
    return [Line(f"list{i}", [items[(i + place) % 31] for place in range(4096)], ["2001:db8::/32"])
            for i in range(42)]


def protected(count):
    """Each line protects TCP between one local and one remote network."""
    lines = sites(count)
    for line in lines:
        line.rest = TRANSPORT
    return lines


def holes(count):
    """A line that protects all but so many grids of 64 by 64 addresses."""
    lines = disjoint(count)
    for line in lines:
        line.rest = 'action = "discard"'
    return lines + [Line("all", rest=TRANSPORT)]


# Policies of the other gateway.

def mirror(lines):
    """Its mirror."""
    return [line.mirrored() for line in lines]


def other_mirror(lines):
    """Its mirror, but for the action of the first line."""
    made = mirror(lines)
    made[0].rest = next(action for action in ACTIONS if action != made[0].rest)
    return made


# Traces.

def packet_row(direction, local, remote, protocol, local_field, remote_field):
    if direction == "out":
        return f"pkt out {local} {remote} {protocol} {local_field} {remote_field}\n"
    return f"pkt in {remote} {local} {protocol} {remote_field} {local_field}\n"


def no_packets(lines):
    """No packets."""
    return ""


def falls_evenly(lines, packets=PACKETS):
    """Packets that fall evenly on the lines and on none, in both directions."""
    draw = random.Random(13)
    places = len(lines) + len(lines) // 10
    rows = [[[packet_row(way, *sample(draw, lines[place] if place < len(lines) else None))
              for way in ("out", "out", "in")] for _ in range(16)] for place in range(places)]
    return "".join(rows[i * 7919 % places][i // 3 % 16][i % 3] for i in range(packets))


def sample(draw, line):
    """The values of a packet that a line selects, or that no line does."""
    if line is None:
        return f"100.64.0.{draw.randrange(256)}", f"100.65.0.{draw.randrange(256)}", 6, 1024, 443
    ends = [ends_of(draw.choice(items)) for items in (line.local, line.remote)]
    if ends[0][0].version != ends[1][0].version:
        raise ValueError(line.name)
    local, remote = (type(low)(draw.randint(int(low), int(high))) for low, high in ends)
    fields = []
    for items in line.local_port, line.remote_port:
        first, _, last = draw.choice(items).partition("-")
        fields.append(draw.randint(1024, 65535) if first == "any"
                      else draw.randint(int(first), int(last or first)))
    return local, remote, 6 if line.protocol is None else line.protocol, *fields


def ends_of(item):
    if "-" in item:
        return [ip_address(end) for end in item.split("-")]
    network = ip_network(item, strict=False)
    return network[0], network[-1]


def falls_on_branches(lines):
    """Packets that fall evenly on the lines and on none, hosts and ports by turns."""
    ports = [80, 443, 8080, 22]
    rows = []
    for i in range(PACKETS):
        branch, host = i * 7919 % (len(lines) + len(lines) // 10), i % 100
        if branch % 2:
            near, far = f"2001:db8:{branch:x}::{host:x}", f"2001:db8:f000::{host:x}"
        else:
            near, far = f"10.{branch // 256}.{branch % 256}.{host}", f"198.51.100.{host}"
        way = "out" if i % 3 else "in"
        rows.append(packet_row(way, near, far, 6, 1024 + i % 60000, ports[i % 4]))
    return "".join(rows)


def falls_on_none(lines):
    """Ten thousand packets of IPv6 that no line selects."""
    return "".join(packet_row("out", f"2001:db8::{i:x}", "2001:db8::1", 6, 1024, 443)
                   for i in range(10_000))


def flows(count, has_edits=False):
    """What makes a trace of so many flows, outbound and inbound, the few first of which have most
    of the packets; with an edit each so many packets, or with none."""
    def trace(lines):
        draw = random.Random(17)
        rows = [packet_row(draw.choice(("out", "in")), *sample(draw, lines[i * 7919 % len(lines)]))
                for i in range(count)]
        weights = [1 / (i + 1) for i in range(count)]
        packets = draw.choices(rows, weights, k=PACKETS)
        if not has_edits:
            return "".join(packets)
        edits = ['insert 1 { name = "guest", action = "discard", local = "100.64.0.9" }\n',
                 "delete guest\n"]
        return "".join("".join(packets[i:i + EDIT_EACH]) + edits[i // EDIT_EACH % 2]
                       for i in range(0, PACKETS, EDIT_EACH))

    trace.__doc__ = f"{count:,} flows{' and edits' if has_edits else ''}."
    return trace


# Proposals.

def offer(count, remote, local):
    """What makes a proposal of so many selectors a side, which part two networks evenly."""
    def payload(following, network):
        network = ip_network(network)
        first, hosts = int(network[0]), network.num_addresses
        ends = [first + hosts * i // count for i in range(count + 1)]
        selectors = "".join(f"07000010{0:04x}{65535:04x}{low:08x}{high - 1:08x}"
                            for low, high in zip(ends, ends[1:]))
        return f"{following:02x}00{8 + 16 * count:04x}{count:02x}000000{selectors}\n"

    def proposal():
        return payload(45, remote) + payload(0, local)

    proposal.__doc__ = f"{count} by {count} selectors."
    return proposal


# All inputs.

FAMILIES = {"sites": sites, "overlapping": overlapping, "families": both_families,
            "offices": offices}
COUNTS = [100, 1000, 4096]


def inputs():
    """The inputs of all commands, in the order of the table."""
    return (decorrelate_inputs() + judge_inputs() + replay_inputs() + narrow_inputs()
            + audit_inputs() + check_inputs())


def decorrelate_inputs():
    made = []

    def add(name, policy, sizes, limit=MOST, quick=None):
        for size in sizes:
            made.append(Input(f"{name}-{size}", "decorrelate", policy, size, (limit,),
                              is_quick=size == quick))

    for name, policy in FAMILIES.items():
        add(name, policy, COUNTS, quick=1000)
    add("crossing", crossing, COUNTS)
    made.append(Input("hub", "decorrelate", hub, None, (MOST,), is_quick=True))
    add("disjoint", disjoint, [2, 16], quick=2)
    add("grids", grids, [1, 2, 4, 6], quick=1)
    add("shadowed", shadowed, [16, 64, 256], 3, quick=16)
    add("unreal", unreal, [1, 2, 4, 8, 16], 2, quick=1)
    # A limit that is passed in the middle of the policy.
    made.append(Input("limit", "decorrelate", overlapping, 1000, (1700,), is_quick=True))
    return made


def judge_inputs():
    made = []
    for name, policy in FAMILIES.items():
        trace = falls_on_branches if policy is both_families else falls_evenly
        for count in COUNTS:
            made.append(Input(f"judge-{name}-{count}", "judge", policy, count, trace=trace,
                              is_quick=count == 100))
    made.append(Input("judge-hub", "judge", hub, trace=falls_evenly))
    made.append(Input("judge-pipe", "judge", both_families, 100, trace=falls_on_branches,
                      into_pipe=True, is_quick=True))
    made.append(Input("judge-nothing", "judge", both_families, 4096, trace=no_packets,
                      is_quick=True))
    made.append(Input("judge-lists", "judge", item_lists, trace=falls_on_none))
    return made


def replay_inputs():
    made = []
    for name, policy, size in ("hub", hub, None), ("sites", sites, 1000):
        for count, cache in (64, 64), (1000, 64), (1000, 4096), (10_000, 64), (10_000, 4096):
            for edits in "", "-edits":
                made.append(Input(f"replay-{name}-{count}-{cache}{edits}", "replay", policy, size,
                                  (10_000 + 10_000 * (size is not None), cache),
                                  trace=flows(count, bool(edits)), is_quick=count == 64))
    return made


def narrow_inputs():
    """Policies of some 100 and 10,000 entries a direction, whose first line protects a part of the
    proposal, or whose last one all of it."""
    made = []
    for name, policy, sizes, remote, local in (
            ("protected", protected, (20, 2000), "172.16.0.0/12", "10.0.0.0/12"),
            ("holes", holes, (1,), "192.0.0.0/8", "198.0.0.0/8")):
        for size in sizes:
            for count in 1, 16, 127:
                made.append(Input(f"narrow-{name}-{size}-{count}", "narrow", policy, size, (MOST,),
                                  proposal=offer(count, remote, local), is_quick=count == 16))
    return made


PAIRS = [(f"{name}-{count}", policy, count) for name, policy in FAMILIES.items()
         for count in (COUNTS if policy is not offices else COUNTS[:2])]
PAIRS += [("hub", hub, None), ("shared-100", shared, 100), ("shared-300", shared, 300)]


def audit_inputs():
    return [Input(f"audit-{name}{kind}", "audit", policy, size, (MOST,), peer=peer,
                  is_quick=size in (None, 100))
            for name, policy, size in PAIRS
            for kind, peer in (("", mirror), ("-differs", other_mirror))]


def check_inputs():
    return [Input(f"check-{name}", "check", policy, size, (MOST_CERTIFICATE,), peer=mirror,
                  is_quick=size in (None, 100))
            for name, policy, size in PAIRS]
