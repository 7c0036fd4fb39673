"""What holds of a network after every act (network_defs: LabelRule; label_defs: Settled; edge_defs: Flows)."""

from .base import covers
from .labels import Leaving, Mapped, Resting, has_tree, is_ready, same_fec, trees, use_of
from .nodes import core_at, part_of, place_of
from .octets import Withdraw
from .place import EdgeData, label_place, lsp_opaque
from .sessions import Direction, front_of
from .reading import cut
from .history import vpns_of_site
from .scenario import sessions


def part_at(world, node):
    return part_of(world.network.state.node[node])


# ---- the label rule

def is_tunnel_for(world, number, fec):
    """The FEC is a tunnel of the VPN of the datagram's site."""
    scenario, sent = world.network.state.scenario, world.datagrams[number - 1]
    vpns = vpns_of_site(scenario, sent.site)
    lsp_number = int.from_bytes(bytes(fec.opaque[3:]), 'big')
    return fec.kind == 'p2mp' and fec.opaque == lsp_opaque(lsp_number) and any(
        frozenset(vrf.targets) in vpns and scenario.nodes[vrf.edge].addr == fec.root and vrf.number == lsp_number // 1048576 for vrf in scenario.vrfs)


def is_covered(world, u, n, copy):
    life, part = world.network.state.scenario.life, part_at(world, n)
    end, usage = part.ends.get(u), use_of(part, copy.label)
    if end is None or (copy.put_at <= end.raised and not end.held):
        return True
    match usage:
        case Mapped(fec, upstream):
            return upstream == u and is_tunnel_for(world, copy.number, fec)
        case Leaving(_, upstream):
            return upstream == u
        case Resting(until):
            return copy.put_at + life + 1 <= until
    return False


def in_transit(world, over):
    """The messages in what the receiver's stream holds back and what is in transit after it."""
    return cut(front_of(over.kind), world.network.stream[over].held + world.network.transit[over])[0]


def is_branch_held(world, u, branch):
    n, over = branch.node, Direction('ldp', branch.node, u)
    usage = use_of(part_at(world, n), branch.label)
    is_held = isinstance(usage, (Mapped, Leaving)) and same_fec(usage.fec, branch.fec) and usage.upstream == u
    if part_at(world, u).ends.get(n) is None:
        return False
    if not world.network.joined[over]:
        return part_at(world, n).ends.get(u) is None or is_held
    return is_held and (isinstance(usage, Mapped) or Withdraw(branch.fec, branch.label) in in_transit(world, over))


def label_rule_faults(world):
    state = world.network.state
    for (u, n), copies in world.copies.items():
        for copy in copies:
            if not (copy.put_at <= state.clock <= copy.put_at + state.scenario.life and 1 <= copy.ttl <= 255 and is_covered(world, u, n, copy)):
                yield ('copy', u, n, copy)
    for u in range(len(state.scenario.nodes)):
        for branch in part_at(world, u).branches.items:
            if not is_branch_held(world, u, branch):
                yield ('branch', u, branch)


# ---- settled trees

def settled_faults(world):
    """Each node on a tree holds exactly one binding for it, towards the root by the costs that it has acted on."""
    state = world.network.state
    for n in range(len(state.scenario.nodes)):
        part, place = part_of(state.node[n]), label_place(state.scenario, core_at(state, n), n)
        for fec in trees(part) + part.waiting.items:
            bound = [usage.upstream for usage in part.labels if isinstance(usage, Mapped) and same_fec(usage.fec, fec)]
            upstream, waits = place.upstream(fec), part.waiting.contains(fec)
            on_tree = has_tree(part, fec) and upstream is not None
            wanted = [upstream] if on_tree and is_ready(part, upstream) else []
            if bound != wanted or waits != (on_tree and not is_ready(part, upstream)):
                yield ('unsettled', n, fec, bound, waits)


# ---- streams, costs, limits

def stream_faults(world):
    for over, stream in world.network.stream.items():
        if world.network.joined[over] and (stream.fault is not None or stream.waiting):
            yield ('stream', over, stream.fault)


def session_faults(world):
    """Both directions of a session are joined alike, and the ends of a joined one are up."""
    from .world import is_up
    for one in sessions(world.network.state.scenario):
        ways = {world.network.joined[Direction(one.kind, one.a, one.b)], world.network.joined[Direction(one.kind, one.b, one.a)]}
        ups = is_up(world, one.kind, one.a, one.b) and is_up(world, one.kind, one.b, one.a)
        if len(ways) > 1 or (True in ways and not ups):
            yield ('session', one)


def limit_faults(world):
    for n, node in enumerate(world.network.state.node):
        if isinstance(node, EdgeData):
            control = node.control
            if len(control.entries) > 1024 or len(control.notes) > 256 or len(control.selections) > 256:
                yield ('limits', n)


def cost_faults(world):
    """Outside the acts of `cost` each node has acted on the present costs."""
    state = world.network.state
    return [('costs', n) for n, known in enumerate(state.known) if known != state.links]


def rule_faults(world):
    """What is wrong after an act, the first of two acts of a raise aside."""
    return [*label_rule_faults(world), *settled_faults(world), *stream_faults(world), *session_faults(world), *limit_faults(world)]
