"""One edge and any octets of one BGP peer (probe_defs: Lines, Probed; probe_text): the table of the whole messages before the first
fault of the octets, what the VRFs of the edge take of it, and the tunnels that the edge wants, by the definitions and without a step
of an edge."""

from dataclasses import dataclass, replace

from . import octets as forms
from .base import FinMap, V4, to_be_bytes
from .lines import TextFault, lines_of, tried
from .pim import IfaceEntry, applied, entry_key, iface_addr, join_of
from .place import EdgePlace, TakenRoute, Value, key_parts, no_control, own_vrfs
from .flows import flows_at
from .labels import fec_key, node_key
from .routes import is_admitted
from .scenario import core_of, edge_of
from .script import Draft, Source, same_family
from .tunnels import leaves
from .updates import Inter, Leaf, OtherRoute, SharedJoin, messages_in

JOIN_LIMIT = 1024

# ---- the text


@dataclass(frozen=True)
class Probe:
    scenario: object
    edge: int
    peer: int
    joins: tuple
    octets: tuple


def first_word(line):
    """The first word of a line, whatever its octets are; none of a comment."""
    return '' if line.startswith('#') else line.lstrip(' ').partition(' ')[0]


def declared(rows):
    """What the lines of the scenario declare, up to a line `events`, which is none of them."""
    draft = Draft()
    for number, row in enumerate(rows, 1):
        line = tried(number, row)
        if line is not None:
            line.must(line.word(0) != 'events', 0, 'word')
            draft.declare(line)
    return draft


def ends_of(draft, line):
    line.counted(2)
    edge, peer = draft.edge_named(line, 1), draft.edge_named(line, 2)
    line.must(edge != peer, 2, 'self')
    return edge, peer


def join_in(draft, edge, line):
    line.counted(3)
    iface = draft.named(line, 1, draft.ifaces)
    line.must(edge_of(draft, iface) == edge, 1, 'unknown')
    source, group = line.source(2), line.group(3)
    line.must(same_family(draft.ifaces[iface].addr, source, group), 3, 'family')
    return IfaceEntry(iface, Source(source, group))


def read(octets):
    """What the text says. Raises its first TextFault."""
    rows = lines_of(octets)
    at = next((place for place, row in enumerate(rows) if first_word(row) == 'probe'), None)
    if at is None:
        raise TextFault(len(rows) + 1, 1, 'probe')
    draft = declared(rows[:at])
    if draft.is_apart():
        raise TextFault(at + 1, 1, 'apart')
    edge, peer = ends_of(draft, tried(at + 1, rows[at]))
    joins, pieces = (), []
    for number, row in enumerate(rows[at + 1:], at + 2):
        line = tried(number, row)
        if line is None:
            continue
        line.must(line.word(0) in ('join', 'piece'), 0, 'word')
        if line.word(0) == 'join':
            line.must(len(joins) < JOIN_LIMIT, 0, 'limit')
            joins += (join_in(draft, edge, line),)
        else:
            line.counted(1)
            pieces.append(line.payload(1))
    return Probe(draft.scenario(), edge, peer, joins, tuple(octet for piece in pieces for octet in piece))


# ---- the table, and what is reported of it

def table_of(messages):
    """Of each key that was announced and not withdrawn since, what was said last."""
    table = {}
    for message in messages:
        if isinstance(message, forms.Update):
            for key in message.unreach:
                table.pop(key, None)
            for advert in message.reach:
                table[advert.key] = Value(advert.next_hop, advert.comms, advert.pmsi)
    return table


def leaf_key(key):
    if isinstance(key, Inter):
        return (2, 12) + key.rd + to_be_bytes(4, key.source_as)
    return forms.route_written(key)


def written(route):
    """The octets of any route, as they are written."""
    match route:
        case Inter():
            return leaf_key(route)
        case Leaf(key, originator):
            fields = leaf_key(key) + originator.octets
            return (4, len(fields)) + fields
        case SharedJoin(rd, source_as, source, group):
            return (6,) + forms.route_written(forms.SourceJoin(rd, source_as, source, group))[1:]
        case OtherRoute(kind, octets):
            return (kind, len(octets)) + octets
    return forms.route_written(route)


def order(key):
    """By what keys are ordered: unicast keys first, AFI 1 before AFI 2, and then the octets that spell them."""
    if isinstance(key, forms.Unicast):
        return (0, forms.afi_of(key.prefix.addr), forms.vpn_text((), key.rd, key.prefix))
    return (1, key.afi, written(key.route))


def admitted(vrf, table):
    return sorted((key for key, value in table.items() if is_admitted(vrf, value.comms)), key=order)


def is_used(key):
    return isinstance(key, forms.Unicast) or isinstance(key.route, (forms.Intra, forms.Selective, forms.Active, forms.SourceJoin))


def entries_of(scenario, joins):
    entries = FinMap(entry_key)
    for at in joins:
        entries = applied(entries, at.iface, join_of(iface_addr(scenario, at.iface), at.entry), 0)
    return entries


def wants(place, peer, table, joins):
    """The tunnels of which an edge is a leaf that has taken this table from the peer and nothing else, at clock 0."""
    taken = FinMap(key_parts)
    for key, value in table.items():
        if is_used(key):
            taken = taken.insert(key, TakenRoute(value, 0, False))
    kept = replace(no_control(), entries=entries_of(place.scenario, joins), peers=FinMap(node_key).insert(peer, taken))
    return sorted(leaves(place, replace(kept, flows=flows_at(place, 0, kept))).items, key=fec_key)


# ---- its lines

def addr_text(addr):
    if isinstance(addr, V4):
        return '.'.join(str(octet) for octet in addr.octets)
    return ':'.join(f'{addr.octets[at]:02x}{addr.octets[at + 1]:02x}' for at in range(0, 16, 2))


def word_text(addr):
    return '*' if addr is None else addr_text(addr)


def hex_text(octets):
    return bytes(octets).hex() or '-'


def route_text(route):
    match route:
        case forms.Intra(rd, originator):
            return f'intra {hex_text(rd)} {addr_text(originator)}'
        case Inter(rd, source_as):
            return f'inter {hex_text(rd)} {source_as}'
        case forms.Selective(rd, source, group, originator):
            return f'selective {hex_text(rd)} {word_text(source)} {word_text(group)} {addr_text(originator)}'
        case Leaf(key, originator):
            return f'leaf {addr_text(originator)} {route_text(key)}'
        case forms.Active(rd, source, group):
            return f'active {hex_text(rd)} {addr_text(source)} {addr_text(group)}'
        case SharedJoin(rd, source_as, source, group):
            return f'shared {hex_text(rd)} {source_as} {addr_text(source)} {addr_text(group)}'
        case forms.SourceJoin(rd, source_as, source, group):
            return f'source {hex_text(rd)} {source_as} {addr_text(source)} {addr_text(group)}'
        case OtherRoute(kind, octets):
            return f'other {kind} {hex_text(octets)}'


def key_text(key):
    if isinstance(key, forms.Unicast):
        return f'unicast {hex_text(key.rd)} {addr_text(key.prefix.addr)}/{key.prefix.bits}'
    return f'{"ipv4" if key.afi == 1 else "ipv6"} {route_text(key.route)}'


def probe(text):
    """What is reported of the edge, or the line of the text's fault; and the status."""
    try:
        asked = read(text)
    except TextFault as fault:
        return f'{fault}\n', 3
    messages, fault = messages_in(asked.octets)
    table, scenario = table_of(messages), asked.scenario
    place = EdgePlace(scenario, core_of(len(scenario.nodes), scenario.links), asked.edge)
    lines = [f'import {scenario.vrfs[own.id].name} {key_text(key)}' for own in own_vrfs(place) for key in admitted(own.vrf, table)]
    lines += [f'want {fec.kind} {addr_text(fec.root)} {hex_text(fec.opaque)}' for fec in wants(place, asked.peer, table, asked.joins)]
    if fault is not None:
        lines.append(f'refused {fault.place} {fault.word}')
    return ''.join(f'{line}\n' for line in lines), 0 if fault is None else 1
