"""Why an event is refused, by the first of its conditions that holds (network_defs: Refusals; mvpn_model: Packets, Refused)."""

from .base import V4, V6, checksum, from_be_bytes, same_addr, slice_get
from .joinprune import PimFault, decoded
from .pim import applied, are_too_many, iface_addr, message_of
from .place import EdgeData, Note, VrfPattern, no_control
from .scenario import edge_of
from .sessions import Direction
from .world import all_copies, clock_of, is_up, octets_in_transit, scenario_of

# ---- packets


def header_len(octets):
    return octets[0] % 16 * 4


def unsummed(octets):
    return octets[:10] + (0, 0) + octets[:header_len(octets)][12:]


def number_at(place, octets):
    return from_be_bytes(octets[place:place + 2])


def bad(place, word):
    return f'bytes {place} {word}'


def six_fault(octets):
    """The first fault of a packet of IPv6 (RFC 8200 section 3)."""
    if len(octets) < 40:
        return bad(len(octets), 'short')
    if number_at(4, octets) + 40 != len(octets):
        return bad(4, 'total-length')
    if octets[24] != 255:
        return bad(24, 'not-multicast')
    if octets[25] % 16 < 3:
        return bad(24, 'link-local')
    return None


def packet_fault(octets):
    if len(octets) < 20:
        return bad(len(octets), 'short')
    if octets[0] // 16 not in (4, 6):
        return bad(0, 'version')
    return four_fault(octets) if octets[0] // 16 == 4 else six_fault(octets)


def four_fault(octets):
    """The first fault of a packet of IPv4 (RFC 791 section 3.1)."""
    if header_len(octets) < 20 or len(octets) < header_len(octets):
        return bad(0, 'header-length')
    if number_at(2, octets) != len(octets):
        return bad(2, 'total-length')
    if number_at(10, octets) != checksum(unsummed(octets)):
        return bad(10, 'checksum')
    if octets[16] < 224 or 239 < octets[16]:
        return bad(16, 'not-multicast')
    if octets[16] == 224 and octets[17] == 0 and octets[18] == 0:
        return bad(16, 'link-local')
    return None


def source_in(octets):
    return V4(octets[12:16]) if octets[0] // 16 == 4 else V6(octets[8:24])


def group_in(octets):
    return V4(octets[16:20]) if octets[0] // 16 == 4 else V6(octets[24:40])


# ---- limits

OCTET_LIMIT = 268435456
COPY_LIMIT = 65536
NOTE_LIMIT = 256
SELECTION_LIMIT = 256


def refused_if(test, reason):
    return reason if test else None


def are_sessions_full(world):
    return OCTET_LIMIT <= octets_in_transit(world)


def are_links_full(world):
    return COPY_LIMIT <= len(all_copies(world))


# ---- what an edge keeps

def control_at(world, number):
    state = None if number is None else world.network.state.node[number]
    return state.control if isinstance(state, EdgeData) else no_control()


def edge_of_vrf(scenario, vrf):
    found = slice_get(scenario.vrfs, vrf)
    return None if found is None else found.edge


# ---- calls of customers

def call_for(scenario, event):
    """What an event of a customer calls for; octets that spell no message call for nothing."""
    match event.word:
        case 'join' | 'prune' | 'pim':
            given = message_of(scenario, event)
            return None if given is None else ('pim', given.iface, given.message)
        case 'active' | 'idle':
            return (event.word, event.iface, event.source, event.group)
        case 'select' | 'unselect':
            return (event.word, event.vrf, event.entry)


def edge_for(scenario, call):
    """The edge at which a customer calls: that of the interface or of the VRF."""
    at = edge_of_vrf if call[0] in ('select', 'unselect') else edge_of
    return at(scenario, call[1])


# ---- refusals

def octets_refusal(octets):
    read = decoded(octets)
    return bad(read.place, read.word) if isinstance(read, PimFault) else None


def is_ours(scenario, given):
    return same_addr(given.message.neighbour, iface_addr(scenario, given.iface))


def message_refusal(world, given):
    if given is None:
        return None
    if not is_ours(scenario_of(world), given):
        return 'ours'
    if are_sessions_full(world):
        return 'full'
    entries = control_at(world, edge_of(scenario_of(world), given.iface)).entries
    return refused_if(are_too_many(applied(entries, given.iface, given.message, clock_of(world))), 'full')


def note_refusal(world, note):
    notes = control_at(world, edge_of(scenario_of(world), note.iface)).notes
    return refused_if(are_sessions_full(world) or (not notes.contains(note) and NOTE_LIMIT <= len(notes)), 'full')


def selections_at(world, vrf):
    return control_at(world, edge_of_vrf(scenario_of(world), vrf)).selections


def is_selected(world, vrf, pattern):
    return selections_at(world, vrf).contains_key(VrfPattern(vrf, pattern))


def no_octets(world, kind, a, b):
    return len(world.network.transit[Direction(kind, a, b)]) == 0


def is_session_joined(world, kind, a, b):
    return world.network.joined[Direction(kind, a, b)]


def lacks_copy(world, a, b, place):
    return len(world.copies[a, b]) < place


def refusal(world, event):
    kind, a, b = event.kind, event.a, event.b
    match event.word:
        case 'move':
            return refused_if(no_octets(world, kind, a, b) or not is_session_joined(world, kind, a, b), 'empty')
        case 'lose':
            return refused_if(not is_session_joined(world, kind, a, b), 'state')
        case 'notice':
            return refused_if(is_session_joined(world, kind, a, b) or not is_up(world, kind, a, b), 'state')
        case 'raise':
            return refused_if(is_up(world, kind, a, b) or is_up(world, kind, b, a), 'state')
        case 'join' | 'prune':
            return message_refusal(world, message_of(scenario_of(world), event))
        case 'pim':
            return octets_refusal(event.octets) or message_refusal(world, message_of(scenario_of(world), event))
        case 'active':
            return note_refusal(world, Note(event.iface, event.source, event.group))
        case 'idle':
            return refused_if(are_sessions_full(world), 'full')
        case 'send':
            return refused_if(are_links_full(world), 'full')
        case 'packet':
            return packet_fault(event.octets) or refused_if(are_links_full(world), 'full')
        case 'select':
            is_full = are_sessions_full(world) or SELECTION_LIMIT <= len(selections_at(world, event.vrf))
            return refused_if(is_selected(world, event.vrf, event.entry), 'state') or refused_if(is_full, 'full')
        case 'unselect':
            return refused_if(not is_selected(world, event.vrf, event.entry), 'state') or refused_if(are_sessions_full(world), 'full')
        case 'hop' | 'drop':
            return refused_if(lacks_copy(world, a, b, event.count), 'place')
        case _:
            return None
