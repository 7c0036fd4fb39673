"""The table that an edge holds towards each peer, and what it puts (mv_base/table_defs: Changes; edge_defs:
Held, Messages)."""

from .base import FinMap, found_in, from_entries
from .octets import Advert, Mcast, Reach, SourceJoin, Unreach
from .place import Remote, Value, afi_of, key_parts, own_addr, same_value
from .routes import import_target, originated


def join_route(place, peer, flow, upstream):
    """The Source Tree Join of a flow whose upstream is that peer."""
    if not isinstance(upstream, Remote) or upstream.edge != peer:
        return None
    key = Mcast(afi_of(flow.source), SourceJoin(upstream.rd, upstream.source_as, flow.source, flow.group))
    return (key, Value(own_addr(place), (import_target(upstream.route_import),), None))


def join_routes(place, control, peer):
    return found_in(lambda flow: join_route(place, peer, *flow), control.flows.entries)


def held_for(place, control, peer):
    return from_entries(key_parts, originated(place, control) + join_routes(place, control, peer))


def reported(place, control, peer):
    return held_for(place, control, peer) if control.peers.get(peer) is not None else FinMap(key_parts)


# ---- changes, as UPDATE messages make them

def advert_of(key, value):
    return Advert(key, value.next_hop, value.comms, value.pmsi)


def lost(old, new):
    return old.retain_keys(lambda key: new.get(key) is None)


def is_news(old, new, key):
    return old.get(key) is None or not same_value(old.get(key), new.get(key))


def news(old, new):
    return new.retain_keys(lambda key: is_news(old, new, key))


def changes(old, new):
    """Withdrawals first, then advertisements, each kind in the keys' order."""
    withdrawals = tuple(Unreach(key) for key in lost(old, new).keys())
    return withdrawals + tuple(Reach(advert_of(key, value)) for key, value in news(old, new).entries)


def put_to(place, old, new, peer):
    return changes(reported(place, old, peer), reported(place, new, peer)) if new.peers.get(peer) is not None else ()
