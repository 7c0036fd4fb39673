"""Ingress replication, from text to text (ingress_rep: Ingress; ingress_text: Grammar, Telling)."""

from . import octets as forms
from .lines import TextFault, lines_of, tried
from .updates import Ingress, Leaf, messages_in
from .words import ipv4_in, number_in

# ORIGIN IGP, an AS_PATH without segments, LOCAL_PREF 100
PATH = bytes.fromhex('400101004002004005040000 0064')


# ---- what is asked, answered and sent

def asks(advert, root):
    """Whether the root's route asks leaves for answers."""
    key, pmsi = advert.key, advert.pmsi
    is_selective = isinstance(key, forms.Mcast) and isinstance(key.route, forms.Selective)
    is_asked = pmsi is not None and pmsi.leaf_info and isinstance(pmsi.tunnel, Ingress)
    return is_selective and is_asked and key.route.originator == root == advert.next_hop


def target_of(root):
    return (1, 2) + root.octets + (0, 0)


def answer_key(advert, leaf):
    return forms.Mcast(advert.key.afi, Leaf(advert.key.route, leaf))


def attribute(flags, kind, value):
    length = bytes((len(value),)) if len(value) < 256 else len(value).to_bytes(2, 'big')
    return bytes((flags | (0x10 if len(value) > 255 else 0), kind)) + length + value


def answer(advert, leaf, label):
    """The UPDATE of a leaf's answer."""
    fields = bytes(forms.route_written(advert.key.route) + leaf.octets)
    route = bytes((4, len(fields))) + fields
    reach = advert.key.afi.to_bytes(2, 'big') + bytes((5, 4)) + bytes(leaf.octets) + b'\x00' + route
    tunnel = bytes((0, 6)) + (label << 4).to_bytes(3, 'big') + bytes(leaf.octets)
    target = bytes(target_of(advert.next_hop))
    attributes = PATH + attribute(0x80, 14, reach) + attribute(0xC0, 16, target) + attribute(0xC0, 22, tunnel)
    return b'\xff' * 16 + (23 + len(attributes)).to_bytes(2, 'big') + b'\x02\x00\x00' + len(attributes).to_bytes(2, 'big') + attributes


def label_of(advert, leaf, reported):
    """The label of the copy to a leaf whose table has that route under the key of its answer, or None."""
    if reported is None or reported.pmsi is None:
        return None
    is_answer = reported.next_hop == leaf and target_of(advert.next_hop) in reported.comms and reported.pmsi.tunnel == Ingress(leaf)
    return reported.pmsi.label if is_answer and (reported.pmsi.label or 0) >= 16 else None


class Peer:
    """The octets of a peer, their first fault, and the route under the key of its answer."""

    def __init__(self, advert, addr):
        self.key, self.octets, self.fault, self.reported, self.count = answer_key(advert, addr), (), None, None, 0

    def take(self, octets):
        self.octets += tuple(octets)
        messages, fault = messages_in(self.octets)
        for message in messages[self.count:]:
            if isinstance(message, forms.Update):
                if self.key in message.unreach:
                    self.reported = None
                for route in message.reach:
                    if route.key == self.key:
                        self.reported = route
        self.count, self.fault = len(messages), fault


# ---- the text

def root_of(addr, octets):
    """The route of the root, where the octets are one whole UPDATE that announces it alone."""
    messages, fault = messages_in(octets)
    if fault or len(messages) != 1 or int.from_bytes(bytes(octets[16:18]), 'big') != len(octets):
        return None
    update = messages[0]
    is_one = isinstance(update, forms.Update) and len(update.reach) == 1 and not update.unreach
    return update.reach[0] if is_one and asks(update.reach[0], addr) else None


class Text:
    """The root's route, and the lines after it."""

    def __init__(self):
        self.root, self.lines, self.kinds = None, [], {}

    def take(self, line):
        word = line.word(0)
        if self.root is None:
            self.take_root(line)
        elif word in ('leaf', 'from'):
            line.counted(2)
            self.take_peer(line, word)
        elif word == 'root':
            line.counted(2)
            raise line.fault(0, 'again')
        else:
            raise line.fault(0, 'word')

    def take_root(self, line):
        if line.word(0) != 'root':
            raise TextFault(line.number, 1, 'root')
        line.counted(2)
        addr = line.read(1, ipv4_in, 'address')
        octets = line.payload(2)
        self.root = line.read(2, lambda _: root_of(addr, octets), 'root')

    def take_peer(self, line, word):
        addr = line.read(1, ipv4_in, 'address')
        line.must(self.kinds.get(addr, word) == word, 1, 'again')
        said = line.read(2, label_in, 'number') if word == 'leaf' else line.payload(2)
        line.must(addr != self.root.next_hop, 1, 'self')
        self.kinds[addr] = word
        self.lines.append((line.number, addr, said))


def label_in(word):
    number = number_in(word)
    return number if number is not None and 16 <= number <= 1048575 else None


def read(octets):
    text, number = Text(), 0
    for number, own in enumerate(lines_of(octets), 1):
        line = tried(number, own)
        if line is not None and line.words:
            text.take(line)
    if text.root is None:
        raise TextFault(number + 1, 1, 'root')
    return text


# ---- what is reported

def dotted(addr):
    return '.'.join(map(str, addr.octets))


def reported(text):
    """The lines, and whether a peer has a fault."""
    peers, lines, refused = {}, [], False
    for number, addr, said in text.lines:
        peer = peers.setdefault(addr, Peer(text.root, addr))
        before = peer.fault
        if isinstance(said, int):
            octets = answer(text.root, addr, said)
            lines.append(f'answer {dotted(addr)} {octets.hex()}')
            peer.take(octets)
        else:
            peer.take(said)
            if before is None and peer.fault is not None:
                lines.append(f'refused {number} {peer.fault.place} {peer.fault.word}')
                refused = True
    labels = [(addr, label_of(text.root, addr, peer.reported)) for addr, peer in sorted(peers.items(), key=lambda entry: entry[0].octets)]
    return lines + [f'copy {dotted(addr)} {label}' for addr, label in labels if label is not None], refused


def ingress(octets):
    """What is written, and the status."""
    try:
        lines, refused = reported(read(octets))
    except TextFault as fault:
        return f'{fault}\n', 3
    return ''.join(line + '\n' for line in lines), 1 if refused else 0
