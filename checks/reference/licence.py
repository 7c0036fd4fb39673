"""Licensed hop by hop: what goes on was mapped, joined and advertised by octets of the report itself (network_defs: Local). Judges a trace,
the acts of a run with their lines, from the octets of its `put` and `take` lines alone."""

from . import report
from .octets import Active, Intra, Mapping, Mcast, Selective, SourceJoin, Update, Withdraw
from .place import lsp_opaque
from .reading import Fed, fed
from .routes import import_target, lsp_of
from .place import Import
from .sessions import Direction, front_of


class Said:
    """The octets over one direction since the last raise, and what the messages in them leave: labels mapped and routes advertised."""

    def __init__(self, kind):
        self.front = front_of(kind)
        self.octets = ()
        self.stream = Fed()
        self.labels = set()
        self.routes = {}

    def hear(self, octets):
        self.octets += octets
        self.stream = fed(self.front, self.stream, octets)
        for message in self.stream.waiting:
            match message:
                case Mapping(fec, label):
                    self.labels.add((fec, label))
                case Withdraw(fec, label):
                    self.labels.discard((fec, label))
                case Update(reach, unreach):
                    for key in unreach:
                        self.routes.pop(key, None)
                    for advert in reach:
                        self.routes[advert.key] = advert
        self.stream = Fed((), self.stream.held, self.stream.before, self.stream.fault)

    def trees(self, label):
        return {fec for fec, own in self.labels if own == label}


class Judge:
    def __init__(self, scenario):
        self.scenario = scenario
        self.put, self.took, self.up = {}, {}, set()
        self.faults = []

    def said(self, table, over):
        return table.setdefault(over, Said(over.kind))

    def before(self, act):
        """Ends come up and go down, and a raise begins both directions anew."""
        match act:
            case ('raise first', kind, a, b):
                for over in (Direction(kind, a, b), Direction(kind, b, a)):
                    self.put[over], self.took[over] = Said(kind), Said(kind)
                self.up.add((kind, a, b))
            case ('raise second', kind, a, b):
                self.up.add((kind, b, a))
            case ('notice', kind, a, b):
                self.up.discard((kind, a, b))
            case ('restart', node):
                self.up = {end for end in self.up if end[1] != node}

    def hop_trees(self, line):
        """The trees that license a hop: its neighbour mapped the label to them."""
        over = Direction('ldp', line.end, line.start)
        if ('ldp', line.start, line.end) not in self.up:
            return set()
        return self.said(self.took, over).trees(line.label)

    def is_told(self, node, fec, vrf):
        root = next(number for number, one in enumerate(self.scenario.nodes) if one.addr == fec.root)
        routes = self.said(self.took, Direction('bgp', root, node)).routes
        return any(
            isinstance(key, Mcast) and isinstance(key.route, (Intra, Selective)) and lsp_of(advert.pmsi) == fec
            and any(comm in vrf.targets for comm in advert.comms) for key, advert in routes.items())

    def landing(self, lines):
        land, outs = lines[0], [line for line in lines if isinstance(line, report.Out)]
        hops = [line for line in lines if isinstance(line, report.Hop)]
        if not outs and not hops:
            return
        over = Direction('ldp', land.end, land.start)
        own = self.said(self.put, over).trees(land.label) if ('ldp', land.end, land.start) in self.up else set()
        vrfs = [self.scenario.vrfs[self.scenario.ifaces[line.iface].vrf] for line in outs]
        if not any(all(fec in self.hop_trees(hop) for hop in hops) and all(self.is_told(land.end, fec, vrf) for vrf in vrfs) for fec in own):
            self.faults.append(('landing', lines))

    def is_joined(self, vrf, sent):
        address = self.scenario.nodes[vrf.edge].addr
        for over, said in self.took.items():
            if over.kind == 'bgp' and over.end == vrf.edge:
                for key, advert in said.routes.items():
                    match key:
                        case Mcast(_, SourceJoin(rd, source_as, source, group)):
                            if ((rd, source_as, source, group) == (vrf.rd, self.scenario.system, sent.source, sent.group)
                                    and import_target(Import(address, vrf.number)) in advert.comms):
                                return True
        return False

    def entering(self, number, lines, datagrams):
        vrf = self.scenario.vrfs[number]
        for line in lines:
            if isinstance(line, report.Hop):
                own = [fec for fec in self.hop_trees(line) if fec.root == self.scenario.nodes[vrf.edge].addr
                       and fec.opaque == lsp_opaque(int.from_bytes(bytes(fec.opaque[3:]), 'big'))
                       and int.from_bytes(bytes(fec.opaque[3:]), 'big') // 1048576 == vrf.number]
                if not own or not self.is_joined(vrf, datagrams[line.number - 1]):
                    self.faults.append(('entering', line))

    def happen(self, act, lines, datagrams):
        self.before(act)
        for line in lines:
            if isinstance(line, report.Take):
                over = Direction(line.kind, line.start, line.end)
                took, put = self.said(self.took, over), self.said(self.put, over)
                took.hear(line.octets)
                if put.octets[:len(took.octets)] != took.octets:
                    self.faults.append(('taken', line))
        for line in lines:
            if isinstance(line, report.Put):
                self.said(self.put, Direction(line.kind, line.start, line.end)).hear(line.octets)
        if act[0] == 'land' and lines:
            self.landing(lines)
        if act[0] == 'enter':
            self.entering(act[1], lines, datagrams)
