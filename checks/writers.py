#!/usr/bin/env python3
"""Compares what the program's writers make of values and messages with the octets that tshark reads.

checks/wireshark.py lays routes, PMSI Tunnel attributes, FEC elements, and messages of BGP, LDP and PIM out in its own
way, and tshark reads them without a fault. Here the program's readers read each of them, its writers write again what
it says, and the octets have to be the same. Attributes with bits that may be anything have them written as 0. What the
words of a scenario name as route distinguishers and Route Targets is compared with their octets too (RFC 4364 section
4.2, RFC 4360 section 4), which the program does not report. The calls are those of a small program, which is written here
and built without proofs in a copy of the crates.

Prints the cases that differ, and then 'N passed, M failed'.
"""

import pathlib
import re
import shutil
import subprocess
import sys
import tempfile

import wireshark

TOP = pathlib.Path(__file__).resolve().parent.parent

# In the program words in capitals stand for what is put in.
PROGRAM = '''//! Writes again what messages say.
#![tactic(auto)]

use bgp_messages::bgp_update::{Change, Message};
use mldp::mldp_msgs::LabelMessage;
use mv_base::{Addr, Rd};
use bgp_values::mvpn_nlri::Afi;
use mv_base::route_targets::{ExtComm, Target};
use std::alloc::Global;

fn tell(rt: &HostRuntime, name: &str, same: bool) {
    let _ = println!(rt; "case {name} {same}");
}

fn route(rt: &HostRuntime, name: &str, afi: Afi, octets: &[u8]) {
    let mut out = [0xff; 257];
    if let Ok((route, len)) = bgp_values::mvpn_nlri::decode(afi, octets) {
        let written = bgp_values::mvpn_nlri::encode(&route, &mut out);
        tell(rt, name, len == octets.len() && &out[..written] == octets);
    }
}

fn pmsi(rt: &HostRuntime, name: &str, octets: &[u8]) {
    let mut out = [0xff; 101];
    if let Ok(pmsi) = bgp_values::pmsi_attr::decode(octets) {
        let written = bgp_values::pmsi_attr::encode(&pmsi, &mut out);
        tell(rt, name, &out[..written] == octets);
    }
}

fn fec(rt: &HostRuntime, name: &str, octets: &[u8]) {
    let mut out = [0xff; 86];
    if let Ok((fec, len)) = mldp::mldp_fec::decode(octets) {
        let written = mldp::mldp_fec::encode(&fec, &mut out);
        tell(rt, name, len == octets.len() && &out[..written] == octets);
    }
}

fn target(rt: &HostRuntime, name: &str, text: &[u8], octets: [u8; 8]) {
    tell(rt, name, line_words::target_of(text) == Some(Target(ExtComm(octets))));
}

fn rd(rt: &HostRuntime, name: &str, text: &[u8], octets: [u8; 8]) {
    tell(rt, name, line_words::rd_of(text) == Some(Rd(octets)));
}

fn changes(alloc: Global, message: Message) -> Vec<Change> {
    let mut list = Vec::new(alloc);
    if let Message::Update(update) = message {
        for advert in update.reach.into_vec() {
            list.push(Change::Reach(advert)).unwrap();
        }
        for key in update.unreach.into_vec() {
            list.push(Change::Unreach(key)).unwrap();
        }
    }
    list
}

fn bgp(rt: &HostRuntime, name: &str, octets: &[u8]) {
    let mut stream = bgp_messages::bgp_update::Stream::of(rt.alloc());
    let fed = stream.feed(octets).is_ok();
    while let Some(message) = stream.next() {
        for change in changes(rt.alloc(), message) {
            let written = bgp_messages::bgp_update::encode(rt.alloc(), &change).unwrap();
            tell(rt, name, fed && written.as_slice() == octets);
        }
    }
}

fn ldp(rt: &HostRuntime, name: &str, id: u32, octets: &[u8]) {
    let mut stream = mldp::mldp_msgs::Stream::of(rt.alloc());
    let fed = stream.feed(octets).is_ok();
    while let Some(message) = stream.next() {
        let written = mldp::mldp_msgs::encode(rt.alloc(), Addr::V4([192, 0, 2, 2]), id, &message).unwrap();
        tell(rt, name, fed && written.as_slice() == octets);
    }
}

fn pim(rt: &HostRuntime, name: &str, octets: &[u8]) {
    if let Ok(message) = pim_joinprune::decode(rt.alloc(), octets) {
        let written = pim_joinprune::encode(rt.alloc(), &message).unwrap();
        tell(rt, name, written.as_slice() == octets);
    }
}

fn main(rt: HostRuntime) -> std::io::Result<()> {
CALLS
    Ok(())
}
'''

LABEL_IDS = {'mapping': 1, 'withdraw': 2, 'release': 4294967295}


def array(octets):
    return '[' + ', '.join(map(str, octets)) + ']'


def routes():
    """The routes with their AFI, and one of AFI 2."""
    ipv4 = {name: ('Ipv4', octets) for name, octets in wireshark.ROUTES.items() if name != 'all'}
    source, group = bytes.fromhex('20010db8000000000000000000000009'), bytes.fromhex('ff3e0000000000000000000000000001')
    ipv6 = wireshark.route(6, wireshark.RD_0, wireshark.number(65000, 4), b'\x80' + source, b'\x80' + group)
    return {**ipv4, 'shared-ipv6': ('Ipv6', ipv6)}


def attributes():
    """The PMSI Tunnel attributes whose bits that may be anything are 0."""
    return {name: octets for name, octets in wireshark.PMSIS.items() if octets[0] < 2 and octets[4] % 16 == 0}


def updates():
    """The UPDATE messages, each of one route."""
    return {name: octets for name, octets in wireshark.BGPS.items() if name != 'all' and octets[18] == 2}


# words of a scenario with the octets of their route distinguisher and of their Route Target
WORDS = {
    '65000:1': ('0000fde800000001', '0002fde800000001'),
    '192.0.2.1:7': ('0001c00002010007', '0102c00002010007'),
}


def calls():
    """The names of the cases with the calls."""
    for name, (afi, octets) in routes().items():
        yield f'route-{name}', f'route(&rt, "route-{name}", Afi::{afi}, &{array(octets)});'
    for name, octets in attributes().items():
        yield f'pmsi-{name}', f'pmsi(&rt, "pmsi-{name}", &{array(octets)});'
    for name, octets in wireshark.FECS.items():
        if name != 'three':
            yield f'fec-{name}', f'fec(&rt, "fec-{name}", &{array(octets)});'
    for text, (rd, target) in WORDS.items():
        yield f'rd-{text}', f'rd(&rt, "rd-{text}", b"{text}", {array(bytes.fromhex(rd))});'
        yield f'target-{text}', f'target(&rt, "target-{text}", b"{text}", {array(bytes.fromhex(target))});'
    for name, octets in updates().items():
        yield f'bgp-{name}', f'bgp(&rt, "bgp-{name}", &{array(octets)});'
    for name, id in LABEL_IDS.items():
        yield f'ldp-{name}', f'ldp(&rt, "ldp-{name}", {id}, &{array(wireshark.LDPS[name])});'
    for name, octets in wireshark.JOIN_PRUNES.items():
        yield f'pim-{name}', f'pim(&rt, "pim-{name}", &{array(octets)});'


def main():
    crates = (TOP / 'crates.txt').read_text()
    named = dict(re.findall(r'^(\w+):(.*)$', crates, re.MULTILINE))
    used = ['bgp_messages', 'mldp', 'pim_joinprune', 'line_words']
    libraries = dict.fromkeys(' '.join([*(named[name] for name in used), *used]).split())
    program = PROGRAM.replace('CALLS', '\n'.join(f'    {call}' for _, call in calls()))
    with tempfile.TemporaryDirectory() as folder:
        copy = pathlib.Path(folder) / 'copy'
        shutil.copytree(TOP / 'crates', copy / 'crates', ignore=shutil.ignore_patterns('out'))
        (copy / 'crates.txt').write_text(f'{crates}writers: {" ".join(libraries)}\n')
        source = copy / 'crates' / 'writers' / 'src'
        source.mkdir(parents=True)
        (source / 'main.rt').write_text(program)
        run = subprocess.run(['rt', 'try'], cwd=source.parent, stdout=subprocess.PIPE, stderr=subprocess.STDOUT, text=True)
    reported = dict(re.findall(r'^case (\S+) (true|false)$', run.stdout, re.MULTILINE))
    wanted = [name for name, _ in calls()]
    wrong = [name for name in wanted if reported.get(name) != 'true']
    if wrong:
        print(run.stdout)
        print('written otherwise:', *wrong)
    print('%d passed, %d failed' % (len(wanted) - len(wrong), len(wrong)))
    return 1 if wrong else 0


if __name__ == '__main__':
    sys.exit(main())
