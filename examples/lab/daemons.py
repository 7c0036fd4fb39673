#!/usr/bin/env python3
"""Two routers with live daemons of FRR, captured on the link between them: `daemons.py RUN FILE`

The daemons speak with each other for less than a minute, and `tcpdump` writes what they send into FILE. RUN is

    routes  `bgpd` and `pimd`: VPN-IPv4 and VPN-IPv6 routes are announced, and one is withdrawn; a host joins a flow and leaves
    labels  `ldpd`: the ends find each other, open a session and map labels to prefixes. A prefix goes, a network comes, one end maps
            anew with the label 0 (explicit null), and leaves

It needs root, `ip`, `tcpdump` and the daemons (Debian: iproute2, tcpdump, frr), and no MPLS in the kernel, where the labels would be
installed. All is in namespaces that it makes and removes again.
"""

import argparse
import pathlib
import subprocess
import sys
import tempfile
import time

MARK, DAEMONS = 'mvpn_frr_', pathlib.Path('/usr/lib/frr')
SOURCE, GROUP = '10.1.0.9', '232.1.1.1'
# by namespace: its address on the link and the other one, its loopback address and the other one, and its customer's networks
ROUTERS = {
    'a': ('198.51.100.1', '198.51.100.2', '192.0.2.1', '192.0.2.2', '10.1.0', '2001:db8:1'),
    'b': ('198.51.100.2', '198.51.100.1', '192.0.2.2', '192.0.2.1', '10.2.0', '2001:db8:2')}
ZEBRA = """hostname {name}
"""
BGPD = """router bgp 65000
 bgp router-id {own}
 no bgp default ipv4-unicast
 neighbor {peer} remote-as 65000
 neighbor {peer} update-source {own}
 neighbor {peer} timers connect 1
 neighbor {peer} timers 5 15
 address-family ipv4 vpn
  network {near}.0/24 rd 65000:1 label 100
  network {near}.128/25 rd 65000:1 label 101
  neighbor {peer} activate
 exit-address-family
 address-family ipv6 vpn
  network {six}::/48 rd 65000:1 label 102
  neighbor {peer} activate
 exit-address-family
"""
LDPD = """mpls ldp
 router-id {own}
 address-family ipv4
  discovery transport-address {own}
  interface wire
  exit
 exit-address-family
"""
PIMD = """interface wire
 ip pim
interface lan
 ip pim
 ip igmp
"""
# by run: its daemons with their configurations, zebra first, and what of the link is captured
RUNS = {
    'routes': ((('zebra', ZEBRA), ('bgpd', BGPD), ('pimd', PIMD)), 'tcp port 179 or proto 103'),
    'labels': ((('zebra', ZEBRA), ('ldpd', LDPD)), 'port 646')}
HERE = pathlib.Path(__file__).resolve().parent


def run(*words):
    subprocess.run(words, check=True, stdout=subprocess.DEVNULL)


def inside(space, *words):
    return ['ip', 'netns', 'exec', MARK + space, *words]


def build():
    for space in (*ROUTERS, 'host'):
        run('ip', 'netns', 'add', MARK + space)
        run(*inside(space, 'sysctl', '-q', '-w', 'net.ipv4.ip_forward=1'))
    run('ip', 'link', 'add', 'wire', 'netns', MARK + 'a', 'type', 'veth', 'peer', 'name', 'wire', 'netns', MARK + 'b')
    for space, (own_link, other, own, peer, near, _) in ROUTERS.items():
        peer_end = ['eth0', 'netns', MARK + 'host'] if space == 'b' else ['eth0']
        run(*inside(space, 'ip', 'link', 'add', 'lan', 'type', 'veth', 'peer', 'name', *peer_end))
        for name, address in (('lo', f'{own}/32'), ('wire', f'{own_link}/24'), ('lan', f'{near}.1/24')):
            run(*inside(space, 'ip', 'address', 'add', address, 'dev', name))
        for name in ('lo', 'wire', 'lan'):
            run(*inside(space, 'ip', 'link', 'set', name, 'up'))
        far = next(more[4] for name, more in ROUTERS.items() if name != space)
        for prefix in (f'{peer}/32', f'{far}.0/24'):
            run(*inside(space, 'ip', 'route', 'add', prefix, 'via', other))
    run(*inside('host', 'ip', 'address', 'add', '10.2.0.9/24', 'dev', 'eth0'))
    run(*inside('host', 'ip', 'link', 'set', 'eth0', 'up'))


def remove():
    for space in (*ROUTERS, 'host'):
        subprocess.run(['ip', 'netns', 'del', MARK + space], stderr=subprocess.DEVNULL)


def start(space, folder, daemons):
    """The daemons of a router."""
    _, _, own, peer, near, six = ROUTERS[space]
    words = dict(name=space, own=own, peer=peer, near=near, six=six)
    at = folder / space
    at.mkdir()
    at.chmod(0o777)
    for daemon, text in daemons:
        (at / f'{daemon}.conf').write_text(text.format(**words))
        (at / f'{daemon}.conf').chmod(0o644)
        files = ['-f', f'{at}/{daemon}.conf', '-i', f'{at}/{daemon}.pid', '-z', f'{at}/zserv.api', '--vty_socket', str(at)]
        # the folder of its socket
        if daemon == 'ldpd':
            files += ['--ctl_socket', str(at)]
        files += ['-u', 'frr', '-g', 'frr', '--log', f'file:{at}/{daemon}.log']
        yield subprocess.Popen(inside(space, str(DAEMONS / daemon), *files))
        while not (at / 'zserv.api').exists():
            time.sleep(0.1)
        time.sleep(1)


def tell(space, folder, daemon, *lines):
    """Lines of a configuration, to a running daemon."""
    words = [word for line in ('configure terminal', *lines) for word in ('-c', line)]
    run(*inside(space, 'vtysh', '--vty_socket', str(folder / space), '-d', daemon, *words))


def play_routes(folder, started):
    started.append(subprocess.Popen(inside('host', sys.executable, str(HERE / 'join.py'), SOURCE, GROUP, '5001', '10.2.0.9', '30')))
    time.sleep(28)
    tell('a', folder, 'bgpd', 'router bgp 65000', 'address-family ipv4 vpn', 'no network 10.1.0.128/25 rd 65000:1 label 101')
    time.sleep(12)


def play_labels(folder, started):
    time.sleep(5)
    run(*inside('a', 'ip', 'route', 'del', '10.2.0.0/24'))
    time.sleep(2)
    run(*inside('b', 'ip', 'address', 'add', '203.0.113.1/24', 'dev', 'lan'))
    time.sleep(2)
    tell('b', folder, 'ldpd', 'mpls ldp', 'address-family ipv4', 'label local advertise explicit-null')
    time.sleep(2)
    started[-1].terminate()
    time.sleep(2)


def play(name, file, folder, started):
    daemons, captured = RUNS[name]
    words = ['tcpdump', '-q', '-U', '-Z', 'root', '-i', 'wire', '-w', str(file), captured]
    started.append(subprocess.Popen(inside('a', *words), stderr=subprocess.DEVNULL))
    time.sleep(1)
    for space in ROUTERS:
        started += start(space, folder, daemons)
    time.sleep(5)
    if name == 'routes':
        play_routes(folder, started)
    else:
        play_labels(folder, started)


def main():
    options = argparse.ArgumentParser(description='Two routers with live daemons of FRR, captured on the link between them.')
    options.add_argument('run', choices=RUNS)
    options.add_argument('file', type=pathlib.Path)
    given = options.parse_args()
    started = []
    remove()
    try:
        build()
        with tempfile.TemporaryDirectory() as folder:
            pathlib.Path(folder).chmod(0o755)
            try:
                play(given.run, given.file.resolve(), pathlib.Path(folder), started)
            finally:
                for one in reversed(started):
                    one.terminate()
                    one.wait()
    finally:
        remove()


if __name__ == '__main__':
    main()
