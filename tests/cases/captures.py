"""Frames captured from other makers' programs, handed to a port that holds their addresses.

Thousands of answers can't be written by hand. Those to the asks and ticks are plain schedules; those to the frames come from a
model of the conflict rule alone, which is the class below.
"""

import pathlib

OTHER = '02000000cafe'  # No machine of the captures.
LATER = 100_000         # What is added to a capture's times where a claim comes first: it takes its time.


def captures():
    """(name, hardware address, [(time, frame in hex)]) for each capture."""
    found = []
    for line in pathlib.Path(__file__).with_name('captures.txt').read_text().splitlines():
        words = line.split()
        if words[0] == 'capture':
            found.append((words[1], words[2], []))
        elif words[0] != '#':
            found[-1][2].append((int(words[0]), words[1]))
    return found


def addresses(frames):
    """The sender and target addresses, zero excepted, in the order in which they are seen."""
    seen = []
    for _, frame in frames:
        for address in (frame[28:36], frame[48:56]):
            if address != '00000000' and address not in seen:
                seen.append(address)
    return seen


def dotted(address):
    return '.'.join(str(byte) for byte in bytes.fromhex(address))


class Port:
    """Writes rows. Keeps of each slot its address, its deadline or '-', and the last conflict seen or None."""

    def __init__(self, name, hardware):
        self.name, self.hardware, self.slots, self.conflicts, self.rows = name, hardware, {}, 0, []
        self.row(f'fresh\t{hardware}', 'ok fresh - - -')

    def row(self, line, answer):
        self.rows.append((line.encode(), answer.encode(), self.name))

    def next(self):
        return min((slot['deadline'] for slot in self.slots.values() if slot['deadline'] != '-'), default='-')

    def ask(self, time, number, address, policy, wait):
        self.slots[number] = {'address': address, 'deadline': time + wait, 'policy': policy, 'usable': False, 'seen': None}
        self.row(f'ask\t{time}\t{dotted(address)}\t{policy}\t{wait}', f'ok taken {number} {self.next()} -')

    def claim(self, time, number, address, policy, announcements):
        """From the ask, with a wait of 0 and gaps of 1,000, to the first or the second announcement."""
        slot = {'address': address, 'policy': policy, 'usable': True, 'seen': None}
        probe = f'0001080006040001{self.hardware}00000000000000000000{address}'
        announcement = f'0001080006040001{self.hardware}{address}000000000000{address}'
        steps = [(time, 'probe', time + 1000), (time + 1000, 'probe', time + 2000), (time + 2000, 'probe', time + 4000),
                 (time + 4000, 'announce', time + 6000), (time + 6000, 'announce', '-')]
        self.ask(time, number, address, policy, 0)
        for at, kind, deadline in steps[:3 + announcements]:
            self.slots[number] = {**slot, 'deadline': deadline}
            self.row(f'tick\t{at}\t0', f'ok {kind} {number} {self.next()} {probe if kind == "probe" else announcement}')

    def packet(self, time, frame):
        """Returns the slot and the record that were lost, if any were."""
        operation, hardware, sender, target = frame[12:16], frame[16:28], frame[28:36], frame[48:56]
        foreign = hardware != self.hardware
        for number, slot in self.slots.items():
            if slot['usable']:
                conflict = sender == slot['address'] and foreign
            else:
                probe = operation == '0001' and sender == '00000000' and target == slot['address']
                conflict = sender == slot['address'] or probe and foreign
            if conflict:
                return self.conflict(time, frame, number, slot)
        self.row(f'packet\t{time}\t{frame}', f'ok none - {self.next()} -')
        return None

    def conflict(self, time, frame, number, slot):
        self.conflicts += 1
        quiet = slot['seen'] is None or time - slot['seen'] >= 10_000
        slot['seen'] = time
        if slot['usable'] and slot['policy'] > 1 and quiet:
            announcement = f'0001080006040001{self.hardware}{slot["address"]}000000000000{slot["address"]}'
            self.row(f'packet\t{time}\t{frame}', f'ok defend {number} {self.next()} {announcement}')
        elif slot['usable'] and slot['policy'] == 3:
            self.row(f'packet\t{time}\t{frame}', f'ok kept {number} {self.next()} -')
        else:
            del self.slots[number]
            self.row(f'packet\t{time}\t{frame}', f'ok lost {number} {self.next()} -')
            return number, slot
        return None


def probing(name, hardware, held, frames):
    """All addresses probing from time 0 on; one that is lost is asked for again, as long as ten conflicts do not forbid it."""
    port = Port(name, hardware)
    for number, address in enumerate(held):
        port.ask(0, number, address, 2, 100 * (4 - number))
    for time, frame in frames:
        lost = port.packet(time, frame)
        if lost and port.conflicts < 10:
            port.ask(time, lost[0], lost[1]['address'], 2, 700)
    return port.rows


def in_use(name, hardware, held, frames, policy, announcements):
    """All addresses in use before the first frame comes; the last of them with so many announcements, the others settled."""
    port = Port(name, hardware)
    for number, address in enumerate(held):
        port.claim(10_000 * number, number, address, policy, announcements if address == held[-1] else 2)
    for time, frame in frames:
        port.packet(LATER + time, frame)
    return port.rows


def rows():
    written = []
    for name, hardware, frames in captures():
        seen = addresses(frames)
        for first in range(0, len(seen), 4):
            held = seen[first:first + 4]
            written += probing(f'{name}: probing', OTHER, held, frames)
            written += in_use(f'{name}: settled, policy 1', OTHER, held, frames, 1, 2)
            written += in_use(f'{name}: settled, policy 2', OTHER, held, frames, 2, 2)
            written += in_use(f'{name}: announced once, policy 3', OTHER, held, frames, 3, 1)
            # As the machine itself: its own frames come back as echoes.
            written += probing(f'{name}: probing, own hardware', hardware, held, frames)
            written += in_use(f'{name}: settled, policy 2, own hardware', hardware, held, frames, 2, 2)
    return written


ROWS = rows()
