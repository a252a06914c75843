"""Document 01's whole case: byte for byte, then with a plain space, which gives the same."""

PROBE_7 = b'000108000604000102000000000a00000000000000000000c0000207'
ANNOUNCE_7 = b'000108000604000102000000000ac0000207000000000000c0000207'


def whole_case(gap):
    """The gap stands for the foreign bytes in `1 000`."""
    return [
        (b'fresh\t02000000000a', b'ok fresh - - -', 'a new port'),
        (b'ask\t100\t192.0.2.7\t2\t500', b'ok taken 0 600 -', 'first wait 500'),
        (b'tick\t599\t0', b'ok none - 600 -', 'early'),
        (b'tick\t600\t0', b'ok probe 0 1600 ' + PROBE_7, 'first probe, gap 1,000'),
        (b'tick\t1600\t1000', b'ok probe 0 3600 ' + PROBE_7, 'second probe, gap 2,000'),
        (b'tick\t1' + gap + b'000\t0', b'refused 14', 'a foreign byte in the number'),
        (b'tick\t3600\t5', b'ok probe 0 5600 ' + PROBE_7, 'third probe, then 2,000'),
        (b'tick\t5600\t0', b'ok announce 0 7600 ' + ANNOUNCE_7, 'first announcement'),
    ]


ROWS = whole_case(b'\xc2\xa0') + whole_case(b' ')
