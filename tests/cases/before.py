"""Before the first accepted fresh the state is all zeros. So these rows come first of all in their file."""

THEIR_PROBE_7 = b'00010800060400010200000000bb00000000000000000000c0000207'

# The answers to these, all in the first read, are more than the out buffer holds: 24,000 times 11 bytes.
FULL = [(b'', b'refused 14', 'an empty line')] * 24_000

ROWS = FULL + [
    (b'ask\t100\t192.0.2.7\t2\t500', b'refused 1', 'the state is all zeros'),
    (b'tick\t600\t0', b'refused 1', 'the state is all zeros'),
    (b'packet\t700\t' + THEIR_PROBE_7, b'refused 1', 'the state is all zeros'),
    (b'drop\t800\t0', b'refused 1', 'the state is all zeros'),
    (b'tick\t0\t0', b'refused 1', 'time 0 too'),
    (b'tick\t281474976710656\t0', b'refused 1', '1 before 3'),
    (b'packet\t0\t', b'refused 1', '1 before 6'),
    (b'packet\t0\t' + b'00' * 28, b'refused 1', '1 before 7'),
    (b'ask\t0\t0.0.0.0\t0\t0', b'refused 1', '1 before 8 and 9'),
    (b'drop\t0\t4', b'refused 1', '1 before 13'),
    (b'tick\t0', b'refused 14', 'no call is made, so 14 and not 1 (reading malformed-makes-no-call)'),
    (b'', b'refused 14', 'nor here (reading malformed-makes-no-call)'),
    (b'fresh\t000000000000', b'refused 2', 'hardware zero'),
    (b'fresh\t030000000000', b'refused 2', 'first byte odd'),
    (b'tick\t0\t0', b'refused 1', 'a refused fresh makes no state'),
]
