"""Document 01's rules and refusals, as far as a replay shows them. Each section begins with a fresh of its own.

Refusal 5 is not here: it is given for an out buffer under 28 bytes, and the replay always lends 28 (reading replay-lends-28). W3, W4
and W5 are not either: they are about the board's clock, which no replay line reaches.
"""

from whole import ANNOUNCE_7, PROBE_7

# Our hardware address is 02000000000a, the other machine's 0200000000bb.
# 192.0.2.7 is c0000207, 192.0.2.8 c0000208, 192.0.2.9 c0000209, 192.0.2.10 c000020a, 192.0.2.99 c0000263.
PROBE_8 = b'000108000604000102000000000a00000000000000000000c0000208'
PROBE_9 = b'000108000604000102000000000a00000000000000000000c0000209'
PROBE_10 = b'000108000604000102000000000a00000000000000000000c000020a'
ANNOUNCE_8 = b'000108000604000102000000000ac0000208000000000000c0000208'
ANNOUNCE_10 = b'000108000604000102000000000ac000020a000000000000c000020a'

THEIR_PROBE_7 = b'00010800060400010200000000bb00000000000000000000c0000207'
THEIR_PROBE_8 = b'00010800060400010200000000bb00000000000000000000c0000208'
THEIR_PROBE_9 = b'00010800060400010200000000bb00000000000000000000c0000209'
THEIR_PROBE_10 = b'00010800060400010200000000bb00000000000000000000c000020a'
THEIR_ANNOUNCE_7 = b'00010800060400010200000000bbc0000207000000000000c0000207'
THEIR_ANNOUNCE_8 = b'00010800060400010200000000bbc0000208000000000000c0000208'
THEIR_ANNOUNCE_9 = b'00010800060400010200000000bbc0000209000000000000c0000209'
THEIR_ANNOUNCE_10 = b'00010800060400010200000000bbc000020a000000000000c000020a'
# A reply to us, and a question to 192.0.2.99, both of a machine that uses the address.
THEIR_REPLY_7 = b'00010800060400020200000000bbc000020702000000000ac0000263'
THEIR_REPLY_9 = b'00010800060400020200000000bbc000020902000000000ac0000263'
THEIR_QUESTION_7 = b'00010800060400010200000000bbc0000207000000000000c0000263'
# Somebody else asks for the address, or answers about another one.
ASKED_FOR_7 = b'00010800060400010200000000bbc0000263000000000000c0000207'
UNRELATED = b'00010800060400010200000000bbc0000263000000000000c0000262'

FRESH = (b'fresh\t02000000000a', b'ok fresh - - -', 'a new port')


def announced_once_7(policy):
    """192.0.2.7 in slot 0, announced once, with deadline 6600. The request was at 100."""
    return [
        FRESH,
        (b'ask\t100\t192.0.2.7\t' + policy + b'\t500', b'ok taken 0 600 -', 'claim'),
        (b'tick\t600\t0', b'ok probe 0 1600 ' + PROBE_7, 'claim'),
        (b'tick\t1600\t0', b'ok probe 0 2600 ' + PROBE_7, 'claim'),
        (b'tick\t2600\t0', b'ok probe 0 4600 ' + PROBE_7, 'claim'),
        (b'tick\t4600\t0', b'ok announce 0 6600 ' + ANNOUNCE_7, 'usable from here'),
    ]


def in_use_7(policy):
    """192.0.2.7 in slot 0, settled."""
    return announced_once_7(policy) + [
        (b'tick\t6600\t0', b'ok announce 0 - ' + ANNOUNCE_7, 'settled'),
    ]


HARDWARE = [
    (b'fresh\tfeffffffffff', b'ok fresh - - -', 'first byte even'),
    (b'fresh\tffffffffffff', b'refused 2', 'first byte odd'),
    (b'fresh\t010000000000', b'refused 2', 'first byte odd'),
    (b'fresh\t000000000001', b'ok fresh - - -', 'first byte even, not zero'),
    (b'fresh\t008000000000', b'ok fresh - - -', 'not zero'),
    (b'fresh\t000000000000', b'refused 2', 'zero'),
    (b'fresh\t02000000000b', b'ok fresh - - -', 'only the first byte has to be even'),
    (b'fresh\tfe123456789a', b'ok fresh - - -', 'the frame shows it below'),
    (b'ask\t0\t192.0.2.7\t1\t0', b'ok taken 0 0 -', 'wait 0'),
    (b'tick\t0\t0', b'ok probe 0 1000 0001080006040001fe123456789a00000000000000000000c0000207', 'our hardware in our probe'),
]

# A refused fresh changes nothing (reading refused-fresh).
REFUSED_FRESH = in_use_7(b'2') + [
    (b'packet\t20000\t' + THEIR_ANNOUNCE_7, b'ok defend 0 - ' + ANNOUNCE_7, 'in use'),
    (b'fresh\t030000000000', b'refused 2', 'refused'),
    (b'fresh\t000000000000', b'refused 2', 'refused'),
    (b'fresh\t0200000000', b'refused 14', 'not in the form'),
    (b'tick\t19999\t0', b'refused 4', 'the old latest time'),
    (b'ask\t20000\t192.0.2.7\t2\t0', b'refused 10', 'the old records'),
    (b'packet\t29999\t' + THEIR_ANNOUNCE_7, b'ok lost 0 - -', 'the old conflict time'),
    (b'fresh\t020000000001', b'ok fresh - - -', 'accepted'),
    (b'tick\t0\t0', b'ok none - - -', 'time 0 and free slots again'),
    (b'ask\t0\t192.0.2.7\t2\t0', b'ok taken 0 0 -', 'not held any more'),
    (b'tick\t0\t0', b'ok probe 0 1000 000108000604000102000000000100000000000000000000c0000207', 'the new hardware'),
]

W1 = [
    FRESH,
    (b'ask\t0\t192.0.2.7\t1\t1000', b'ok taken 0 1000 -', 'W1: draw 1,000 gives wait 1,000'),
    FRESH,
    (b'ask\t0\t192.0.2.7\t1\t1001', b'ok taken 0 0 -', 'W1: draw 1,001 gives 0'),
    (b'tick\t0\t1000', b'ok probe 0 2000 ' + PROBE_7, 'as a gap: 2,000'),
    (b'tick\t2000\t1001', b'ok probe 0 3000 ' + PROBE_7, 'as a gap: 1,000'),
    (b'tick\t3000\t1000', b'ok probe 0 5000 ' + PROBE_7, 'after the third probe the draw counts for nothing'),
    (b'tick\t5000\t777', b'ok announce 0 7000 ' + ANNOUNCE_7, 'nor here'),
    (b'tick\t7000\t777', b'ok announce 0 - ' + ANNOUNCE_7, 'the second one is an announce too (reading both-announce)'),
]

W2 = [
    FRESH,
    (b'ask\t0\t192.0.2.7\t1\t4294967295', b'ok taken 0 619 -', 'W2: 619'),
    (b'tick\t619\t4294967295', b'ok probe 0 2238 ' + PROBE_7, 'as a gap: 1,619'),
    (b'tick\t2238\t4294966676', b'ok probe 0 3238 ' + PROBE_7, 'a multiple of 1,001: gap 1,000'),
]

W6 = in_use_7(b'2') + [
    (b'packet\t20000\t' + THEIR_ANNOUNCE_7, b'ok defend 0 - ' + ANNOUNCE_7, 'W6: defend'),
    (b'packet\t29999\t' + THEIR_ANNOUNCE_7, b'ok lost 0 - -', 'W6: lost'),
    (b'packet\t30000\t' + THEIR_ANNOUNCE_7, b'ok none - - -', 'nothing held any more'),
]

W7 = in_use_7(b'2') + [
    (b'packet\t20000\t' + THEIR_ANNOUNCE_7, b'ok defend 0 - ' + ANNOUNCE_7, 'W7: defend'),
    (b'packet\t30000\t' + THEIR_REPLY_7, b'ok defend 0 - ' + ANNOUNCE_7, 'W7: defend twice'),
    (b'packet\t39999\t' + THEIR_QUESTION_7, b'ok lost 0 - -', 'counted from the second'),
]

W8 = in_use_7(b'3') + [
    (b'packet\t20000\t' + THEIR_ANNOUNCE_7, b'ok defend 0 - ' + ANNOUNCE_7, 'W8: defend'),
    (b'packet\t29999\t' + THEIR_ANNOUNCE_7, b'ok kept 0 - -', 'W8: kept'),
    (b'packet\t35000\t' + THEIR_ANNOUNCE_7, b'ok kept 0 - -', 'W8: kept, the unanswered one counts'),
    (b'packet\t45000\t' + THEIR_ANNOUNCE_7, b'ok defend 0 - ' + ANNOUNCE_7, 'W8: defend'),
    (b'tick\t44999\t0', b'refused 4', 'a defence sets the latest time'),
    (b'packet\t54999\t' + THEIR_ANNOUNCE_7, b'ok kept 0 - -', 'kept'),
    (b'tick\t54998\t0', b'refused 4', 'so does a conflict without a frame'),
    (b'packet\t54999\t' + THEIR_ANNOUNCE_7, b'ok kept 0 - -', 'twice at one time'),
    (b'packet\t64999\t' + THEIR_ANNOUNCE_7, b'ok defend 0 - ' + ANNOUNCE_7, '10,000 later'),
]

POLICY_1 = in_use_7(b'1') + [
    (b'packet\t20000\t' + THEIR_ANNOUNCE_7, b'ok lost 0 - -', 'the first conflict in use ends it'),
    (b'ask\t20000\t192.0.2.7\t1\t7', b'ok taken 0 20007 -', 'the slot is free at once'),
] + announced_once_7(b'1') + [
    (b'packet\t5000\t' + THEIR_REPLY_7, b'ok lost 0 - -', 'announced once is in use too, and its deadline goes with it'),
    (b'tick\t6600\t0', b'ok none - - -', 'nothing left to serve'),
]

# The tenth conflict, over several claims and all kinds of conflict; then a request at 100,000.
W9 = [
    FRESH,
    (b'ask\t1000\t192.0.2.7\t1\t0', b'ok taken 0 1000 -', 'probing'),
    (b'packet\t1001\t' + THEIR_PROBE_7, b'ok lost 0 - -', 'conflict 1'),
    (b'ask\t2000\t192.0.2.8\t2\t0', b'ok taken 0 2000 -', 'probing'),
    (b'packet\t2001\t' + THEIR_ANNOUNCE_8, b'ok lost 0 - -', 'conflict 2'),
    (b'ask\t3000\t192.0.2.9\t3\t0', b'ok taken 0 3000 -', 'probing'),
    (b'packet\t3001\t' + THEIR_REPLY_9, b'ok lost 0 - -', 'conflict 3'),
    (b'ask\t4000\t192.0.2.7\t2\t0', b'ok taken 0 4000 -', 'probing'),
    (b'packet\t4001\t' + ANNOUNCE_7, b'ok lost 0 - -', 'conflict 4, from our own hardware'),
    (b'ask\t5000\t192.0.2.7\t2\t0', b'ok taken 0 5000 -', 'probing'),
    (b'ask\t5000\t192.0.2.8\t2\t0', b'ok taken 1 5000 -', 'probing'),
    (b'packet\t5001\t' + THEIR_PROBE_7, b'ok lost 0 5000 -', 'conflict 5'),
    (b'packet\t5001\t' + THEIR_PROBE_8, b'ok lost 1 - -', 'conflict 6'),
    (b'ask\t10000\t192.0.2.7\t3\t0', b'ok taken 0 10000 -', 'a claim that comes into use'),
    (b'packet\t10000\t' + PROBE_7, b'ok none - 10000 -', 'our echo is not counted'),
    (b'tick\t10000\t0', b'ok probe 0 11000 ' + PROBE_7, 'claim'),
    (b'tick\t11000\t0', b'ok probe 0 12000 ' + PROBE_7, 'claim'),
    (b'tick\t12000\t0', b'ok probe 0 14000 ' + PROBE_7, 'claim'),
    (b'tick\t14000\t0', b'ok announce 0 16000 ' + ANNOUNCE_7, 'claim'),
    (b'tick\t16000\t0', b'ok announce 0 - ' + ANNOUNCE_7, 'claim'),
    (b'packet\t20000\t' + THEIR_ANNOUNCE_7, b'ok defend 0 - ' + ANNOUNCE_7, 'conflict 7'),
    (b'packet\t20001\t' + THEIR_ANNOUNCE_7, b'ok kept 0 - -', 'conflict 8'),
    (b'packet\t20002\t' + THEIR_PROBE_7, b'ok none - - -', 'a probe for a settled address is not counted'),
    (b'packet\t20003\t' + THEIR_ANNOUNCE_7[:54], b'refused 6', 'nor is what was refused'),
    (b'packet\t25000\t' + THEIR_ANNOUNCE_7, b'ok kept 0 - -', 'conflict 9'),
    (b'ask\t100000\t192.0.2.9\t1\t0', b'ok taken 1 100000 -', 'nine do not limit'),
    (b'ask\t100000\t192.0.2.8\t1\t0', b'ok taken 2 100000 -', 'two requests in a minute'),
    (b'packet\t100001\t' + THEIR_PROBE_8, b'ok lost 2 100000 -', 'conflict 10'),
    (b'ask\t159999\t192.0.2.8\t1\t0', b'refused 12', 'W9: 59,999 after the request'),
    (b'ask\t160000\t192.0.2.8\t1\t0', b'ok taken 2 100000 -', 'W9: 60,000 after it'),
    (b'ask\t160000\t192.0.2.10\t1\t0', b'refused 12', 'counted from the latest request'),
    (b'packet\t160001\t' + THEIR_PROBE_8, b'ok lost 2 100000 -', 'conflict 11 leaves the count at 10'),
    (b'ask\t219999\t192.0.2.10\t1\t0', b'refused 12', '59,999'),
    (b'ask\t220000\t192.0.2.10\t1\t0', b'ok taken 2 100000 -', '60,000'),
    (b'drop\t900000\t0', b'ok dropped 0 100000 -', 'a long time without a conflict'),
    (b'ask\t900000\t192.0.2.7\t1\t0', b'ok taken 0 100000 -', 'long after the last request'),
    (b'ask\t900001\t192.0.2.8\t1\t0', b'refused 12', 'still ten (reading count-never-falls)'),
    FRESH,
    (b'ask\t0\t192.0.2.7\t1\t0', b'ok taken 0 0 -', 'a new port'),
    (b'ask\t0\t192.0.2.8\t1\t0', b'ok taken 1 0 -', 'with a count of 0 (reading count-never-falls)'),
]


def ten_conflicts_7(why):
    """Of 192.0.2.7 in use under policy 3."""
    return [(b'packet\t20000\t' + THEIR_ANNOUNCE_7, b'ok defend 0 - ' + ANNOUNCE_7, why)] + [
        (b'packet\t20001\t' + THEIR_ANNOUNCE_7, b'ok kept 0 - -', why)] * 9


W9_IN_USE = in_use_7(b'3') + ten_conflicts_7('ten of one claim') + [
    (b'packet\t50000\t' + THEIR_ANNOUNCE_7, b'ok defend 0 - ' + ANNOUNCE_7, 'a defence is no ask (reading request-is-an-ask)'),
    (b'ask\t60099\t192.0.2.8\t2\t0', b'refused 12', 'the request was at 100'),
    (b'ask\t100000\t192.0.2.8\t2\t0', b'ok taken 1 100000 -', 'W9: the request at 100,000 with count 10'),
    (b'ask\t159999\t192.0.2.9\t2\t0', b'refused 12', 'W9'),
    (b'tick\t159999\t0', b'ok probe 1 160999 ' + PROBE_8, 'nor is a probe (reading request-is-an-ask)'),
    (b'ask\t160000\t192.0.2.9\t2\t5', b'ok taken 2 160005 -', 'W9'),
] + in_use_7(b'3') + ten_conflicts_7('ten of one claim') + [
    (b'drop\t60000\t0', b'ok dropped 0 - -', 'a drop is no request'),
    (b'ask\t60099\t192.0.2.7\t2\t0', b'refused 12', '59,999 after the request at 100'),
    (b'ask\t60100\t192.0.2.7\t2\t0', b'ok taken 0 60100 -', '60,000 after it'),
] + in_use_7(b'3') + ten_conflicts_7('ten of one claim')[:9] + [
    (b'ask\t20001\t192.0.2.8\t2\t0', b'ok taken 1 20001 -', 'nine do not limit'),
]

W10 = [
    FRESH,
    (b'ask\t100\t192.0.2.7\t2\t500', b'ok taken 0 600 -', 'probing'),
    (b'packet\t200\t' + PROBE_7, b'ok none - 600 -', 'W10: our own probe, with none sent yet'),
    (b'tick\t600\t0', b'ok probe 0 1600 ' + PROBE_7, 'first probe'),
    (b'packet\t600\t' + PROBE_7, b'ok none - 1600 -', 'W10: our own echoed probe (reading none-has-no-slot)'),
    (b'packet\t601\t' + PROBE_7 + b'00' * 18, b'ok none - 1600 -', 'W10, padded'),
    (b'packet\t1700\t' + PROBE_7, b'ok none - 1600 -', 'W10, late'),
    (b'tick\t1700\t0', b'ok probe 0 2700 ' + PROBE_7, 'still held'),
] + in_use_7(b'1') + [
    (b'packet\t6601\t' + PROBE_7, b'ok none - - -', 'W10 in use'),
    (b'packet\t6602\t' + ANNOUNCE_7, b'ok none - - -', 'our own echoed announcement'),
    (b'packet\t6603\t000108000604000202000000000ac00002070200000000bbc0000263', b'ok none - - -', 'our own reply'),
    (b'packet\t6604\t' + THEIR_REPLY_7, b'ok lost 0 - -', 'still held till now'),
]

W11 = in_use_7(b'1') + [
    (b'packet\t7000\t' + THEIR_PROBE_7, b'ok none - - -', "W11: another's probe for a settled address (reading none-has-no-slot)"),
    (b'packet\t7001\t' + ASKED_FOR_7, b'ok none - - -', 'nor a question'),
    (b'packet\t7002\t' + THEIR_REPLY_7, b'ok lost 0 - -', 'a use is one'),
] + announced_once_7(b'1') + [
    (b'packet\t5000\t' + THEIR_PROBE_7, b'ok none - 6600 -', 'announced once: no conflict either'),
    (b'packet\t9000\t' + THEIR_PROBE_7, b'ok none - 6600 -', 'nor with the deadline passed'),
    (b'tick\t9000\t0', b'ok announce 0 - ' + ANNOUNCE_7, 'still held'),
]

W12 = [
    FRESH,
    (b'ask\t0\t223.255.255.255\t1\t0', b'ok taken 0 0 -', 'W12: allowed'),
    (b'ask\t0\t224.0.0.0\t1\t0', b'refused 8', 'W12'),
    (b'ask\t0\t0.0.0.0\t1\t0', b'refused 8', 'in the form (reading addresses-in-form)'),
    (b'ask\t0\t0.255.255.255\t1\t0', b'refused 8', 'first byte 0'),
    (b'ask\t0\t1.0.0.0\t1\t0', b'ok taken 1 0 -', 'first byte 1'),
    (b'ask\t0\t126.255.255.255\t1\t0', b'ok taken 2 0 -', 'below 127'),
    (b'ask\t0\t127.0.0.0\t1\t0', b'refused 8', '127'),
    (b'ask\t0\t127.0.0.1\t1\t0', b'refused 8', '127'),
    (b'ask\t0\t127.255.255.255\t1\t0', b'refused 8', '127'),
    (b'ask\t0\t128.0.0.0\t1\t0', b'ok taken 3 0 -', 'above 127'),
    (b'ask\t0\t239.255.255.255\t1\t0', b'refused 8', 'multicast'),
    (b'ask\t0\t240.0.0.0\t1\t0', b'refused 8', 'above'),
    (b'ask\t0\t255.255.255.255\t1\t0', b'refused 8', 'in the form (reading addresses-in-form)'),
    (b'tick\t0\t0', b'ok probe 0 0 000108000604000102000000000a00000000000000000000dfffffff', 'the address in the frame'),
    (b'tick\t0\t0', b'ok probe 1 0 000108000604000102000000000a0000000000000000000001000000', 'the address in the frame'),
    (b'tick\t0\t0', b'ok probe 2 0 000108000604000102000000000a000000000000000000007effffff', 'the address in the frame'),
    (b'tick\t0\t0', b'ok probe 3 1000 000108000604000102000000000a0000000000000000000080000000', 'the address in the frame'),
]

# The range ends at 281474976710655. A deadline may lie up to 2,000 above it.
TIMES_ABOVE = [
    FRESH,
    (b'tick\t281474976710656\t0', b'refused 3', 'above the range'),
    (b'ask\t281474976710656\t192.0.2.7\t2\t0', b'refused 3', 'above the range'),
    (b'packet\t281474976710656\t' + THEIR_PROBE_7, b'refused 3', 'above the range'),
    (b'drop\t281474976710656\t0', b'refused 3', 'above the range'),
    (b'tick\t18446744073709551615\t0', b'refused 3', '2^64 - 1'),
    (b'tick\t0\t0', b'ok none - - -', 'none of these moved the time'),
    (b'ask\t281474976710655\t192.0.2.7\t2\t1000', b'ok taken 0 281474976711655 -', 'at the last time; printed (reading deadline-above-range)'),
    (b'tick\t281474976710655\t0', b'ok none - 281474976711655 -', 'it is not served (reading deadline-above-range)'),
    (b'tick\t281474976711655\t0', b'refused 3', 'nor ever (reading deadline-above-range)'),
    (b'tick\t281474976710654\t0', b'refused 4', 'below the latest'),
    (b'packet\t281474976710655\t' + THEIR_PROBE_7, b'ok lost 0 - -', 'a conflict as usual'),
    (b'ask\t281474976710655\t192.0.2.7\t2\t0', b'ok taken 0 281474976710655 -', 'a deadline at the last time'),
    (b'tick\t281474976710655\t1000', b'ok probe 0 281474976712655 ' + PROBE_7, 'is served'),
    (b'tick\t281474976710655\t0', b'ok none - 281474976712655 -', 'the next one is not'),
    (b'drop\t281474976710655\t0', b'ok dropped 0 - -', 'dropped as usual'),
    FRESH,
    (b'tick\t0\t0', b'ok none - - -', 'time 0 again'),
    (b'ask\t281474976706655\t192.0.2.7\t2\t0', b'ok taken 0 281474976706655 -', 'a claim at the end of time'),
    (b'tick\t281474976706655\t0', b'ok probe 0 281474976707655 ' + PROBE_7, 'claim'),
    (b'tick\t281474976707655\t0', b'ok probe 0 281474976708655 ' + PROBE_7, 'claim'),
    (b'tick\t281474976708655\t0', b'ok probe 0 281474976710655 ' + PROBE_7, 'claim'),
    (b'tick\t281474976710655\t0', b'ok announce 0 281474976712655 ' + ANNOUNCE_7, 'announced at the last time: the longest answer'),
    (b'packet\t281474976710655\t' + THEIR_REPLY_7, b'ok defend 0 281474976712655 ' + ANNOUNCE_7, 'defended as usual'),
    (b'tick\t281474976710655\t0', b'ok none - 281474976712655 -', 'never settled'),
    (b'packet\t281474976710655\t' + THEIR_REPLY_7, b'ok lost 0 - -', 'less than 10,000 after the last'),
]

TIMES_BEYOND_32_BITS = [
    FRESH,
    (b'ask\t4294967290\t192.0.2.7\t2\t10', b'ok taken 0 4294967300 -', 'over 2^32'),
    (b'tick\t4294967295\t0', b'ok none - 4294967300 -', 'early'),
    (b'tick\t4294967296\t0', b'ok none - 4294967300 -', '2^32 is not 0'),
    (b'tick\t4\t0', b'refused 4', 'nor is 4'),
    (b'tick\t4294967300\t0', b'ok probe 0 4294968300 ' + PROBE_7, 'due'),
]

TIMES_BELOW = [
    FRESH,
    (b'tick\t500\t0', b'ok none - - -', 'sets the time (reading accepted-sets-time)'),
    (b'tick\t499\t0', b'refused 4', 'below the latest'),
    (b'ask\t499\t192.0.2.7\t2\t0', b'refused 4', 'below the latest'),
    (b'packet\t499\t' + UNRELATED, b'refused 4', 'below the latest'),
    (b'drop\t499\t0', b'refused 4', 'below the latest'),
    (b'tick\t0\t0', b'refused 4', 'time 0 too'),
    (b'tick\t500\t0', b'ok none - - -', 'the same time again'),
    (b'ask\t600\t192.0.2.7\t2\t1000', b'ok taken 0 1600 -', 'sets the time'),
    (b'tick\t599\t0', b'refused 4', 'below the latest'),
    (b'packet\t700\t' + UNRELATED, b'ok none - 1600 -', 'sets the time (reading accepted-sets-time)'),
    (b'tick\t699\t0', b'refused 4', 'below the latest'),
    (b'packet\t800\t' + PROBE_7, b'ok none - 1600 -', 'our echo sets the time'),
    (b'tick\t799\t0', b'refused 4', 'below the latest'),
    (b'tick\t1600\t0', b'ok probe 0 2600 ' + PROBE_7, 'sets the time'),
    (b'tick\t1599\t0', b'refused 4', 'below the latest'),
    (b'packet\t1700\t' + THEIR_PROBE_7, b'ok lost 0 - -', 'sets the time'),
    (b'tick\t1699\t0', b'refused 4', 'below the latest'),
    (b'ask\t1800\t192.0.2.7\t2\t1000', b'ok taken 0 2800 -', 'held again'),
    (b'drop\t1900\t0', b'ok dropped 0 - -', 'sets the time (reading accepted-sets-time)'),
    (b'tick\t1899\t0', b'refused 4', 'below the latest'),
    (b'ask\t5000\t224.0.0.0\t2\t0', b'refused 8', 'what is refused does not (reading accepted-sets-time)'),
    (b'ask\t5000\t192.0.2.7\t0\t0', b'refused 9', 'does not'),
    (b'packet\t5000\t00', b'refused 6', 'does not'),
    (b'packet\t5000\t' + b'00' * 28, b'refused 7', 'does not'),
    (b'drop\t5000\t0', b'refused 13', 'does not'),
    (b'fresh\t030000000000', b'refused 2', 'does not'),
    (b'tick\t5000', b'refused 14', 'does not'),
    (b'tick\t1900\t0', b'ok none - - -', 'the latest time is still 1900'),
]

PACKETS_REFUSED = [
    FRESH,
    (b'ask\t0\t192.0.2.7\t2\t1000', b'ok taken 0 1000 -', 'each frame below would be a conflict'),
    (b'packet\t0\t', b'refused 6', 'no bytes is in the form (reading empty-packet-field)'),
    (b'packet\t0', b'refused 14', 'no field is not (reading empty-packet-field)'),
    (b'packet\t0\t00', b'refused 6', '1 byte'),
    (b'packet\t0\t' + THEIR_ANNOUNCE_7[:54], b'refused 6', '27 bytes'),
    (b'packet\t0\t' + b'ff' * 27, b'refused 6', '6 before 7'),
    (b'packet\t0\t0101080006040001' + THEIR_ANNOUNCE_7[16:], b'refused 7', 'first byte'),
    (b'packet\t0\t0006080006040001' + THEIR_ANNOUNCE_7[16:], b'refused 7', 'second byte: another hardware type'),
    (b'packet\t0\t0001860006040001' + THEIR_ANNOUNCE_7[16:], b'refused 7', 'third byte'),
    (b'packet\t0\t0001080606040001' + THEIR_ANNOUNCE_7[16:], b'refused 7', 'fourth byte: another protocol'),
    (b'packet\t0\t0001080008040001' + THEIR_ANNOUNCE_7[16:], b'refused 7', 'fifth byte: hardware length 8'),
    (b'packet\t0\t0001080006100001' + THEIR_ANNOUNCE_7[16:], b'refused 7', 'sixth byte: protocol length 16'),
    (b'packet\t0\t0001080006040000' + THEIR_ANNOUNCE_7[16:], b'refused 7', 'operation 0'),
    (b'packet\t0\t0001080006040003' + THEIR_ANNOUNCE_7[16:], b'refused 7', 'operation 3'),
    (b'packet\t0\t0001080006040008' + THEIR_ANNOUNCE_7[16:], b'refused 7', 'operation 8'),
    (b'packet\t0\t0001080006040101' + THEIR_ANNOUNCE_7[16:], b'refused 7', 'operation 257'),
    (b'packet\t0\t0001080006040102' + THEIR_ANNOUNCE_7[16:], b'refused 7', 'operation 258'),
    (b'packet\t0\t0001080006040100' + THEIR_ANNOUNCE_7[16:], b'refused 7', 'operation 256'),
    (b'packet\t0\t0001080006048001' + THEIR_ANNOUNCE_7[16:], b'refused 7', 'operation 32769'),
    (b'packet\t0\t' + b'00' * 28, b'refused 7', 'all zeros'),
    (b'packet\t0\t' + b'ff' * 60, b'refused 7', 'all ones, padded'),
    (b'tick\t0\t0', b'ok none - 1000 -', 'the record is still there'),
    (b'packet\t0\t' + THEIR_ANNOUNCE_7, b'ok lost 0 - -', '28 bytes'),
]

PADDING = [
    FRESH,
    (b'ask\t0\t192.0.2.7\t2\t0', b'ok taken 0 0 -', 'probing'),
    (b'packet\t1\t' + THEIR_ANNOUNCE_7 + b'00' * 18, b'ok lost 0 - -', '46 bytes'),
    (b'ask\t1\t192.0.2.7\t2\t0', b'ok taken 0 1 -', 'probing'),
    (b'packet\t2\t' + THEIR_PROBE_7 + b'ff' * 32, b'ok lost 0 - -', '60 bytes, and not zeros'),
    (b'ask\t2\t192.0.2.7\t2\t0', b'ok taken 0 2 -', 'probing'),
    (b'packet\t3\t' + UNRELATED + THEIR_ANNOUNCE_7, b'ok none - 2 -', 'a second frame behind the first is not read'),
    (b'packet\t4\t' + THEIR_REPLY_7 + b'00' * 1472, b'ok lost 0 - -', '1,500 bytes'),
    (b'ask\t4\t192.0.2.7\t2\t0', b'ok taken 0 4 -', 'probing'),
    (b'packet\t5\t' + THEIR_ANNOUNCE_7 + b'00', b'ok lost 0 - -', '29 bytes'),
]

POLICIES = [
    FRESH,
    (b'ask\t0\t192.0.2.7\t0\t0', b'refused 9', 'policy 0'),
    (b'ask\t0\t192.0.2.7\t4\t0', b'refused 9', 'policy 4'),
    (b'ask\t0\t192.0.2.7\t257\t0', b'refused 9', '257 is not 1 (reading whole-numbers)'),
    (b'ask\t0\t192.0.2.7\t65538\t0', b'refused 9', '2^16 + 2 is not 2 (reading whole-numbers)'),
    (b'ask\t0\t192.0.2.7\t4294967299\t0', b'refused 9', '2^32 + 3 is not 3 (reading whole-numbers)'),
    (b'ask\t0\t192.0.2.7\t18446744073709551615\t0', b'refused 9', '2^64 - 1'),
    (b'tick\t0\t0', b'ok none - - -', 'nothing was taken'),
    (b'ask\t0\t192.0.2.7\t1\t0', b'ok taken 0 0 -', 'policy 1'),
    (b'ask\t0\t192.0.2.8\t2\t0', b'ok taken 1 0 -', 'policy 2'),
    (b'ask\t0\t192.0.2.9\t3\t0', b'ok taken 2 0 -', 'policy 3'),
]

DROPS = [
    FRESH,
    (b'drop\t0\t0', b'refused 13', 'free'),
    (b'drop\t0\t3', b'refused 13', 'free'),
    (b'drop\t0\t4', b'refused 13', 'above 3'),
    (b'ask\t0\t192.0.2.7\t2\t400', b'ok taken 0 400 -', 'slot 0'),
    (b'ask\t0\t192.0.2.8\t2\t300', b'ok taken 1 300 -', 'slot 1'),
    (b'ask\t0\t192.0.2.9\t2\t200', b'ok taken 2 200 -', 'slot 2'),
    (b'ask\t0\t192.0.2.10\t2\t100', b'ok taken 3 100 -', 'slot 3'),
    (b'drop\t0\t4', b'refused 13', 'above 3'),
    (b'drop\t0\t5', b'refused 13', 'above 3'),
    (b'drop\t0\t256', b'refused 13', '2^8 is not 0'),
    (b'drop\t0\t65536', b'refused 13', '2^16 is not 0'),
    (b'drop\t0\t4294967296', b'refused 13', '2^32 is not 0 (reading whole-numbers)'),
    (b'drop\t0\t4294967299', b'refused 13', '2^32 + 3 is not 3'),
    (b'drop\t0\t9223372036854775808', b'refused 13', '2^63'),
    (b'drop\t0\t18446744073709551615', b'refused 13', '2^64 - 1'),
    (b'drop\t0\t3', b'ok dropped 3 200 -', 'slot 3'),
    (b'drop\t0\t3', b'refused 13', 'free now'),
    (b'drop\t0\t1', b'ok dropped 1 200 -', 'slot 1'),
    (b'drop\t0\t2', b'ok dropped 2 400 -', 'slot 2'),
    (b'drop\t1\t0', b'ok dropped 0 - -', 'slot 0'),
    (b'ask\t1\t192.0.2.10\t2\t0', b'ok taken 0 1 -', 'not held any more; the lowest slot'),
]

# A drop frees a slot in each of its stages, and its address may be asked for again.
DROPS_IN_EACH_STAGE = [
    FRESH,
    (b'ask\t0\t192.0.2.7\t2\t0', b'ok taken 0 0 -', 'none sent'),
    (b'drop\t0\t0', b'ok dropped 0 - -', 'none sent'),
    (b'ask\t0\t192.0.2.7\t2\t0', b'ok taken 0 0 -', 'again'),
    (b'tick\t0\t0', b'ok probe 0 1000 ' + PROBE_7, 'one sent'),
    (b'drop\t0\t0', b'ok dropped 0 - -', 'one sent'),
    (b'tick\t1000\t0', b'ok none - - -', 'its deadline is gone'),
    (b'ask\t1000\t192.0.2.7\t2\t0', b'ok taken 0 1000 -', 'begins anew'),
    (b'tick\t1000\t0', b'ok probe 0 2000 ' + PROBE_7, 'one sent'),
    (b'tick\t2000\t0', b'ok probe 0 3000 ' + PROBE_7, 'two sent'),
    (b'drop\t2000\t0', b'ok dropped 0 - -', 'two sent'),
    (b'ask\t2000\t192.0.2.7\t2\t0', b'ok taken 0 2000 -', 'begins anew'),
    (b'tick\t2000\t0', b'ok probe 0 3000 ' + PROBE_7, 'one sent'),
    (b'tick\t3000\t0', b'ok probe 0 4000 ' + PROBE_7, 'two sent'),
    (b'tick\t4000\t0', b'ok probe 0 6000 ' + PROBE_7, 'three sent'),
    (b'drop\t5000\t0', b'ok dropped 0 - -', 'three sent'),
    (b'tick\t6000\t0', b'ok none - - -', 'not announced'),
] + announced_once_7(b'2') + [
    (b'drop\t5000\t0', b'ok dropped 0 - -', 'announced once'),
    (b'packet\t5001\t' + THEIR_ANNOUNCE_7, b'ok none - - -', 'not ours any more'),
    (b'tick\t6600\t0', b'ok none - - -', 'no second announcement'),
] + in_use_7(b'2') + [
    (b'drop\t7000\t0', b'ok dropped 0 - -', 'settled'),
    (b'packet\t7001\t' + THEIR_ANNOUNCE_7, b'ok none - - -', 'not ours any more'),
    (b'ask\t7002\t192.0.2.7\t2\t0', b'ok taken 0 7002 -', 'begins anew'),
]

HELD = in_use_7(b'2') + [
    (b'ask\t7000\t192.0.2.7\t2\t0', b'refused 10', 'settled'),
    (b'ask\t7000\t192.0.2.7\t3\t0', b'refused 10', 'with another policy too'),
    (b'ask\t7000\t192.0.2.8\t2\t0', b'ok taken 1 7000 -', 'another address'),
    (b'ask\t7000\t192.0.2.8\t2\t0', b'refused 10', 'probing'),
    (b'packet\t7001\t' + THEIR_PROBE_8, b'ok lost 1 - -', 'lost'),
    (b'ask\t7002\t192.0.2.8\t2\t0', b'ok taken 1 7002 -', 'may be asked for again'),
] + announced_once_7(b'2') + [
    (b'ask\t5000\t192.0.2.7\t2\t0', b'refused 10', 'announced once'),
]

FULL = [
    FRESH,
    (b'ask\t0\t192.0.2.7\t1\t0', b'ok taken 0 0 -', 'the lowest free slot'),
    (b'ask\t0\t192.0.2.8\t1\t1', b'ok taken 1 0 -', 'the lowest free slot'),
    (b'ask\t0\t192.0.2.9\t1\t2', b'ok taken 2 0 -', 'the lowest free slot'),
    (b'ask\t0\t192.0.2.10\t1\t3', b'ok taken 3 0 -', 'the lowest free slot'),
    (b'ask\t0\t192.0.2.11\t1\t0', b'refused 11', 'none is free'),
    (b'ask\t0\t192.0.2.10\t1\t0', b'refused 10', '10 before 11'),
    (b'ask\t0\t192.0.2.11\t4\t0', b'refused 9', '9 before 11'),
    (b'ask\t0\t192.0.2.10\t4\t0', b'refused 9', '9 before 10'),
    (b'ask\t0\t224.0.0.0\t4\t0', b'refused 8', '8 before 9 and 11'),
    (b'packet\t5\t' + THEIR_PROBE_9, b'ok lost 2 0 -', 'slot 2 is free'),
    (b'ask\t5\t192.0.2.11\t1\t0', b'ok taken 2 0 -', 'a slot is filled again after a loss'),
    (b'ask\t5\t192.0.2.12\t1\t0', b'refused 11', 'full again'),
    (b'packet\t6\t' + THEIR_PROBE_10, b'ok lost 3 0 -', 'slot 3 is free'),
    (b'packet\t6\t' + THEIR_ANNOUNCE_7, b'ok lost 0 1 -', 'slot 0 is free'),
    (b'ask\t7\t192.0.2.9\t1\t0', b'ok taken 0 1 -', 'the lowest first'),
    (b'ask\t7\t192.0.2.7\t1\t0', b'ok taken 3 1 -', 'then the other'),
    (b'ask\t7\t192.0.2.10\t1\t0', b'refused 11', 'full again'),
]

# Of two numbers that apply the lower is given (reading lowest-number).
LOWEST_NUMBER = [
    FRESH,
    (b'tick\t100\t0', b'ok none - - -', 'the latest time is 100'),
    # A time above the range is never below the latest, so 3 and 4 do not meet.
    (b'ask\t281474976710656\t224.0.0.0\t0\t0', b'refused 3', '3 before 8 and 9'),
    (b'ask\t99\t224.0.0.0\t0\t0', b'refused 4', '4 before 8 and 9'),
    (b'packet\t281474976710656\t', b'refused 3', '3 before 6'),
    (b'packet\t281474976710656\t' + b'00' * 28, b'refused 3', '3 before 7'),
    (b'packet\t99\t', b'refused 4', '4 before 6'),
    (b'packet\t99\t' + b'00' * 28, b'refused 4', '4 before 7'),
    (b'packet\t100\t' + b'00' * 27, b'refused 6', '6 before 7'),
    (b'drop\t281474976710656\t4', b'refused 3', '3 before 13'),
    (b'drop\t99\t4', b'refused 4', '4 before 13'),
    (b'ask\t100\t224.0.0.0\t0\t0', b'refused 8', '8 before 9'),
    (b'fresh\t03000000000', b'refused 14', 'not in the form: no call, and no other number'),
    (b'tick\t281474976710656', b'refused 14', 'no other number'),
    (b'ask\t99\t224.0.0.0\t0\t4294967296', b'refused 14', 'no other number'),
    (b'packet\t99\t0', b'refused 14', 'no other number'),
    (b'drop\t99\t18446744073709551616', b'refused 14', 'no other number'),
] + in_use_7(b'3') + [
    (b'ask\t7000\t192.0.2.8\t2\t0', b'ok taken 1 7000 -', 'slot 1'),
    (b'ask\t7000\t192.0.2.9\t2\t0', b'ok taken 2 7000 -', 'slot 2'),
    (b'ask\t7000\t192.0.2.10\t2\t0', b'ok taken 3 7000 -', 'slot 3'),
    (b'packet\t20000\t' + THEIR_ANNOUNCE_7, b'ok defend 0 7000 ' + ANNOUNCE_7, 'conflict 1'),
] + [(b'packet\t20001\t' + THEIR_ANNOUNCE_7, b'ok kept 0 7000 -', 'conflicts 2 to 10')] * 9 + [
    (b'ask\t20100\t192.0.2.11\t1\t0', b'refused 11', '11 before 12'),
    (b'drop\t20100\t3', b'ok dropped 3 7000 -', 'one is free'),
    (b'ask\t20100\t192.0.2.11\t1\t0', b'refused 12', '12 alone'),
    (b'ask\t20100\t192.0.2.7\t1\t0', b'refused 10', '10 before 12'),
    (b'ask\t20100\t192.0.2.11\t0\t0', b'refused 9', '9 before 12'),
    (b'ask\t20100\t127.0.0.1\t1\t0', b'refused 8', '8 before 12'),
    (b'ask\t20099\t192.0.2.11\t1\t0', b'refused 4', '4 before 12'),
    (b'ask\t66999\t192.0.2.11\t1\t0', b'refused 12', '59,999 after the request at 7000'),
    (b'ask\t67000\t192.0.2.11\t1\t0', b'ok taken 3 7000 -', '60,000 after it'),
]

# Gaps are counted from the call and not from the old deadline.
LATE_TICKS = [
    FRESH,
    (b'ask\t100\t192.0.2.7\t2\t0', b'ok taken 0 100 -', 'wait 0'),
    (b'tick\t5000\t0', b'ok probe 0 6000 ' + PROBE_7, 'late; the gap is 1,000 all the same'),
    (b'tick\t5000\t0', b'ok none - 6000 -', 'no second probe at once'),
    (b'tick\t5999\t0', b'ok none - 6000 -', 'nor early'),
    (b'tick\t9000\t1000', b'ok probe 0 11000 ' + PROBE_7, 'late'),
    (b'tick\t9001\t0', b'ok none - 11000 -', 'not back to back'),
    (b'tick\t10999\t0', b'ok none - 11000 -', 'early'),
    (b'tick\t20000\t1000', b'ok probe 0 22000 ' + PROBE_7, 'late'),
    (b'tick\t20001\t0', b'ok none - 22000 -', 'not back to back'),
    (b'tick\t21999\t0', b'ok none - 22000 -', 'early'),
    (b'tick\t30000\t0', b'ok announce 0 32000 ' + ANNOUNCE_7, 'late'),
    (b'tick\t31999\t0', b'ok none - 32000 -', 'early'),
    (b'tick\t40000\t0', b'ok announce 0 - ' + ANNOUNCE_7, 'late'),
    (b'tick\t50000\t0', b'ok none - - -', 'settled: no third announcement'),
]

# The earliest deadline first, the lowest slot on a tie, one frame a call.
ORDER = [
    FRESH,
    (b'ask\t0\t192.0.2.7\t2\t500', b'ok taken 0 500 -', 'slot 0'),
    (b'ask\t0\t192.0.2.8\t2\t300', b'ok taken 1 300 -', 'slot 1'),
    (b'ask\t0\t192.0.2.9\t2\t300', b'ok taken 2 300 -', 'slot 2, a tie'),
    (b'ask\t0\t192.0.2.10\t2\t900', b'ok taken 3 300 -', 'slot 3'),
    (b'tick\t299\t0', b'ok none - 300 -', 'early'),
    (b'tick\t600\t0', b'ok probe 1 300 ' + PROBE_8, 'the lowest slot of the tie; 300 is left, though it has passed (reading next-of-all-slots)'),
    (b'tick\t600\t500', b'ok probe 2 500 ' + PROBE_9, 'the other one'),
    (b'tick\t600\t0', b'ok probe 0 900 ' + PROBE_7, 'the later one'),
    (b'tick\t600\t0', b'ok none - 900 -', 'slot 3 is not due'),
    (b'tick\t900\t700', b'ok probe 3 1600 ' + PROBE_10, 'due'),
    # Deadlines now: 1600, 1600, 2100, 2600.
    (b'tick\t2600\t0', b'ok probe 0 1600 ' + PROBE_7, 'earliest'),
    (b'tick\t2600\t0', b'ok probe 1 2100 ' + PROBE_8, 'next'),
    (b'tick\t2600\t0', b'ok probe 2 2600 ' + PROBE_9, 'next'),
    (b'tick\t2600\t1000', b'ok probe 3 3600 ' + PROBE_10, 'next'),
    # Deadlines now: 3600, 3600, 3600, 4600.
    (b'drop\t2600\t0', b'ok dropped 0 3600 -', 'slot 0 is free'),
    (b'tick\t3600\t0', b'ok probe 1 3600 ' + PROBE_8, 'the third of slot 1'),
    (b'packet\t3600\t' + THEIR_PROBE_9, b'ok lost 2 4600 -', 'slot 2 is free'),
    (b'ask\t3700\t192.0.2.7\t2\t900', b'ok taken 0 4600 -', 'slot 0 again, a tie with slot 3'),
    (b'tick\t4600\t0', b'ok probe 0 4600 ' + PROBE_7, 'the lowest slot of the tie'),
    (b'tick\t4600\t0', b'ok probe 3 5600 ' + PROBE_10, 'the third of slot 3'),
    (b'tick\t5600\t1000', b'ok probe 0 5600 ' + PROBE_7, 'the second of slot 0'),
    (b'tick\t5600\t0', b'ok announce 1 6600 ' + ANNOUNCE_8, 'the first announcement of slot 1'),
    (b'tick\t6599\t0', b'ok none - 6600 -', 'early'),
    (b'tick\t6600\t0', b'ok announce 3 7600 ' + ANNOUNCE_10, 'the first announcement of slot 3'),
    # Deadlines now: slot 0 at 7600, slot 1 at 7600, slot 3 at 8600.
    (b'tick\t9000\t0', b'ok probe 0 7600 ' + PROBE_7, 'the third of slot 0'),
    (b'tick\t9000\t0', b'ok announce 1 8600 ' + ANNOUNCE_8, 'slot 1 is settled'),
    (b'tick\t9000\t0', b'ok announce 3 11000 ' + ANNOUNCE_10, 'slot 3 is settled'),
    (b'tick\t11000\t0', b'ok announce 0 13000 ' + ANNOUNCE_7, 'slot 0 is announced'),
    (b'packet\t11001\t' + THEIR_ANNOUNCE_10, b'ok defend 3 13000 ' + ANNOUNCE_10, 'slot 3 alone is concerned'),
    (b'packet\t11002\t' + THEIR_ANNOUNCE_8, b'ok defend 1 13000 ' + ANNOUNCE_8, 'slot 1 has its own conflict time'),
    (b'packet\t11003\t' + THEIR_ANNOUNCE_9, b'ok none - 13000 -', '192.0.2.9 is not held'),
    (b'packet\t11004\t' + THEIR_ANNOUNCE_10, b'ok lost 3 13000 -', 'slot 3 is lost'),
    (b'tick\t13000\t0', b'ok announce 0 - ' + ANNOUNCE_7, 'slot 0 is settled'),
    (b'packet\t13001\t' + THEIR_ANNOUNCE_7, b'ok defend 0 - ' + ANNOUNCE_7, 'slot 0 has its own conflict time'),
    (b'packet\t21002\t' + THEIR_ANNOUNCE_8, b'ok defend 1 - ' + ANNOUNCE_8, '10,000 after its own'),
    (b'packet\t21003\t' + THEIR_ANNOUNCE_7, b'ok lost 0 - -', 'less than 10,000 after its own'),
]

# What is a conflict for a record that is probing.
PROBING = [
    FRESH,
    (b'ask\t0\t192.0.2.7\t2\t1000', b'ok taken 0 1000 -', 'probing'),
    (b'packet\t1\t' + UNRELATED, b'ok none - 1000 -', 'other addresses'),
    (b'packet\t2\t' + ASKED_FOR_7, b'ok none - 1000 -', 'a question is no probe: its sender IP is not zero'),
    (b'packet\t3\t00010800060400020200000000bb00000000000000000000c0000207', b'ok none - 1000 -', 'a reply is no probe'),
    (b'packet\t4\t' + THEIR_PROBE_8, b'ok none - 1000 -', 'a probe for another address'),
    (b'packet\t5\t00010800060400010200000000bb0000000000000000000000000000', b'ok none - 1000 -', 'free slots have no address, not zero'),
    (b'packet\t6\t00010800060400010200000000bbc0000263c00002070000c0000263', b'ok none - 1000 -', 'the address in the target hardware'),
    (b'packet\t7\t0001080006040001c0000207000000000000000000000000c0000263', b'ok none - 1000 -', 'the address in the sender hardware'),
    (b'packet\t8\t00010800060400010200000000bb000000000200000000bbc0000207', b'ok lost 0 - -', 'any target hardware in a probe'),
    (b'ask\t9\t192.0.2.7\t2\t0', b'ok taken 0 9 -', 'again'),
    (b'packet\t10\t' + THEIR_QUESTION_7, b'ok lost 0 - -', 'sender IP, operation 1'),
    (b'ask\t11\t192.0.2.7\t2\t0', b'ok taken 0 11 -', 'again'),
    (b'packet\t12\t' + THEIR_REPLY_7, b'ok lost 0 - -', 'sender IP, operation 2'),
    (b'ask\t13\t192.0.2.7\t2\t0', b'ok taken 0 13 -', 'again'),
    (b'packet\t14\t000108000604000202000000000ac000020702000000000ac0000207', b'ok lost 0 - -', 'sender IP, whatever the hardware: ours'),
    (b'ask\t15\t192.0.2.7\t2\t0', b'ok taken 0 15 -', 'again'),
    (b'packet\t16\t' + ANNOUNCE_7, b'ok lost 0 - -', 'the same with operation 1'),
    (b'ask\t17\t192.0.2.7\t2\t0', b'ok taken 0 17 -', 'again'),
    (b'packet\t18\t000108000604000100000000000000000000000000000000c0000207', b'ok lost 0 - -', 'hardware zero is not ours'),
    (b'ask\t19\t192.0.2.7\t2\t0', b'ok taken 0 19 -', 'again'),
    (b'packet\t20\t000108000604000102000000000b00000000000000000000c0000207', b'ok lost 0 - -', 'one bit off ours'),
]

# A probing record is lost however many probes were sent, and the stage decides, not a deadline that has passed.
PROBING_SENT = [
    FRESH,
    (b'ask\t0\t192.0.2.7\t3\t0', b'ok taken 0 0 -', 'policy 3 keeps nothing while probing'),
    (b'tick\t0\t0', b'ok probe 0 1000 ' + PROBE_7, 'one sent'),
    (b'packet\t1\t' + THEIR_PROBE_7, b'ok lost 0 - -', 'one sent'),
    (b'ask\t1\t192.0.2.7\t3\t0', b'ok taken 0 1 -', 'again'),
    (b'tick\t1\t0', b'ok probe 0 1001 ' + PROBE_7, 'one sent: the count begins anew'),
    (b'tick\t1001\t0', b'ok probe 0 2001 ' + PROBE_7, 'two sent'),
    (b'packet\t1002\t' + THEIR_REPLY_7, b'ok lost 0 - -', 'two sent'),
    (b'ask\t2000\t192.0.2.7\t3\t0', b'ok taken 0 2000 -', 'again'),
    (b'tick\t2000\t0', b'ok probe 0 3000 ' + PROBE_7, 'one sent'),
    (b'tick\t3000\t0', b'ok probe 0 4000 ' + PROBE_7, 'two sent'),
    (b'tick\t4000\t0', b'ok probe 0 6000 ' + PROBE_7, 'three sent'),
    (b'packet\t5999\t' + THEIR_PROBE_7, b'ok lost 0 - -', 'three sent'),
    (b'ask\t6000\t192.0.2.7\t3\t0', b'ok taken 0 6000 -', 'again'),
    (b'tick\t6000\t0', b'ok probe 0 7000 ' + PROBE_7, 'one sent'),
    (b'tick\t7000\t0', b'ok probe 0 8000 ' + PROBE_7, 'two sent'),
    (b'tick\t8000\t0', b'ok probe 0 10000 ' + PROBE_7, 'three sent'),
    (b'packet\t99999\t' + THEIR_PROBE_7, b'ok lost 0 - -', 'long after the deadline: still probing'),
]

# What is a conflict for a record in use: each byte of the sender hardware counts.
USABLE = in_use_7(b'3') + [
    (b'packet\t20000\t000108000604000103000000000ac0000207000000000000c0000207', b'ok defend 0 - ' + ANNOUNCE_7, 'first byte off ours'),
    (b'packet\t20001\t000108000604000102010000000ac0000207000000000000c0000207', b'ok kept 0 - -', 'second'),
    (b'packet\t20002\t000108000604000102008000000ac0000207000000000000c0000207', b'ok kept 0 - -', 'third'),
    (b'packet\t20003\t000108000604000102000001000ac0000207000000000000c0000207', b'ok kept 0 - -', 'fourth'),
    (b'packet\t20004\t000108000604000102000000ff0ac0000207000000000000c0000207', b'ok kept 0 - -', 'fifth'),
    (b'packet\t20005\t00010800060400010200000000f5c0000207000000000000c0000207', b'ok kept 0 - -', 'sixth'),
    (b'packet\t20006\t0001080006040001000000000000c0000207000000000000c0000207', b'ok kept 0 - -', 'hardware zero'),
    (b'packet\t20007\t' + THEIR_REPLY_7, b'ok kept 0 - -', 'operation 2'),
    (b'packet\t30007\t' + ANNOUNCE_7, b'ok none - - -', 'ours is none, and does not become the last one seen'),
    (b'packet\t30007\t' + THEIR_QUESTION_7, b'ok defend 0 - ' + ANNOUNCE_7, '10,000 after the last one'),
    (b'packet\t40006\t' + THEIR_PROBE_7, b'ok none - - -', 'nor does a probe'),
    (b'packet\t40007\t' + THEIR_QUESTION_7, b'ok defend 0 - ' + ANNOUNCE_7, '10,000 after the last one'),
    (b'packet\t50008\t00010800060400010200000000bbc0000206000000000000c0000207', b'ok none - - -', 'a neighbour address'),
    (b'packet\t50009\t00010800060400010200000000bbc1000207000000000000c0000207', b'ok none - - -', 'another first byte'),
]

# A defence leaves the stage and the deadline, and its conflict time survives the step to settled (reading defence-keeps-deadline).
DEFENCE_BEFORE_SETTLED = announced_once_7(b'2') + [
    (b'packet\t5000\t' + THEIR_ANNOUNCE_7, b'ok defend 0 6600 ' + ANNOUNCE_7, 'the deadline stays'),
    (b'tick\t6599\t0', b'ok none - 6600 -', 'early'),
    (b'tick\t6600\t0', b'ok announce 0 - ' + ANNOUNCE_7, 'the second announcement'),
    (b'packet\t14999\t' + THEIR_ANNOUNCE_7, b'ok lost 0 - -', '9,999 after the conflict at 5000'),
] + announced_once_7(b'2') + [
    (b'packet\t5000\t' + THEIR_ANNOUNCE_7, b'ok defend 0 6600 ' + ANNOUNCE_7, 'the deadline stays'),
    (b'packet\t15000\t' + THEIR_ANNOUNCE_7, b'ok defend 0 6600 ' + ANNOUNCE_7, '10,000 after it, the tick still due'),
    (b'tick\t15000\t0', b'ok announce 0 - ' + ANNOUNCE_7, 'the second announcement'),
    (b'packet\t24999\t' + THEIR_ANNOUNCE_7, b'ok lost 0 - -', '9,999 after the last'),
] + announced_once_7(b'3') + [
    (b'packet\t4600\t' + THEIR_ANNOUNCE_7, b'ok defend 0 6600 ' + ANNOUNCE_7, 'at once'),
    (b'packet\t4601\t' + THEIR_ANNOUNCE_7, b'ok kept 0 6600 -', 'the deadline stays'),
    (b'tick\t6600\t0', b'ok announce 0 - ' + ANNOUNCE_7, 'the second announcement'),
    (b'packet\t14600\t' + THEIR_ANNOUNCE_7, b'ok kept 0 - -', '9,999 after the kept one'),
    (b'packet\t24600\t' + THEIR_ANNOUNCE_7, b'ok defend 0 - ' + ANNOUNCE_7, '10,000 after that'),
] + announced_once_7(b'2') + [
    (b'packet\t5000\t' + THEIR_ANNOUNCE_7, b'ok defend 0 6600 ' + ANNOUNCE_7, 'defended'),
    (b'packet\t6000\t' + THEIR_ANNOUNCE_7, b'ok lost 0 - -', 'lost before it is settled'),
    (b'tick\t6600\t0', b'ok none - - -', 'its deadline is gone'),
]

# No conflict seen is none and not one at time 0: the first is defended also before time 10,000.
FIRST_CONFLICT = [
    FRESH,
    (b'ask\t0\t192.0.2.7\t2\t0', b'ok taken 0 0 -', 'a claim from time 0'),
    (b'tick\t0\t0', b'ok probe 0 1000 ' + PROBE_7, 'claim'),
    (b'tick\t1000\t0', b'ok probe 0 2000 ' + PROBE_7, 'claim'),
    (b'tick\t2000\t0', b'ok probe 0 4000 ' + PROBE_7, 'claim'),
    (b'tick\t4000\t0', b'ok announce 0 6000 ' + ANNOUNCE_7, 'claim'),
    (b'packet\t4001\t' + THEIR_ANNOUNCE_7, b'ok defend 0 6000 ' + ANNOUNCE_7, 'the first one, before time 10,000'),
]

# "In this use": the conflict time of an earlier use does not count.
NEW_USE = in_use_7(b'2') + [
    (b'packet\t20000\t' + THEIR_ANNOUNCE_7, b'ok defend 0 - ' + ANNOUNCE_7, 'defended'),
    (b'packet\t20001\t' + THEIR_ANNOUNCE_7, b'ok lost 0 - -', 'lost'),
    (b'ask\t20002\t192.0.2.7\t2\t0', b'ok taken 0 20002 -', 'a new claim'),
    (b'tick\t20002\t0', b'ok probe 0 21002 ' + PROBE_7, 'claim'),
    (b'tick\t21002\t0', b'ok probe 0 22002 ' + PROBE_7, 'claim'),
    (b'tick\t22002\t0', b'ok probe 0 24002 ' + PROBE_7, 'claim'),
    (b'tick\t24002\t0', b'ok announce 0 26002 ' + ANNOUNCE_7, 'a new use'),
    (b'packet\t24003\t' + THEIR_ANNOUNCE_7, b'ok defend 0 26002 ' + ANNOUNCE_7, 'the first conflict of this use'),
]

# A late echo of our own earlier announcement (reading late-echo).
LATE_ECHO = in_use_7(b'2') + [
    (b'drop\t7000\t0', b'ok dropped 0 - -', 'given back'),
    (b'packet\t7000\t' + ANNOUNCE_7, b'ok none - - -', 'not held'),
    (b'ask\t7001\t192.0.2.7\t2\t1000', b'ok taken 0 8001 -', 'claimed again'),
    (b'packet\t7002\t' + PROBE_7, b'ok none - 8001 -', 'an echoed probe is no conflict'),
    (b'packet\t7003\t' + ANNOUNCE_7, b'ok lost 0 - -', 'an echoed announcement is one (reading late-echo)'),
]

ROWS = (
    HARDWARE + REFUSED_FRESH
    + W1 + W2 + W6 + W7 + W8 + POLICY_1 + W9 + W9_IN_USE + W10 + W11 + W12
    + TIMES_ABOVE + TIMES_BEYOND_32_BITS + TIMES_BELOW + PACKETS_REFUSED + PADDING + POLICIES
    + DROPS + DROPS_IN_EACH_STAGE + HELD + FULL + LOWEST_NUMBER
    + LATE_TICKS + ORDER + PROBING + PROBING_SENT + USABLE
    + DEFENCE_BEFORE_SETTLED + FIRST_CONFLICT + NEW_USE + LATE_ECHO
)
