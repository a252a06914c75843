"""The form of a replay line. The port holds 192.0.2.7, probing with deadline 1000, so that a line that is read in a wrong way
would be answered otherwise: a tick with none, an ask for 192.0.2.8 with taken, a drop with dropped, the frame with lost.
"""

# Of 0200000000bb, which uses 192.0.2.7: a conflict if a call is made with it.
FRAME = b'00010800060400010200000000bbc0000207000000000000c0000207'
# Of the same machine about other addresses: no conflict.
UNRELATED = b'00010800060400010200000000bbc0000263000000000000c0000262'

NBSP = b'\xc2\xa0'
FULL_WIDTH_1 = b'\xef\xbc\x91'
ARABIC_1 = b'\xd9\xa1'
SUPERSCRIPT_2 = b'\xc2\xb2'

# 2^32, 2^63, 2^64 and 2^128.
TWO_32 = b'4294967296'
TWO_64_LESS_1 = b'18446744073709551615'
TWO_64 = b'18446744073709551616'
TWO_64_AND_1 = b'18446744073709551617'
TWO_64_AND_2 = b'18446744073709551618'
TWO_64_AND_192 = b'18446744073709551808'
TWO_128 = b'340282366920938463463374607431768211456'
TWO_128_AND_1 = b'340282366920938463463374607431768211457'

HELD = [
    (b'fresh\t02000000000a', b'ok fresh - - -', 'a new port'),
    (b'ask\t0\t192.0.2.7\t2\t1000', b'ok taken 0 1000 -', 'the state of this part'),
    (b'tick\t0\t0', b'ok none - 1000 -', 'in the form'),
]

# Between the sections: the port is as it was, at time 0.
UNCHANGED = [
    (b'tick\t0\t0', b'ok none - 1000 -', 'nothing changed'),
    (b'packet\t0\t' + UNRELATED, b'ok none - 1000 -', 'nothing changed'),
    (b'ask\t0\t192.0.2.7\t2\t0', b'refused 10', 'nothing changed'),
    (b'drop\t0\t1', b'refused 13', 'nothing changed'),
]


def malformed(why, lines):
    """Lines that are all refused with 14, for the same reason."""
    return [(line, b'refused 14', why) for line in lines] + UNCHANGED


def places(text, foreign):
    """The text with the foreign bytes before, between and after its bytes."""
    return [text[:at] + foreign + text[at:] for at in range(len(text) + 1)]


WORDS = malformed('no such word', [
    b'tock\t0\t0', b'TICK\t0\t0', b'Tick\t0\t0', b'ticK\t0\t0', b'tick \t0\t0', b' tick\t0\t0', b'tic\t0\t0', b'ticks\t0\t0',
    b't\t0\t0', b'\t0\t0', b'ticktick\t0\t0', b'tick\x00\t0\t0', b'\x00tick\t0\t0', b'\xef\xbb\xbftick\t0\t0', b'"tick"\t0\t0',
    b'ASK\t0\t192.0.2.8\t2\t0', b'as\t0\t192.0.2.8\t2\t0', b'asks\t0\t192.0.2.8\t2\t0', b'ask \t0\t192.0.2.8\t2\t0',
    b'Packet\t0\t' + FRAME, b'packe\t0\t' + FRAME, b'packets\t0\t' + FRAME, b'packet \t0\t' + FRAME, b'pack\xc3\xa9t\t0\t' + FRAME,
    b'DROP\t0\t0', b'dro\t0\t0', b'drops\t0\t0', b'drop \t0\t0',
    b'FRESH\t02000000000a', b'Fresh\t02000000000a', b'fres\t02000000000a', b'freshh\t02000000000a', b'fresh \t02000000000a',
    b'read\t' + FRAME, b'write\t1', b'clock\t0\t0', b'none', b'probe', b'ok\tnone\t-\t1000\t-', b'refused\t14', b'ok', b'#', b'-',
]) + malformed('an empty line, or blanks alone', [b'', b' ', b'\t', b'\t\t', b'\t\t\t\t', b'  ', b'\r', b'\x00', b'\xff', NBSP])

TABS = malformed('a tab too few', [
    b'tick', b'tick\t', b'tick\t0', b'tick0\t0', b'tick\t00', b'tick 0 0', b'tick\t0 0', b'tick 0\t0', b'tick00',
    b'ask', b'ask\t', b'ask\t0', b'ask\t0\t192.0.2.8', b'ask\t0\t192.0.2.8\t2', b'ask\t0\t192.0.2.82\t0', b'ask\t0 192.0.2.8 2 0',
    b'ask0\t192.0.2.8\t2\t0', b'ask\t0192.0.2.8\t2\t0', b'ask 0 192.0.2.8 2 0', b'ask\t192.0.2.8\t2\t0',
    b'packet', b'packet\t', b'packet\t0', b'packet\t0' + FRAME, b'packet0\t' + FRAME, b'packet\t' + FRAME, b'packet 0 ' + FRAME,
    b'drop', b'drop\t', b'drop\t0', b'drop0\t0', b'drop\t00', b'drop 0 0', b'drop\t0 0',
    b'fresh', b'fresh02000000000a', b'fresh 02000000000a',
]) + malformed('a tab too many, or an empty field', [
    b'\ttick\t0\t0', b'tick\t\t0\t0', b'tick\t0\t\t0', b'tick\t0\t0\t', b'tick\t0\t0\t\t', b'tick\t\t0', b'tick\t0\t', b'tick\t\t', b'tick\t0\t0\t0',
    b'\task\t0\t192.0.2.8\t2\t0', b'ask\t\t0\t192.0.2.8\t2\t0', b'ask\t0\t\t192.0.2.8\t2\t0', b'ask\t0\t192.0.2.8\t\t2\t0',
    b'ask\t0\t192.0.2.8\t2\t\t0', b'ask\t0\t192.0.2.8\t2\t0\t', b'ask\t0\t192.0.2.8\t2\t0\t0', b'ask\t\t192.0.2.8\t2\t0',
    b'ask\t0\t\t2\t0', b'ask\t0\t192.0.2.8\t\t0', b'ask\t0\t192.0.2.8\t2\t', b'ask\t0\t192\t0\t2\t8\t2\t0', b'ask\t\t\t\t',
    b'\tpacket\t0\t' + FRAME, b'packet\t\t0\t' + FRAME, b'packet\t0\t\t' + FRAME, b'packet\t0\t' + FRAME + b'\t', b'packet\t\t' + FRAME,
    b'packet\t0\t' + FRAME + b'\t' + FRAME, b'packet\t0\t' + FRAME + b'\t00', b'packet\t0\t' + FRAME[:28] + b'\t' + FRAME[28:],
    b'packet\t0\t\t', b'packet\t\t', b'packet\t0\t' + FRAME + b'\t\t',
    b'\tdrop\t0\t0', b'drop\t\t0\t0', b'drop\t0\t\t0', b'drop\t0\t0\t', b'drop\t0\t0\t0', b'drop\t\t0', b'drop\t0\t', b'drop\t\t',
    b'\tfresh\t02000000000a', b'fresh\t\t02000000000a', b'fresh\t02000000000a\t', b'fresh\t02000000000a\t0', b'fresh\t', b'fresh\t\t',
])

NUMBERS = malformed('a leading zero', [
    b'tick\t00\t0', b'tick\t01\t0', b'tick\t000000000000000000000000\t0', b'tick\t0\t00', b'tick\t0\t01', b'tick\t0\t0000000000',
    b'ask\t00\t192.0.2.8\t2\t0', b'ask\t0\t192.0.2.8\t02\t0', b'ask\t0\t192.0.2.8\t2\t00', b'ask\t0\t192.0.2.8\t2\t0500',
    b'packet\t00\t' + FRAME, b'packet\t01\t' + FRAME, b'drop\t00\t0', b'drop\t0\t00', b'drop\t0\t000', b'drop\t01\t0',
]) + malformed('a sign', [
    b'tick\t+5\t0', b'tick\t+0\t0', b'tick\t-1\t0', b'tick\t-0\t0', b'tick\t0\t+5', b'tick\t0\t-1', b'tick\t0\t-0',
    b'ask\t+0\t192.0.2.8\t2\t0', b'ask\t0\t192.0.2.8\t+2\t0', b'ask\t0\t192.0.2.8\t-2\t0', b'ask\t0\t192.0.2.8\t2\t+1', b'ask\t0\t192.0.2.8\t2\t-1',
    b'packet\t+0\t' + FRAME, b'packet\t-0\t' + FRAME, b'drop\t+0\t0', b'drop\t0\t+0', b'drop\t0\t-0', b'drop\t0\t-1',
]) + malformed('a space', [
    b'tick\t 0\t0', b'tick\t0 \t0', b'tick\t0\t 0', b'tick\t0\t0 ', b'tick\t1 000\t0', b'tick\t0\t1 000',
    b'ask\t 0\t192.0.2.8\t2\t0', b'ask\t0 \t192.0.2.8\t2\t0', b'ask\t0\t 192.0.2.8\t2\t0', b'ask\t0\t192.0.2.8 \t2\t0',
    b'ask\t0\t192.0.2.8\t 2\t0', b'ask\t0\t192.0.2.8\t2 \t0', b'ask\t0\t192.0.2.8\t2\t 0', b'ask\t0\t192.0.2.8\t2\t0 ',
    b'packet\t 0\t' + FRAME, b'packet\t0 \t' + FRAME, b'packet\t0\t ' + FRAME, b'packet\t0\t' + FRAME + b' ',
    b'drop\t 0\t0', b'drop\t0 \t0', b'drop\t0\t 0', b'drop\t0\t0 ',
]) + malformed('a byte that is no digit', [
    b'tick\t0x0\t0', b'tick\t1e3\t0', b'tick\t1.0\t0', b'tick\t1,000\t0', b"tick\t1'000\t0", b'tick\t1_000\t0', b'tick\ta\t0', b'tick\t0a\t0',
    b'tick\t/\t0', b'tick\t:\t0', b'tick\t5:\t0', b'tick\t/5\t0', b'tick\t0\t0/', b'tick\t0\t0:', b'tick\t0\t0x10', b'tick\t0\t1u', b'tick\t-\t0',
    b'tick\t0\t-', b'tick\t0\t1/', b'tick\t0\t.', b'tick\t0;\t0', b'tick\t\xb0\t0', b'tick\t0\t\xb5', b'tick\t\x30\x0b\t0',
    b'ask\t0\t192.0.2.8\tb\t0', b'ask\t0\t192.0.2.8\t2.\t0', b'ask\t0\t192.0.2.8\t2\t5a', b'ask\t0a\t192.0.2.8\t2\t0',
    b'packet\t0a\t' + FRAME, b'packet\ta\t' + FRAME, b'drop\t0a\t0', b'drop\t0\t0a', b'drop\t0\ta', b'drop\t0\t-',
]) + malformed('a non-breaking space, at every place of each number',
    [b'tick\t' + time + b'\t0' for time in places(b'1000', NBSP)]
    + [b'tick\t0\t' + draw for draw in places(b'500', NBSP)]
    + [b'ask\t' + time + b'\t192.0.2.8\t2\t0' for time in places(b'10', NBSP)]
    + [b'ask\t0\t' + address + b'\t2\t0' for address in places(b'192.0.2.8', NBSP)]
    + [b'ask\t0\t192.0.2.8\t' + policy + b'\t0' for policy in places(b'2', NBSP)]
    + [b'ask\t0\t192.0.2.8\t2\t' + draw for draw in places(b'1000', NBSP)]
    + [b'packet\t' + time + b'\t' + FRAME for time in places(b'10', NBSP)]
    + [b'drop\t' + time + b'\t0' for time in places(b'10', NBSP)]
    + [b'drop\t0\t' + slot for slot in places(b'0', NBSP)]
) + malformed('a digit of another script, or half of one', [
    b'tick\t' + FULL_WIDTH_1 + b'\t0', b'tick\t1' + FULL_WIDTH_1 + b'\t0', b'tick\t0\t' + FULL_WIDTH_1, b'tick\t' + ARABIC_1 + b'\t0',
    b'tick\t0\t' + ARABIC_1, b'tick\t' + SUPERSCRIPT_2 + b'\t0', b'tick\t1' + SUPERSCRIPT_2 + b'\t0', b'tick\t0\t\xef\xbc', b'tick\t0\xc2\t0',
    b'ask\t0\t192.0.2.' + FULL_WIDTH_1 + b'\t2\t0', b'ask\t0\t192.0.2.8\t' + FULL_WIDTH_1 + b'\t0', b'ask\t0\t192.0.2.8\t' + SUPERSCRIPT_2 + b'\t0',
    b'drop\t0\t' + FULL_WIDTH_1, b'drop\t0\t\xef\xbc\x90', b'drop\t0\t\xd9\xa0', b'packet\t0\t' + FRAME[:-1] + FULL_WIDTH_1,
])

# Whole numbers up to 2^64 - 1 make the call; its own refusal shows that. From 2^64 on there is no call (reading whole-numbers).
LARGE_NUMBERS = [
    (b'tick\t' + TWO_64_LESS_1 + b'\t0', b'refused 3', 'time 2^64 - 1'),
    (b'ask\t' + TWO_64_LESS_1 + b'\t192.0.2.8\t2\t0', b'refused 3', 'time 2^64 - 1'),
    (b'packet\t' + TWO_64_LESS_1 + b'\t' + FRAME, b'refused 3', 'time 2^64 - 1'),
    (b'drop\t' + TWO_64_LESS_1 + b'\t0', b'refused 3', 'time 2^64 - 1'),
    (b'tick\t281474976710656\t0', b'refused 3', 'time 2^48'),
    (b'tick\t9223372036854775808\t0', b'refused 3', 'time 2^63'),
    (b'tick\t10000000000000000000\t0', b'refused 3', '20 digits'),
    (b'tick\t9999999999999999999\t0', b'refused 3', '19 digits'),
    (b'ask\t0\t192.0.2.8\t' + TWO_64_LESS_1 + b'\t0', b'refused 9', 'policy 2^64 - 1'),
    (b'ask\t0\t192.0.2.8\t10000000000000000002\t0', b'refused 9', 'a policy of 20 digits'),
    (b'drop\t0\t' + TWO_64_LESS_1, b'refused 13', 'slot 2^64 - 1'),
    (b'drop\t0\t10000000000000000000', b'refused 13', 'a slot of 20 digits'),
] + malformed('2^64 and beyond', [
    b'tick\t' + TWO_64 + b'\t0', b'ask\t' + TWO_64 + b'\t192.0.2.8\t2\t0', b'packet\t' + TWO_64 + b'\t' + FRAME, b'drop\t' + TWO_64 + b'\t0',
    b'ask\t0\t192.0.2.8\t' + TWO_64 + b'\t0', b'drop\t0\t' + TWO_64,
    b'tick\t' + TWO_64_AND_1 + b'\t0', b'ask\t' + TWO_64_AND_1 + b'\t192.0.2.8\t2\t0', b'packet\t' + TWO_64_AND_1 + b'\t' + FRAME,
    b'drop\t' + TWO_64_AND_1 + b'\t0', b'ask\t0\t192.0.2.8\t' + TWO_64_AND_2 + b'\t0', b'drop\t0\t' + TWO_64_AND_1,
    b'tick\t' + TWO_128 + b'\t0', b'ask\t' + TWO_128 + b'\t192.0.2.8\t2\t0', b'packet\t' + TWO_128 + b'\t' + FRAME, b'drop\t' + TWO_128 + b'\t0',
    b'ask\t0\t192.0.2.8\t' + TWO_128_AND_1 + b'\t0', b'drop\t0\t' + TWO_128,
    b'tick\t18446744073709551620\t0', b'tick\t18446744073709551700\t0', b'tick\t18446744073709560000\t0', b'tick\t19000000000000000000\t0',
    b'tick\t20000000000000000000\t0', b'tick\t99999999999999999999\t0', b'tick\t100000000000000000000\t0', b'tick\t184467440737095516150\t0',
    b'ask\t0\t192.0.2.8\t99999999999999999999\t0', b'drop\t0\t99999999999999999999', b'drop\t0\t100000000000000000000',
    b'tick\t1' + b'0' * 99 + b'\t0', b'tick\t' + b'9' * 1000 + b'\t0', b'tick\t1' + b'0' * 4000 + b'\t0', b'tick\t' + b'0' * 4000 + b'\t0',
    b'drop\t0\t' + b'9' * 1000, b'drop\t0\t1' + b'0' * 64, b'ask\t0\t192.0.2.8\t1' + b'0' * 64 + b'\t0', b'packet\t1' + b'0' * 64 + b'\t' + FRAME,
]) + [
    (b'tick\t0\t4294967295', b'ok none - 1000 -', 'draw 2^32 - 1'),
    (b'ask\t0\t192.0.2.8\t2\t4294967295', b'ok taken 1 619 -', 'draw 2^32 - 1: wait 619'),
    (b'drop\t0\t1', b'ok dropped 1 1000 -', 'as before'),
] + malformed('a draw of 2^32 or more, needed or not (reading unused-draw)', [
    b'tick\t0\t4294967296', b'tick\t0\t4294967297', b'tick\t0\t4294967300', b'tick\t0\t4300000000', b'tick\t0\t9999999999', b'tick\t0\t10000000000',
    b'tick\t0\t42949672950', b'tick\t0\t' + TWO_64_LESS_1, b'tick\t0\t' + TWO_64, b'tick\t0\t' + TWO_64_AND_1, b'tick\t0\t' + TWO_128_AND_1,
    b'tick\t0\t1' + b'0' * 99, b'ask\t0\t192.0.2.8\t2\t4294967296', b'ask\t0\t192.0.2.8\t2\t4294967297', b'ask\t0\t192.0.2.8\t2\t10000000000',
    b'ask\t0\t192.0.2.8\t2\t' + TWO_64_LESS_1, b'ask\t0\t192.0.2.8\t2\t' + TWO_64, b'ask\t0\t192.0.2.8\t2\t' + TWO_64_AND_1,
    b'ask\t0\t192.0.2.8\t2\t' + TWO_128, b'ask\t0\t192.0.2.8\t2\t1' + b'0' * 99,
])

ADDRESSES = [
    (b'ask\t0\t0.0.0.0\t2\t0', b'refused 8', 'in the form (reading addresses-in-form)'),
    (b'ask\t0\t255.255.255.255\t2\t0', b'refused 8', 'in the form'),
    (b'ask\t0\t192.0.2.255\t2\t0', b'ok taken 1 0 -', 'in the form'),
    (b'drop\t0\t1', b'ok dropped 1 1000 -', 'as before'),
    (b'ask\t0\t10.0.0.0\t2\t0', b'ok taken 1 0 -', 'in the form'),
    (b'drop\t0\t1', b'ok dropped 1 1000 -', 'as before'),
] + malformed('a part above 255', [
    b'ask\t0\t256.0.2.8\t2\t0', b'ask\t0\t192.256.2.8\t2\t0', b'ask\t0\t192.0.256.8\t2\t0', b'ask\t0\t192.0.2.256\t2\t0',
    b'ask\t0\t448.0.2.8\t2\t0', b'ask\t0\t192.0.2.264\t2\t0', b'ask\t0\t192.0.2.999\t2\t0', b'ask\t0\t1000.0.2.8\t2\t0', b'ask\t0\t192.0.2.65544\t2\t0',
    b'ask\t0\t192.0.2.4294967304\t2\t0', b'ask\t0\t4294967488.0.2.8\t2\t0', b'ask\t0\t192.0.2.' + TWO_64_LESS_1 + b'\t2\t0',
    b'ask\t0\t192.' + TWO_64 + b'.2.8\t2\t0', b'ask\t0\t' + TWO_64_AND_192 + b'.0.2.8\t2\t0', b'ask\t0\t192.0.' + TWO_64_AND_2 + b'.8\t2\t0',
    b'ask\t0\t192.0.2.' + TWO_64_AND_1 + b'\t2\t0', b'ask\t0\t192.0.2.1' + b'0' * 64 + b'\t2\t0',
]) + malformed('a part with a leading zero', [
    b'ask\t0\t0192.0.2.8\t2\t0', b'ask\t0\t192.00.2.8\t2\t0', b'ask\t0\t192.0.02.8\t2\t0', b'ask\t0\t192.0.2.08\t2\t0', b'ask\t0\t192.0.2.01\t2\t0',
    b'ask\t0\t192.000.002.008\t2\t0', b'ask\t0\t00.0.0.0\t2\t0',
]) + malformed('not four parts', [
    b'ask\t0\t192.0.2\t2\t0', b'ask\t0\t192.0\t2\t0', b'ask\t0\t192\t2\t0', b'ask\t0\t192.0.2.8.9\t2\t0', b'ask\t0\t192.0.2.8.\t2\t0',
    b'ask\t0\t.192.0.2.8\t2\t0', b'ask\t0\t3221225992\t2\t0', b'ask\t0\t192.0.520\t2\t0', b'ask\t0\t192.0.2.8.0.0.0.0\t2\t0',
]) + malformed('an empty part', [
    b'ask\t0\t.0.2.8\t2\t0', b'ask\t0\t192..2.8\t2\t0', b'ask\t0\t192.0..8\t2\t0', b'ask\t0\t192.0.2.\t2\t0', b'ask\t0\t...\t2\t0',
    b'ask\t0\t....\t2\t0', b'ask\t0\t192..0.2.8\t2\t0', b'ask\t0\t.\t2\t0',
]) + malformed('a foreign byte in an address', [
    b'ask\t0\t192,0,2,8\t2\t0', b'ask\t0\t192.0.2:8\t2\t0', b'ask\t0\t192.0.2.+8\t2\t0', b'ask\t0\t192.0.2.-8\t2\t0', b'ask\t0\t+192.0.2.8\t2\t0',
    b'ask\t0\t192.0.2. 8\t2\t0', b'ask\t0\t192. 0.2.8\t2\t0', b'ask\t0\t192 .0.2.8\t2\t0', b'ask\t0\t192.0.2.8/24\t2\t0', b'ask\t0\t192.0.2.8:80\t2\t0',
    b'ask\t0\t0xc0.0.2.8\t2\t0', b'ask\t0\tc0.0.2.8\t2\t0', b'ask\t0\tc0000208\t2\t0', b'ask\t0\t192.0.2.a\t2\t0', b'ask\t0\tlocalhost\t2\t0',
    b'ask\t0\t192.0.2.8\x00\t2\t0', b'ask\t0\t192.0\x002.8\t2\t0', b'ask\t0\t192.0.2.8\xff\t2\t0', b'ask\t0\t[192.0.2.8]\t2\t0', b'ask\t0\t::1\t2\t0',
    b'ask\t0\t192\xc2\xb70\xc2\xb72\xc2\xb78\t2\t0', b'ask\t0\t192\xe3\x80\x820.2.8\t2\t0',
])

HARDWARE = malformed('not 12 digits', [
    b'fresh\t0', b'fresh\t0200000000', b'fresh\t02000000000', b'fresh\t02000000000a0', b'fresh\t02000000000a00', b'fresh\t02000000000a02000000000a',
    b'fresh\t' + b'02' * 1500,
]) + malformed('a byte that is no lower-case hex digit', [
    b'fresh\t02000000000A', b'fresh\tFE000000000a', b'fresh\t02000000000g', b'fresh\t02000000000`', b'fresh\t02000000000@', b'fresh\t02000000000G',
    b'fresh\t02000000000/', b'fresh\t02000000000:', b'fresh\t0x000000000a', b'fresh\t02:00:00:00:00:0a', b'fresh\t02-00-00-00-00-0a',
    b'fresh\t02:0:0:0:0:a', b'fresh\t0200.0000.000a', b'fresh\t 2000000000a', b'fresh\t0200000000a ', b'fresh\t02000000000a ', b'fresh\t 02000000000a',
    b'fresh\t020000 00000a', b'fresh\t02000000000\x00', b'fresh\t02000000000a\x00', b'fresh\t02000000000\xff', b'fresh\t+2000000000a', b'fresh\t-2000000000a',
    b'fresh\t02000000000\x10', b'fresh\t02000000000\xb0', b'fresh\t02000000000\xe1',
]) + malformed('a non-breaking space in place of two digits, or besides them',
    [b'fresh\t' + b'02000000000a'[:at] + NBSP + b'02000000000a'[at + 2:] for at in range(11)]
    + [b'fresh\t' + NBSP + b'02000000000a', b'fresh\t02000000000a' + NBSP, b'fresh\t02' + FULL_WIDTH_1 + b'0000000'])

BYTES = [
    (b'packet\t0\t', b'refused 6', '0 digits make the call'),
    (b'packet\t0\t0001', b'refused 6', '4 digits'),
    (b'packet\t0\t' + FRAME[:54], b'refused 6', '54 digits'),
    (b'packet\t0\t' + UNRELATED, b'ok none - 1000 -', '56 digits'),
    (b'packet\t0\t' + UNRELATED + b'0f', b'ok none - 1000 -', '58 digits'),
    (b'packet\t0\t' + UNRELATED + b'00' * 1471, b'ok none - 1000 -', '2,998 digits'),
    (b'packet\t0\t' + UNRELATED + b'9a' * 1472, b'ok none - 1000 -', '3,000 digits make the call'),
    (b'packet\t0\t' + b'0f' * 1500, b'refused 7', '3,000 digits make the call'),
    (b'packet\t18446744073709551615\t' + FRAME + b'00' * 1472, b'refused 3', 'the longest line in the form'),
] + malformed('more than 3,000 digits', [
    b'packet\t0\t' + FRAME + b'00' * 1473, b'packet\t0\t' + FRAME + b'00' * 1500, b'packet\t0\t' + FRAME + b'00' * 2000,
    b'packet\t0\t' + b'0f' * 1501,
]) + malformed('an odd count of digits', [
    b'packet\t0\t0', b'packet\t0\t000', b'packet\t0\t' + FRAME[:55], b'packet\t0\t' + FRAME + b'0', b'packet\t0\t' + FRAME + b'000',
    b'packet\t0\t' + FRAME + b'00' * 1471 + b'0', b'packet\t0\t' + FRAME + b'00' * 1472 + b'0',
]) + malformed('a byte that is no lower-case hex digit', [
    b'packet\t0\t' + FRAME.upper(), b'packet\t0\t' + FRAME.replace(b'bb', b'bB'), b'packet\t0\t' + FRAME.replace(b'bb', b'Bb'),
    b'packet\t0\t' + FRAME + b'0F', b'packet\t0\t' + FRAME + b'F0', b'packet\t0\t' + FRAME + b'00' * 1471 + b'0A', b'packet\t0\t' + FRAME + b'0g',
    b'packet\t0\t' + FRAME + b'g0', b'packet\t0\t' + FRAME + b'0/', b'packet\t0\t' + FRAME + b'0:', b'packet\t0\t' + FRAME + b'0`', b'packet\t0\t' + FRAME + b'0@',
    b'packet\t0\t0x' + FRAME, b'packet\t0\t' + FRAME + b'  ', b'packet\t0\t  ' + FRAME, b'packet\t0\t' + FRAME[:28] + b'  ' + FRAME[28:],
    b'packet\t0\t' + b':'.join(FRAME[at:at + 2] for at in range(0, 56, 2)), b'packet\t0\t' + b' '.join(FRAME[at:at + 2] for at in range(0, 56, 2)),
    b'packet\t0\t' + FRAME + b'\x00\x00', b'packet\t0\t' + FRAME[:54] + b'\x00\x07', b'packet\t0\t' + FRAME + b'\xff\xff', b'packet\t0\t' + FRAME + NBSP,
    b'packet\t0\t' + FRAME[:28] + NBSP + FRAME[28:], b'packet\t0\t' + NBSP + FRAME, b'packet\t0\t' + FRAME[:54] + NBSP, b'packet\t0\t' + FRAME + b'-0',
    b'packet\t0\t' + FRAME + b'\r\r', b'packet\t0\t' + FRAME[:54] + b'\xb0\xb7', b'packet\t0\t-', b'packet\t0\t--', b'packet\t0\t""', b'packet\t0\tzz',
    b'packet\t0\t' + FRAME[:27] + b'g' + FRAME[28:], b'packet\t0\tg' + FRAME[1:], b'packet\t0\t' + FRAME[:55] + b'\x17',
])

FOREIGN_ENDS = malformed('a carriage return (reading carriage-return)', [
    b'tick\t0\t0\r', b'ask\t0\t192.0.2.8\t2\t0\r', b'packet\t0\t' + FRAME + b'\r', b'drop\t0\t0\r', b'fresh\t02000000000a\r', b'\rtick\t0\t0', b'tick\r\t0\t0',
    b'tick\t0\r\t0', b'tick\t0\t0\r\r', b'packet\t0\t\r',
]) + malformed('NUL', [
    b'tick\t0\t0\x00', b'ask\t0\t192.0.2.8\t2\t0\x00', b'packet\t0\t' + FRAME + b'\x00', b'drop\t0\t0\x00', b'tick\x000\x000',
    b'tick\t0\x00\t0', b'tick\t\x00\t0', b'tick\t0\t\x00', b'tick\t0\t0\x00\t', b'\x00\x00\x00\x00',
]) + malformed('a byte above 127', [
    b'tick\t0\t0\xff', b'ask\t0\t192.0.2.8\t2\t0\xff', b'packet\t0\t' + FRAME + b'\xff', b'drop\t0\t0\xff', b'fresh\t02000000000a\xff', b'\xfftick\t0\t0',
    b'tick\xff0\t0', b'tick\t\xff\t0', b'tick\t0\t\x80', b'tick\t0\xe2\x80\x8b\t0', b'tick\t0\t0\xe2\x80\xa8', b'tick\t0\t0\xc2\x85', b'\xf4\x69ck\t0\t0',
]) + malformed('another byte', [
    b'tick\t0\t0\x0b', b'tick\t0\t0\x0c', b'tick\x0b0\x0b0', b'tick\t0\t0\x1a', b'tick\t0\t0\x04', b'tick\t0\t0\x7f', b'tick\t0\t0\\', b'tick\\t0\\t0',
    b'tick\t0\t0\\n', b'tick\t0\t0;', b'tick\t0\t0#', b'tick\t0\t0 # why', b'tick\t0\t0tick\t0\t0', b'tick\t0\t0\x1b[0m', b'tick\t0\t\x08' + b'0',
])

# A line in the form has at most 3,028 bytes, so each of these is 14, once (reading line-limit). What would be in the form after a cut
# at a power of two, or before the filling, is there to show that a long line is one record.
TICK = b'tick\t9\t0'
LONG = malformed('long, up to 4,096 bytes', [
    b'x' * 4095, b'x' * 4096, TICK + b' ' * 4088, b' ' * 4088 + TICK, b'tick\t0\t' + b'0' * 4089, b'\t' * 4096, b'\x00' * 4096,
    b'packet\t0\t' + FRAME + b'0' * 4030, b'packet\t0\t' + FRAME + b'0' * 4031,
]) + malformed('over 4,096 bytes', [
    b'x' * 4097, b'x' * 4096 + TICK, TICK + b' ' * 4089, TICK + b'\x00' * 4096, b'x' * 4097 + TICK, b'tick\t0\t' + b'0' * 5000, b'\t' * 5000, b'\xff' * 5000,
    b'\r' * 4097, b'packet\t0\t' + FRAME + b'0' * 5000, b'x' * 3028 + TICK, b'x' * 8192 + TICK, b'x' * 8193 + TICK,
]) + malformed('10,000 bytes', [b'x' * 10000, TICK + b'\t' * 9992, b'packet\t0\t' + b'0' * 9991]
) + malformed('after a cut of 16, 32 or 64 KiB', [b'x' * 16384 + TICK, b'x' * 32768 + TICK, b'x' * 65536 + TICK, b'x' * (65536 + 4096) + TICK]
) + malformed('200,000 bytes', [b'x' * 199992 + TICK]) + [
    (b'', b'refused 14', 'an empty line after a long one'),
    (b'x' * 5000, b'refused 14', 'two long ones'),
    (b'x' * 5000, b'refused 14', 'in a row'),
] + UNCHANGED

# The record is still there; then a line without its byte 10.
LAST = [
    (b'packet\t0\t' + FRAME, b'ok lost 0 - -', 'the frame is a conflict after all'),
    (b'tick\t0\t0', b'ok none - - -', 'in the form'),
]
UNENDED = (b'tick\t0\t0', b'refused 14', 'in the form, but unended (reading unended-line)')

ROWS = HELD + WORDS + TABS + NUMBERS + LARGE_NUMBERS + ADDRESSES + HARDWARE + BYTES + FOREIGN_ENDS + LONG + LAST
