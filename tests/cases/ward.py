"""A morning on a ward, as its network engineer would see it: a cabinet claims an address, and another machine takes it over.

Times are ms since the cabinet started. Its hardware address is 00005e005321; 00005e0053c4 is a pump that was set to the
cabinet's address by hand, 00005e005340 a laptop, 00005e005301 the router with 192.0.2.1.
192.0.2.7 is c0000207, 192.0.2.19 c0000213.
"""

PROBE_7 = b'000108000604000100005e00532100000000000000000000c0000207'
ANNOUNCE_7 = b'000108000604000100005e005321c0000207000000000000c0000207'
PROBE_19 = b'000108000604000100005e00532100000000000000000000c0000213'

ROUTER_ASKS_FOR_7 = b'000108000604000100005e005301c0000201000000000000c0000207'
LAPTOP_PROBES_7 = b'000108000604000100005e00534000000000000000000000c0000207'
PUMP_ANNOUNCES_7 = b'000108000604000100005e0053c4c0000207000000000000c0000207'

ROWS = [
    (b'fresh\t00005e005321', b'ok fresh - - -', 'the cabinet starts'),
    (b'ask\t4213\t192.0.2.7\t2\t1804289383', b'ok taken 0 5110 -', 'slot 0; 1804289383 mod 1,001 is 897: the first wait'),
    (b'tick\t5000\t1681692777', b'ok none - 5110 -', 'not due yet'),
    (b'tick\t5111\t846930886', b'ok probe 0 6913 ' + PROBE_7, 'first probe, 1 ms late; the gap is 1,000 + 802, from 5111 on'),
    (b'tick\t6913\t1714636915', b'ok probe 0 8905 ' + PROBE_7, 'second probe; the gap is 1,000 + 992'),
    (b'tick\t8906\t1957747793', b'ok probe 0 10906 ' + PROBE_7, 'third probe, then 2,000 whatever the draw'),
    (b'tick\t10906\t424238335', b'ok announce 0 12906 ' + ANNOUNCE_7, 'nobody objected: in use; 2,000 to the second announcement'),
    (b'tick\t12907\t719885386', b'ok announce 0 - ' + ANNOUNCE_7, 'second announcement: settled, nothing more to do'),
    (b'packet\t13044\t' + ROUTER_ASKS_FOR_7, b'ok none - - -', 'a question for the address is no conflict, and not ours to answer'),
    (b'packet\t95820\t' + LAPTOP_PROBES_7, b'ok none - - -', "another's probe for a settled address is no conflict"),
    (b'packet\t3600412\t' + PUMP_ANNOUNCES_7, b'ok defend 0 - ' + ANNOUNCE_7, 'a conflict, the first one of this use: policy 2 defends'),
    (b'packet\t3602413\t' + PUMP_ANNOUNCES_7, b'ok lost 0 - -', 'a second one 2,001 ms later, less than 10,000: given up, no frame'),
    (b'ask\t3602450\t192.0.2.19\t2\t1649760492', b'ok taken 0 3602830 -', 'another address, slot 0 again; 1649760492 mod 1,001 is 380'),
    (b'tick\t3\xc2\xa0602\xc2\xa0830\t596516649', b'refused 14', 'bytes C2 A0, a non-breaking space, in the time: pasted from a report'),
    (b'tick\t3602830\t596516649', b'ok probe 0 3604559 ' + PROBE_19, 'the line put right: first probe; the gap is 1,000 + 729'),
    (b'drop\t3603100\t1', b'refused 13', 'slot 1 is free'),
    (b'drop\t3603100\t0', b'ok dropped 0 - -', 'the held slot is given back, its deadline with it'),
    (b'tick\t3604559\t1189641421', b'ok none - - -', 'no second probe'),
]
