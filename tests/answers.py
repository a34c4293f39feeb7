#!/usr/bin/env python3
"""Writes the records of crates/answers_run, or with `expected` what each must give.

Each case is written by hand from documents 01 and 02: the area's length, the command, the answer, the report if it is
written, and whether the command passes refusals 1 to 4, so that it has operands. At each refusal the area is left alone.
"""

import sys

START = "0100000001" + "0000A0019002BC01F41E14141E0A0F32017C0D"
DE = "0000000000000000FF0000000000FFFFFFFF08"
CS = "0100000000000000FF0000000000FFFFFFFF08"
HS = "0200000000000000FF0000000000FFFFFFFF08"
FA = "0403000000000000FF0000000000FFFFFFFF08"
# With a brake test: settling, braking, passed, another after it; failed, in CS and in FA.
SETTLING = "0000000000000000FF0000000800FFFFFFFF08"
BRAKING = "0002000000000000FF0000000800FFFFFFFF08"
PASSED = "0000000000000000FF0000001000FFFFFFFF08"
ANOTHER = "0000000000000000FF0000001800FFFFFFFF08"
FAILED_IN_CS = "0100000000000000FF0000002000FFFFFFFF08"
FAILED_IN_FA = "0403000000000000FF0000002000FFFFFFFF08"
# In areas 7, 4 and 9; in DA with the train's 160, with 130 in area 4, and with a GMD's 90.
HS_7, HS_4, HS_9 = ("0200000000000000FF0000000000FFFFFFFF" + area for area in ("07", "04", "09"))
CS_4 = "0100000000000000FF0000000000FFFFFFFF04"
FA_4 = "0403000000000000FF0000000000FFFFFFFF04"
DA = "0300000000A000A0FF0000000000FFFFFFFF08"
DA_130 = "0300000000820082FF0000000000FFFFFFFF04"
DA_90 = "03000000005A005AFF0000000000FFFFFFFF04"
TO_FA = "020000000204"
# In DA an ET record 7 at its target of 40: at a stand; at 90 km/h in F; and what stands of that when the record is undecided, and with a curve 7.
AT_TARGET = "03000000002800A00701000040" + "00FFFFFFFF08"
IN_F = "03030014002800A00708020440" + "00FFFFFFFF08"
UNDECIDED = "0303001400A000A0FF00000000" + "01FFFFFFFF08"
CURVE_IN_F = "03030014002800A00708020400" + "00FFFFFFFF08"

CASES = [
    # 1 comes before 2, 3 and 4, and before any repeat; the area is left alone at every length.
    (18, START, 1, None, False),
    (20, START, 1, None, False),
    (0, START, 1, None, False),
    (18, "", 1, None, False),
    (32, "7F", 1, None, False),
    (18, START[:-2], 1, None, False),
    (19, "", 2, None, False),
    (19, "7F", 3, None, False),
    (19, START[:-2], 4, None, False),
    (19, START + "00", 4, None, False),
    (19, "01", 4, None, False),
    # 4 comes before 5 and 6.
    (19, "020000000001" + "00", 4, None, False),
    # 5: no start yet.
    (19, "020000000101", 5, None, True),
    (19, "0100000000" + START[10:], 6, None, True),
    # A start, again, and again with an area of another length.
    (19, START, 0, DE, True),
    (19, START, 100, DE, True),
    (18, START, 1, None, False),
    (19, START, 100, DE, True),
    # 6, 7, 9, 10 and 11 leave the area; none uses up its number.
    (19, "020000000001", 6, None, True),
    (19, "020000000301", 7, None, True),
    (19, "020000000205", 9, None, True),
    (19, "020000000202", 10, None, True),
    (19, "020000000203", 11, None, True),
    (19, "2000000002000000640028" + "00", 10, None, True),
    # FA by command: again is answered, all else but a start is refused.
    (19, TO_FA, 0, FA, True),
    (19, "100000000300000000000003E800", 8, None, True),
    (19, TO_FA, 100, FA, True),
    (14, TO_FA, 1, None, False),
    # A start, and on to HS.
    (19, START, 0, DE, True),
    (19, "020000000201", 0, CS, True),
    (19, "020000000302", 0, HS, True),
    (19, "020000000403", 11, None, True),
    (19, "300000000400", 10, None, True),
    (19, "200000000407020064002800", 9, None, True),
    # 12: a curve and a section that are not held, and a section that is already ending.
    (19, "210000000407", 12, None, True),
    (19, "230000000407", 12, None, True),
    (19, "2200000004070050", 0, HS, True),
    (19, "230000000507", 0, HS, True),
    (19, "230000000607", 12, None, True),
    (19, "230000000607", 12, None, True),
    # 13: sixteen curves with ids 10 to 1F and one more, a held one again; then fifteen sections beside the ending one.
    *[(19, f"20000000{n + 6:02X}1{n:X}0001F4002800", 0, HS, True) for n in range(16)],
    (19, "2000000016200001F4002800", 13, None, True),
    (19, "20000000161F0000FA002800", 0, HS, True),
    *[(19, f"22000000{n + 23:02X}1{n:X}0064", 0, HS, True) for n in range(15)],
    (19, "22000000261F0064", 13, None, True),
    (19, "2200000026070064", 0, HS, True),
    (19, "22000000271F0064", 13, None, True),
    # One ended, 12 for it from then on, and its place used again.
    (19, "21000000271F", 0, HS, True),
    (19, "21000000281F", 12, None, True),
    (19, "2000000028200001F4002800", 0, HS, True),
    (19, "2000000028200001F4002800", 100, HS, True),
    (19, "20000000291F0001F4002800", 13, None, True),
    # In FA 8 comes before 13.
    (19, "020000002904", 0, FA, True),
    (19, "200000002A1F0001F4002800", 8, None, True),
    # A brake test: taken once, again, and 15 while it runs. At 500 kPa it settles at the 31st report, and 440 pass it.
    (19, START, 0, DE, True),
    (19, "400000000200", 4, None, False),
    (19, "4000000002", 0, SETTLING, True),
    (19, "4000000002", 100, SETTLING, True),
    (18, "4000000003", 1, None, False),
    (19, "4000000003", 15, None, True),
    *[(19, f"10000000{n:02X}00000000000003E800", 0, SETTLING, True) for n in range(3, 33)],
    (19, "100000002100000000000003E800", 0, BRAKING, True),
    (19, "4000000022", 15, None, True),
    (19, "100000002100000000000003E800", 100, BRAKING, True),
    (19, "1000000022000000000000037000", 0, PASSED, True),
    # Another, which CS ends; outside DE it is 14, in FA 8.
    (19, "4000000023", 0, ANOTHER, True),
    (19, "020000002401", 0, FAILED_IN_CS, True),
    (19, "4000000025", 14, None, True),
    (19, "020000002504", 0, FAILED_IN_FA, True),
    (19, "4000000026", 8, None, True),
    # Flag bit 2 is taken, bit 3 is not; a start forgets the test.
    (19, "0100000001" + "08" + START[12:], 9, None, True),
    (19, "0100000001" + "04" + START[12:], 0, DE, True),
    # An area event wants HS or DA: 9 comes before 10, and 10 before 16.
    (19, START, 0, DE, True),
    (19, "5000000002000000", 10, None, True),
    (19, "5000000002040000", 10, None, True),
    (19, "5000000002070000", 9, None, True),
    (19, "5000000002010009", 9, None, True),
    (19, "020000000201", 0, CS, True),
    (19, "5000000003040000", 10, None, True),
    (19, "020000000302", 0, HS, True),
    # Its length is 8.
    (19, "50000000040000", 4, None, False),
    (19, "500000000400000000", 4, None, False),
    (18, "5000000004040000", 1, None, False),
    (20, "5000000004040000", 1, None, False),
    # Event 7, a speed past a GMD's limits, a speed of another event; 9 comes before 16.
    (19, "5000000004070000", 9, None, True),
    (19, "5000000004010009", 9, None, True),
    (19, "500000000401012D", 9, None, True),
    (19, "5000000004000001", 9, None, True),
    # In area 8 events 0, 1 and 6 are not taken; 4 leads to 7 and is then sent again.
    (19, "5000000004000000", 16, None, True),
    (19, "5000000004010050", 16, None, True),
    (19, "5000000004060000", 16, None, True),
    (19, "5000000004040000", 0, HS_7, True),
    (19, "5000000004040000", 100, HS_7, True),
    (18, "5000000004040000", 1, None, False),
    (19, "5000000004050000", 7, None, True),
    # In 7 events 2, 3 and 4 are not taken; a GMD of 80 leads to 4, in which 0 is not taken and a GMD of 90 is.
    (19, "5000000005020000", 16, None, True),
    (19, "5000000005030000", 16, None, True),
    (19, "5000000005040000", 16, None, True),
    (19, "5000000005010050", 0, HS_4, True),
    (19, "5000000006000000", 16, None, True),
    (19, "5000000006020000", 16, None, True),
    (19, "5000000006030000", 16, None, True),
    (19, "500000000601005A", 0, HS_4, True),
    # To 9, in which 1, 2, 3 and 5 are not taken, and by 0 to 4 again; then to 8.
    (19, "5000000007050000", 0, HS_9, True),
    (19, "5000000008010050", 16, None, True),
    (19, "5000000008020000", 16, None, True),
    (19, "5000000008030000", 16, None, True),
    (19, "5000000008050000", 16, None, True),
    (19, "5000000008000000", 0, HS_4, True),
    (19, "5000000009060000", 0, HS, True),
    # A group without overlap: area 4 at 5,000 cm.
    (19, "500000000A030000", 0, HS, True),
    (19, "500000000A030000", 100, HS, True),
    *[(19, f"10000000{n:02X}000004B0000003E800", 0, HS, True) for n in range(11, 15)],
    (19, "500000000F000000", 16, None, True),
    (19, "500000000F030000", 0, HS, True),
    (19, "1000000010000000C7000003E800", 0, HS, True),
    (19, "1000000010000000C7000003E800", 100, HS, True),
    (19, "100000001100000001000003E800", 0, HS_4, True),
    (19, "100000001100000001000003E800", 100, HS_4, True),
    # CS and FA keep it; in FA 8 comes before 16. A start makes it 8.
    (19, "020000001201", 0, CS_4, True),
    (19, "020000001304", 0, FA_4, True),
    (19, "5000000014000000", 8, None, True),
    (19, "020000001304", 100, FA_4, True),
    # In DA a balise error that deletes HT information gives 130, and a GMD inside its speed.
    (19, START, 0, DE, True),
    *[(19, f"10000000{n:02X}00000000000003E800", 0, DE, True) for n in range(2, 33)],
    (19, "020000002103", 0, DA, True),
    (19, "5000000022020000", 0, DA_130, True),
    (19, "500000002301005A", 0, DA_90, True),
    (19, "5000000024020000", 16, None, True),
    (19, "500000002301005A", 100, DA_90, True),
    # ET records, signals and their ends want HS or DA: 9 comes before 10, and 10 before 12.
    (19, START, 0, DE, True),
    (19, "510000000207010064002800", 10, None, True),
    (19, "52000000020000", 10, None, True),
    (19, "530000000207", 10, None, True),
    (19, "510000000207040064002800", 9, None, True),
    (19, "52000000020200", 9, None, True),
    (19, "5300000002FF", 9, None, True),
    (19, "020000000201", 0, CS, True),
    (19, "510000000307010064002800", 10, None, True),
    (19, "52000000030101", 10, None, True),
    (19, "530000000307", 10, None, True),
    (19, "51000000030701006400280000", 4, None, False),
    (19, "020000000302", 0, HS, True),
    # Their lengths are 12, 7 and 6.
    (19, "5100000004070100640028", 4, None, False),
    (19, "51000000040701006400280000", 4, None, False),
    (19, "520000000400", 4, None, False),
    (19, "5200000004000000", 4, None, False),
    (19, "5300000004", 4, None, False),
    (19, "53000000040700", 4, None, False),
    (18, "510000000407010064002800", 1, None, False),
    (20, "52000000040000", 1, None, False),
    (18, "530000000407", 1, None, False),
    # Past the limits: id, category, distance, speed and gradient; kind and route; id.
    (19, "5100000004FF010064002800", 9, None, True),
    (19, "510000000407040064002800", 9, None, True),
    (19, "510000000407012711002800", 9, None, True),
    (19, "510000000407010064000900", 9, None, True),
    (19, "510000000407010064012D00", 9, None, True),
    (19, "51000000040701006400281F", 9, None, True),
    (19, "5100000004070100640028E1", 9, None, True),
    (19, "52000000040200", 9, None, True),
    (19, "52000000040002", 9, None, True),
    (19, "5300000004FF", 9, None, True),
    # 12: no record is held. A signal is taken all the same.
    (19, "530000000407", 12, None, True),
    (19, "52000000040000", 0, HS, True),
    (19, "52000000040000", 100, HS, True),
    # RF with the greatest figures; 18 while it is undecided. A main signal leaves it so, a distant one for R makes it active.
    (19, "510000000500002710012C1E", 0, HS, True),
    (19, "510000000500002710012C1E", 100, HS, True),
    (19, "510000000600000000000AE2", 18, None, True),
    (19, "52000000060000", 0, HS, True),
    (19, "510000000700000000000AE2", 18, None, True),
    (19, "52000000070100", 0, HS, True),
    # A repeater with the least figures, once; again it is answered, with the next number 18.
    (19, "510000000800000000000AE2", 0, HS, True),
    (19, "510000000800000000000AE2", 100, HS, True),
    (18, "510000000800000000000AE2", 1, None, False),
    (19, "510000000900000000000AE2", 18, None, True),
    # A distant signal for G makes it passive: it gives way to none, and a later signal touches nothing.
    (19, "52000000090101", 0, HS, True),
    (19, "510000000A00000000000AE2", 18, None, True),
    (19, "520000000A0100", 0, HS, True),
    (19, "510000000B00000000000AE2", 18, None, True),
    # GH: a distant signal leaves it undecided, a main one for R ends it; one for G makes the next active, which RH repeats.
    (19, "510000000BFE030064002800", 0, HS, True),
    (19, "520000000C0100", 0, HS, True),
    (19, "510000000DFE030064002800", 18, None, True),
    (19, "520000000D0000", 0, HS, True),
    (19, "530000000EFE", 12, None, True),
    (19, "510000000EFE030064002800", 0, HS, True),
    (19, "520000000F0001", 0, HS, True),
    (19, "5100000010FE010064002800", 0, HS, True),
    # 17: six more of GH make eight. 9 comes before 17 and 18; 21 finds no record, and 53 no curve.
    *[(19, f"51000000{n + 16:02X}0{n:X}030064002800", 0, HS, True) for n in range(1, 7)],
    (19, "510000001707030064002800", 17, None, True),
    (19, "510000001707040064002800", 9, None, True),
    (19, "510000001706030064002800", 18, None, True),
    (19, "510000001706030064000900", 9, None, True),
    (19, "510000001606030064002800", 100, HS, True),
    (19, "210000001706", 12, None, True),
    (19, "200000001706000064002800", 0, HS, True),
    (19, "200000001807000064002800", 0, HS, True),
    (19, "530000001907", 12, None, True),
    (19, "530000001906", 0, HS, True),
    (19, "530000001906", 100, HS, True),
    (19, "530000001A06", 12, None, True),
    (19, "210000001A06", 0, HS, True),
    (19, "510000001B07030064002800", 0, HS, True),
    (19, "510000001C08030064002800", 17, None, True),
    # A main signal for R ends the six of GH and makes the one of RH active.
    (19, "520000001C0000", 0, HS, True),
    (19, "530000001D01", 12, None, True),
    (19, "510000001D08030064002800", 0, HS, True),
    (19, "510000001EFE010064002800", 0, HS, True),
    # 9,999 cm, and the 100 m: then locked, no signal touches it and it gives way to none. It can be ended.
    *[(19, f"10000000{n:02X}000004B0000003E800", 0, HS, True) for n in range(31, 39)],
    (19, "10000000270000018F000003E800", 0, HS, True),
    (19, "10000000270000018F000003E800", 100, HS, True),
    (19, "510000002809030064002800", 0, HS, True),
    (19, "100000002900000001000003E800", 0, HS, True),
    (19, "520000002A0000", 0, HS, True),
    (19, "530000002B09", 12, None, True),
    (19, "510000002B08030064002800", 18, None, True),
    (19, "510000002BFE010064002800", 18, None, True),
    (19, "530000002B08", 0, HS, True),
    (19, "530000002C08", 12, None, True),
    # CS drops them all; in FA 8 comes before 12, 17 and 18.
    (19, "020000002C01", 0, CS, True),
    (19, "020000002D02", 0, HS, True),
    (19, "530000002EFE", 12, None, True),
    (19, "530000002E00", 12, None, True),
    *[(19, f"51000000{n + 46:02X}0{n:X}010064002800", 0, HS, True) for n in range(8)],
    (19, "020000003604", 0, FA, True),
    (19, "510000003708010064002800", 8, None, True),
    (19, "510000003700010064002800", 8, None, True),
    (19, "52000000370000", 8, None, True),
    (19, "530000003708", 8, None, True),
    (19, "020000003604", 100, FA, True),
    # In DA a record at its target: nothing while it is undecided, then shown with bit 6. The signal orders nothing, the next report does.
    (19, START, 0, DE, True),
    *[(19, f"10000000{n:02X}00000000000003E800", 0, DE, True) for n in range(2, 33)],
    (19, "020000002103", 0, DA, True),
    (19, "510000002207010000002800", 0, DA, True),
    (19, "52000000230001", 0, DA, True),
    (19, "510000002407010000002800", 0, DA, True),
    (19, "52000000250000", 0, AT_TARGET, True),
    (19, "52000000250000", 100, AT_TARGET, True),
    (19, "100000002609C400000000" + "03E800", 0, IN_F, True),
    # A repeater takes it away at once, and a release is offered. 18 writes nothing. A curve of the same figures is shown without bit 6.
    (19, "510000002707000000002800", 0, UNDECIDED, True),
    (19, "510000002807000000002800", 18, None, True),
    (19, "510000002707000000002800", 100, UNDECIDED, True),
    (19, "200000002807000000002800", 0, CURVE_IN_F, True),
    # With both it is the curve that is shown, and the record when the curve is ended; ended too, none.
    (19, "52000000290100", 0, CURVE_IN_F, True),
    (19, "210000002A07", 0, IN_F, True),
    (19, "210000002B07", 12, None, True),
    (19, "530000002B07", 0, UNDECIDED, True),
    (19, "510000002C07020000002800", 0, UNDECIDED, True),
    (19, "520000002D0101", 0, IN_F, True),
    # In FA bit 6 does not stand.
    (19, "020000002E04", 0, FA, True),
    (19, "020000002E04", 100, FA, True),
]

for area, command, answer, report, passes in CASES:
    code = bytes.fromhex(command)
    if sys.argv[1:] == ["expected"]:
        held = report or "AA" * area
        print(f"answer {answer} area {held} operands {command[10:] if passes else ''}")
    else:
        sys.stdout.buffer.write(bytes([area, len(code)]) + code.ljust(32, b"\0"))
