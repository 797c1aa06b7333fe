"""Makes crates/examples/stdout: python3 tests/examples.py > crates/examples/stdout

Each line is an example of document 000, in its order, with what the manual prints of the state after execution, typed from its pages. The
comments name the lines of its text, and say where a value is not the manual's: an address moved into the memory, a value that
follows from an operand which the manual leaves open, or a correction. PC, where it is shown, is 2 past the SLEEP at which the
example ends, and the steps are the instructions that the manual's remarks say are executed, with that SLEEP.
"""

MASK = 0xFFFFFFFF


def long(number):
    return "%08x" % (number & MASK)


def macs(products):
    total = sum(products)
    return long(total >> 32), long(total)


def quotient(dividend, divisor):
    """Towards zero, as the signed sequences divide."""
    return abs(dividend) // abs(divisor) * (1 if (dividend < 0) == (divisor < 0) else -1)


def chapter_4():
    # 480: the word is H'00001234, added to R0 = 1. 498: 1 + 2, then TRGET. 518: TRGET0 is H'1006, TRGET1 H'1008. 521: 1 - 1 is 0.
    print("4.1.3 MOV.W @(disp,PC),R1; ADD R1,R0: R1 = 00001234, R0 = 00001235")
    print("4.1.5 BRA TRGET; ADD R1,R0: R0 = 00000003, PC = 00001008")
    print("4.1.7 CMP/GE R1,R0 with R0 = R1; BT TRGET0; BF TRGET1: T = 1, PC = 00001008")
    print("4.1.7 CMP/GE R1,R0 with R0 < R1; BT TRGET0; BF TRGET1: T = 0, PC = 0000100a")
    print("4.1.7 ADD #-1,R0; CMP/EQ #0,R0; BT TRGET: R0 = 00000000, T = 1, PC = 0000100a")
    # 533, 551 (the byte there is chosen, H'5A), 564 (the word there is chosen, H'5678).
    print("4.1.8 MOV #H'12,R0: R0 = 00000012")
    print("4.1.8 MOV.W @(disp,PC),R0: R0 = 00001234")
    print("4.1.8 MOV.L @(disp,PC),R0: R0 = 12345678")
    print("4.1.9 MOV.L @(disp,PC),R1; MOV.B @R1,R0: R1 = 00003678, R0 = 0000005a")
    print("4.1.10 MOV.W @(disp,PC),R0; MOV.W @(R0,R1),R2: R0 = 00001234, R2 = 00005678")


def notes():
    # 1418 to 1437. What is stacked is document 01's: the instruction's address, and in a slot the target.
    print("6.1 H'FFFF: PC = 00003002, R15 = 000037f8, stacked PC = 00001000, stacked SR = 000000f0")
    print("6.1 H'3105: MACH = 00005554, MACL = ffff5556")
    print("6.1 BRA Label; .data.w H'FFFF: PC = 00003002, R15 = 000037f8, stacked PC = 00001006, stacked SR = 000000f0")
    print("6.1 RTE; BT/S Label: PC = 00003002, R15 = 000037f8, stacked PC = 00002000, stacked SR = 000000f0")


def add_to_cmp():
    # 1507 to 1511
    print("6.3 CLRT; ADDC R3,R1: T = 1, R1 = 00000000")
    print("6.3 CLRT; ADDC R3,R1; ADDC R2,R0: T = 0, R0 = 00000001")
    # 1603
    print("6.5 AND.B #H'80,@(R0,GBR): @(R0,GBR) = 80")
    # 1634: TRGET_F is H'100A. 1678: TRGET_F is H'100C; 1 + 2 in the slot. 1720: TRGET is H'1006.
    print("6.6 CLRT; BT TRGET_T; BF TRGET_F: T = 0, PC = 0000100c, steps = 4")
    print("6.7 CLRT; BT/S TRGET_T; NOP; BF/S TRGET_F; ADD R0,R1: T = 0, R1 = 00000003, PC = 0000100e, steps = 6")
    print("6.8 BRA TRGET; ADD R0,R1: R1 = 00000003, PC = 00001008, steps = 3")
    # 1756: TRGET-BRAF_PC is 2, added to R1 = 1; TRGET is H'1008.
    print("6.9 MOV.L #(TRGET-BRAF_PC),R0; BRAF R0; ADD R0,R1: R0 = 00000002, R1 = 00000003, PC = 0000100a, steps = 4")
    # 1796 and 1835: R4 has the R3 before the branch, R3 then R2; R0 = 1 is added to R1 = 5 after the return to PR.
    print(
        "6.10 BSR TRGET; MOV R3,R4; ADD R0,R1: "
        "PR = 00001004, R4 = 00000033, R3 = 00000022, R0 = 00000001, R1 = 00000006, PC = 00001008, steps = 7"
    )
    print(
        "6.11 MOV.L #(TRGET-BSRF_PC),R0; BSRF R0; MOV R3,R4; ADD R0,R1: "
        "PR = 00001006, R4 = 00000033, R3 = 00000022, R0 = 00000001, R1 = 00000006, PC = 0000100a, steps = 8"
    )
    # 1877: TRGET_T is H'100A. 1917: TRGET_T is H'100C.
    print("6.12 SETT; BF TRGET_F; BT TRGET_T: T = 1, PC = 0000100c, steps = 4")
    print("6.13 SETT; BF/S TRGET_F; NOP; BT/S TRGET_T; ADD R0,R1: T = 1, R1 = 00000003, PC = 0000100e, steps = 6")
    # 1950, with the tables of 3012; both registers go on by two words.
    print("6.14 CLRMAC: MACH = 00000000, MACL = 00000000")
    sums = macs([0x1234 * 0x0123, 0x5678 * 0x4567])
    print("6.14 CLRMAC; MAC.W @R0+,@R1+; MAC.W @R0+,@R1+: MACH = %s, MACL = %s, R0 = 00003008, R1 = 00003004" % sums)
    # 1976, 2103: TRGET_T is H'100A and H'1006.
    print("6.15 CLRT: T = 0")
    print("6.16 CMP/GE R0,R1: T = 0")
    print("6.16 CMP/GE R0,R1; BT TRGET_T; CMP/HS R0,R1; BT TRGET_T: T = 1, PC = 0000100c, steps = 5")
    print("6.16 CMP/STR R2,R3; BT TRGET_T: T = 1, PC = 00001008, steps = 3")


def div1():
    # 2246. Line 2258 has "R1 = Quotient" beside EXTU.W R1,R2: it is in both. ZERO_DIV is H'1032, OVER_DIV H'1034.
    first = quotient(0x12345678, 0x5678)
    print("6.19 Example 1, H'12345678 / H'5678: R1 (16 bits) = %04x, R2 = %s, steps = 25" % (first, long(first)))
    print("6.19 Example 1, H'12345678 / 0: PC = 00001034, steps = 4")
    print("6.19 Example 1, H'12345678 / H'1234: PC = 00001036, steps = 6")
    # 2262. ZERO_DIV is H'108E, OVER_DIV H'1090.
    second = quotient(0x123456789ABCDEF0, 0x87654321)
    print("6.19 Example 2, H'123456789ABCDEF0 / H'87654321: R2 = %s, steps = 71" % long(second))
    print("6.19 Example 2, H'123456789ABCDEF0 / 0: PC = 00001090, steps = 3")
    print("6.19 Example 2, H'123456789ABCDEF0 / H'12345678: PC = 00001092, steps = 5")
    # 2279, 2299
    print("6.19 Example 3, -1000 / 7: R1 = %s, steps = 28" % long(quotient(-1000, 7)))
    print("6.19 Example 3, 1000 / -7: R1 = %s, steps = 28" % long(quotient(1000, -7)))
    print("6.19 Example 4, -100000000 / 12345: R2 = %s, steps = 73" % long(quotient(-100000000, 12345)))
    print("6.19 Example 4, -100000000 / -12345: R2 = %s, steps = 73" % long(quotient(-100000000, -12345)))


def dmuls_to_mac():
    # 2381; digits of MACH are lost. 2435.
    print("6.20 DMULS.L R0,R1; STS MACH,R0: MACH = ffffffff, MACL = ffff5556, R0 = ffffffff")
    print("6.20 DMULS.L R0,R1; STS MACH,R0; STS MACL,R0: R0 = ffff5556")
    print("6.21 DMULU.L R0,R1; STS MACH,R0: MACH = 00005554, MACL = ffff5556, R0 = 00005554")
    print("6.21 DMULU.L R0,R1; STS MACH,R0; STS MACL,R0: R0 = ffff5556")
    # 2464: four times R0 = 3.
    print("6.22 MOV #4,R5; ADD R0,R1; DT R5; BF LOOP: R5 = 00000000, T = 1, R1 = 0000000c, steps = 14")
    # 2577: TRGET is H'100E. 2616: TRGET is H'1010, added to 70 after the return to PR.
    print(
        "6.25 MOV.L JMP_TABLE,R0; JMP @R0; MOV R0,R1; ADD #1,R1: "
        "R0 = 0000100e, R1 = 0000100f, PC = 00001012, steps = 5"
    )
    print(
        "6.26 MOV.L JSR_TABLE,R0; JSR @R0; XOR R1,R1; ADD R0,R1: "
        "PR = 00001006, R3 = 00000022, R0 = 00001010, R1 = 00001056, PC = 0000100a, steps = 9"
    )
    # 2700, 2787: H'10000000 is H'3000, and the long there is chosen.
    print("6.27 LDC R0,SR: SR = 000003f3")
    print("6.27 LDC.L @R15+,GBR: R15 = 00003004, GBR = 89abcdef")
    print("6.28 LDS R0,PR: PR = 12345678")
    print("6.28 LDS.L @R15+,MACL: R15 = 00003004, MACL = 89abcdef")
    # 2894, 3003: the manual prints no sum. The tables are at H'1010 and H'1018, and at H'1010 and H'1014.
    print("6.29 MOVA TBLM,R0; MOV R0,R1; MOVA TBLN,R0: R1 = 00001010, R0 = 00001018")
    high, low = macs([0x1234ABCD * 0x0123ABCD, 0x5678EF01 * 0x4567DEF0])
    print(
        "6.29 CLRMAC; MAC.L @R0+,@R1+; MAC.L @R0+,@R1+; STS MACL,R0: "
        f"MACH = {high}, MACL = {low}, R0 = {low}, R1 = 00001018"
    )
    print("6.31 MOVA TBLM,R0; MOV R0,R1; MOVA TBLN,R0: R1 = 00001010, R0 = 00001014")
    high, low = macs([0x1234 * 0x0123, 0x5678 * 0x4567])
    print(
        "6.31 CLRMAC; MAC.W @R0+,@R1+; MAC.W @R0+,@R1+; STS MACL,R0: "
        f"MACH = {high}, MACL = {low}, R0 = {low}, R1 = 00001014"
    )


def mov_to_mulu():
    # 3199 to 3212. H'FFFF7F7E is H'3F7E, H'12345674 H'3674; what lies at H'12345670 and H'10000004 is chosen.
    print("6.32 MOV R0,R1: R1 = ffffffff")
    print("6.32 MOV.W R0,@R1: @R1 = 7f80")
    print("6.32 MOV.B @R0,R1: R1 = ffffff80")
    print("6.32 MOV.W R0,@-R1: R1 = 00003f7e, @R1 = aaaa")
    print("6.32 MOV.L @R0+,R1: R0 = 00003674, R1 = 89abcdef")
    print("6.32 MOV.B R1,@(R0,R2): @(R0,R2) = ef")
    print("6.32 MOV.W @(R0,R2),R1: R1 = ffff9abc")
    # 3273. MOV.L in the slot reads at H'1010 + 4 (document 01): CMP/EQ #0,R0 and the NOP of the alignment. With 8 it is the manual's value.
    for name, found in ("MOV #H'80,R1 to CMP/EQ #0,R0", "88000009"), ("the same with MOV.L @(8,PC),R3", "12345678"):
        print(
            f"6.33 {name}: R1 = ffffff80, R2 = ffff9abc, R13 = 00000001, R3 = {found}, stacked PC = {found}, steps = 11"
        )
    # 3378 to 3381: the value itself; the last byte of R0. 3475 to 3479.
    print("6.34 MOV.L @(2,GBR),R0: R0 = 12345670")
    print("6.34 MOV.B R0,@(1,GBR): @(GBR + 1) = 80")
    print("6.35 MOV.L @(2,R0),R1: R1 = 12345670")
    print("6.35 MOV.L R0,@(H'F,R1): @(R1 + 60) = ffff7f80")
    # 3508: "X" is H'58; 1 + 2. 3514: from the instruction's own address (document 01). TRGET is H'200A.
    print("6.36 MOVA STR,R0; MOV.B @R0,R1; ADD R4,R5: R0 = 0000100c, R1 = 00000058, R5 = 00000003, PC = 0000100c")
    print("6.36 BRA TRGET; MOVA @(0,PC),R0: R0 = 00002008, PC = 0000200c, steps = 3")
    # 3540, 3568, 3595, 3623
    print("6.37 XOR R2,R2; CMP/PZ R2; MOVT R0: R2 = 00000000, T = 1, R0 = 00000001")
    print("6.37 XOR R2,R2; CMP/PZ R2; MOVT R0; CLRT; MOVT R1: T = 0, R1 = 00000000")
    print("6.38 MUL.L R0,R1; STS MACL,R0: MACL = ffff5556, R0 = ffff5556")
    print("6.39 MULS.W R0,R1; STS MACL,R0: MACL = ffff5556, R0 = ffff5556")
    print("6.40 MULU.W R0,R1; STS MACL,R0: MACL = 00015554, R0 = 00015554")


def negc_to_xtrct():
    # 3680, 3705, 3778
    print("6.42 CLRT; NEGC R1,R1: R1 = ffffffff, T = 1")
    print("6.42 CLRT; NEGC R1,R1; NEGC R0,R0: R0 = ffffffff, T = 1")
    print("6.43 NOP: PC = 00001004, steps = 2")
    print("6.45 OR.B #H'50,@(R0,GBR): @(R0,GBR) = f5")
    # 3952: SR is masked with H'3F3. 3986: TRGET is H'1010; 12 is added to R1 = 5 after the return to PR.
    print("6.50 RTE; ADD #8,R14: R14 = 00000008, R15 = 00003800, SR = 000003f3, PC = 00002002, steps = 3")
    print(
        "6.51 MOV.L TABLE,R3; JSR @R3; NOP; ADD R0,R1: "
        "PR = 00001006, R3 = 00001010, R0 = 0000000c, R1 = 00000011, PC = 0000100a, steps = 8"
    )
    # 4020, 4278
    print("6.52 SETT: T = 1")
    print("6.59 SLEEP: asleep = 1, PC = 00001002, steps = 1")
    # 4350, 4441: H'10000000 is H'3000, and GBR and PR are chosen.
    print("6.60 STC SR,R0: R0 = 00000000")
    print("6.60 STC.L GBR,@-R15: R15 = 00003000, @R15 = 89abcdef")
    print("6.61 STS MACH,R0: R0 = 00000000")
    print("6.61 STS.L PR,@-R15: R15 = 00003000, @R15 = 89abcdef")
    # 4500
    print("6.63 CLRT; SUBC R3,R1: T = 1, R1 = ffffffff")
    print("6.63 CLRT; SUBC R3,R1; SUBC R2,R0: T = 1, R0 = ffffffff")
    # 4624: loops until the data is 0, here for 100 steps.
    print("6.66 TAS.B @R7; BF _LOOP with 0 at 1000: T = 1, @R7 = 80, asleep = 1, steps = 3")
    print("6.66 TAS.B @R7; BF _LOOP with 1 at 1000: T = 0, @R7 = 81, asleep = 0, steps = 100")
    # 4655: the routine at H'10000000 is at H'3000.
    print(
        "6.67 TRAPA #H'20, at the routine: "
        "R15 = 000037f8, stacked PC = 00001002, stacked SR = 000000f0, PC = 00003000"
    )
    print("6.67 TRAPA #H'20; TST #0,R0: R15 = 00003800, R0 = 00000000, T = 1, PC = 00001006, steps = 6")
    # 4721, 4770, 4802
    print("6.68 TST.B #H'A5,@(R0,GBR): T = 0")
    print("6.69 XOR.B #H'A5,@(R0,GBR): @(R0,GBR) = 00")
    print("6.70 XTRCT R0,R1: R1 = 456789ab")


for part in chapter_4, notes, add_to_cmp, div1, dmuls_to_mac, mov_to_mulu, negc_to_xtrct:
    part()
