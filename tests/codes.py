#!/usr/bin/env python3
"""Makes crates/codes/stdout from the manual's patterns by arithmetic alone: python3 tests/codes.py > crates/codes/stdout

The patterns are those of document 000, Table 5.9, in its order, taken by the rule of docs/DECISIONS.md ("The code table") from that
table, Table A.50 and document 004's list. It is the same reading as that of crates/decoder/specs/Table.antt: what this script checks is the
decoder's counts and ends, not the reading. A pattern's letters are free bits: k of them give 2 ** k words, the first with every free
bit 0 and the last with every free bit 1.
"""

PATTERNS = """
0111nnnniiiiiiii ADD #imm,Rn
0011nnnnmmmm1100 ADD Rm,Rn
0011nnnnmmmm1110 ADDC Rm,Rn
0011nnnnmmmm1111 ADDV Rm,Rn
11001001iiiiiiii AND #imm,R0
0010nnnnmmmm1001 AND Rm,Rn
11001101iiiiiiii AND.B #imm,@(R0,GBR)
10001011dddddddd BF label
10001111dddddddd BF/S label
1010dddddddddddd BRA label
0000mmmm00100011 BRAF Rm
1011dddddddddddd BSR label
0000mmmm00000011 BSRF Rm
10001001dddddddd BT label
10001101dddddddd BT/S label
0000000000101000 CLRMAC
0000000000001000 CLRT
10001000iiiiiiii CMP/EQ #imm,R0
0011nnnnmmmm0000 CMP/EQ Rm,Rn
0011nnnnmmmm0011 CMP/GE Rm,Rn
0011nnnnmmmm0111 CMP/GT Rm,Rn
0011nnnnmmmm0110 CMP/HI Rm,Rn
0011nnnnmmmm0010 CMP/HS Rm,Rn
0100nnnn00010101 CMP/PL Rn
0100nnnn00010001 CMP/PZ Rn
0010nnnnmmmm1100 CMP/STR Rm,Rn
0010nnnnmmmm0111 DIV0S Rm,Rn
0000000000011001 DIV0U
0011nnnnmmmm0100 DIV1 Rm,Rn
0011nnnnmmmm1101 DMULS.L Rm,Rn
0011nnnnmmmm0101 DMULU.L Rm,Rn
0100nnnn00010000 DT Rn
0110nnnnmmmm1110 EXTS.B Rm,Rn
0110nnnnmmmm1111 EXTS.W Rm,Rn
0110nnnnmmmm1100 EXTU.B Rm,Rn
0110nnnnmmmm1101 EXTU.W Rm,Rn
0100mmmm00101011 JMP @Rm
0100mmmm00001011 JSR @Rm
0100mmmm00011110 LDC Rm,GBR
0100mmmm00001110 LDC Rm,SR
0100mmmm00101110 LDC Rm,VBR
0100mmmm00010111 LDC.L @Rm+,GBR
0100mmmm00000111 LDC.L @Rm+,SR
0100mmmm00100111 LDC.L @Rm+,VBR
0100mmmm00001010 LDS Rm,MACH
0100mmmm00011010 LDS Rm,MACL
0100mmmm00101010 LDS Rm,PR
0100mmmm00000110 LDS.L @Rm+,MACH
0100mmmm00010110 LDS.L @Rm+,MACL
0100mmmm00100110 LDS.L @Rm+,PR
0000nnnnmmmm1111 MAC.L @Rm+,@Rn+
0100nnnnmmmm1111 MAC.W @Rm+,@Rn+
1110nnnniiiiiiii MOV #imm,Rn
0110nnnnmmmm0011 MOV Rm,Rn
11000100dddddddd MOV.B @(disp,GBR),R0
10000100mmmmdddd MOV.B @(disp,Rm),R0
0000nnnnmmmm1100 MOV.B @(R0,Rm),Rn
0110nnnnmmmm0100 MOV.B @Rm+,Rn
0110nnnnmmmm0000 MOV.B @Rm,Rn
11000000dddddddd MOV.B R0,@(disp,GBR)
10000000nnnndddd MOV.B R0,@(disp,Rn)
0000nnnnmmmm0100 MOV.B Rm,@(R0,Rn)
0010nnnnmmmm0100 MOV.B Rm,@-Rn
0010nnnnmmmm0000 MOV.B Rm,@Rn
11000110dddddddd MOV.L @(disp,GBR),R0
1101nnnndddddddd MOV.L @(disp,PC),Rn
0101nnnnmmmmdddd MOV.L @(disp,Rm),Rn
0000nnnnmmmm1110 MOV.L @(R0,Rm),Rn
0110nnnnmmmm0110 MOV.L @Rm+,Rn
0110nnnnmmmm0010 MOV.L @Rm,Rn
11000010dddddddd MOV.L R0,@(disp,GBR)
0001nnnnmmmmdddd MOV.L Rm,@(disp,Rn)
0000nnnnmmmm0110 MOV.L Rm,@(R0,Rn)
0010nnnnmmmm0110 MOV.L Rm,@-Rn
0010nnnnmmmm0010 MOV.L Rm,@Rn
11000101dddddddd MOV.W @(disp,GBR),R0
1001nnnndddddddd MOV.W @(disp,PC),Rn
10000101mmmmdddd MOV.W @(disp,Rm),R0
0000nnnnmmmm1101 MOV.W @(R0,Rm),Rn
0110nnnnmmmm0101 MOV.W @Rm+,Rn
0110nnnnmmmm0001 MOV.W @Rm,Rn
11000001dddddddd MOV.W R0,@(disp,GBR)
10000001nnnndddd MOV.W R0,@(disp,Rn)
0000nnnnmmmm0101 MOV.W Rm,@(R0,Rn)
0010nnnnmmmm0101 MOV.W Rm,@-Rn
0010nnnnmmmm0001 MOV.W Rm,@Rn
11000111dddddddd MOVA @(disp,PC),R0
0000nnnn00101001 MOVT Rn
0000nnnnmmmm0111 MUL.L Rm,Rn
0010nnnnmmmm1111 MULS.W Rm,Rn
0010nnnnmmmm1110 MULU.W Rm,Rn
0110nnnnmmmm1011 NEG Rm,Rn
0110nnnnmmmm1010 NEGC Rm,Rn
0000000000001001 NOP
0110nnnnmmmm0111 NOT Rm,Rn
11001011iiiiiiii OR #imm,R0
0010nnnnmmmm1011 OR Rm,Rn
11001111iiiiiiii OR.B #imm,@(R0,GBR)
0100nnnn00100100 ROTCL Rn
0100nnnn00100101 ROTCR Rn
0100nnnn00000100 ROTL Rn
0100nnnn00000101 ROTR Rn
0000000000101011 RTE
0000000000001011 RTS
0000000000011000 SETT
0100nnnn00100000 SHAL Rn
0100nnnn00100001 SHAR Rn
0100nnnn00000000 SHLL Rn
0100nnnn00001000 SHLL2 Rn
0100nnnn00011000 SHLL8 Rn
0100nnnn00101000 SHLL16 Rn
0100nnnn00000001 SHLR Rn
0100nnnn00001001 SHLR2 Rn
0100nnnn00011001 SHLR8 Rn
0100nnnn00101001 SHLR16 Rn
0000000000011011 SLEEP
0000nnnn00010010 STC GBR,Rn
0000nnnn00000010 STC SR,Rn
0000nnnn00100010 STC VBR,Rn
0100nnnn00010011 STC.L GBR,@-Rn
0100nnnn00000011 STC.L SR,@-Rn
0100nnnn00100011 STC.L VBR,@-Rn
0000nnnn00001010 STS MACH,Rn
0000nnnn00011010 STS MACL,Rn
0000nnnn00101010 STS PR,Rn
0100nnnn00000010 STS.L MACH,@-Rn
0100nnnn00010010 STS.L MACL,@-Rn
0100nnnn00100010 STS.L PR,@-Rn
0011nnnnmmmm1000 SUB Rm,Rn
0011nnnnmmmm1010 SUBC Rm,Rn
0011nnnnmmmm1011 SUBV Rm,Rn
0110nnnnmmmm1000 SWAP.B Rm,Rn
0110nnnnmmmm1001 SWAP.W Rm,Rn
0100nnnn00011011 TAS.B @Rn
11000011iiiiiiii TRAPA #imm
11001000iiiiiiii TST #imm,R0
0010nnnnmmmm1000 TST Rm,Rn
11001100iiiiiiii TST.B #imm,@(R0,GBR)
11001010iiiiiiii XOR #imm,R0
0010nnnnmmmm1010 XOR Rm,Rn
11001110iiiiiiii XOR.B #imm,@(R0,GBR)
0010nnnnmmmm1101 XTRCT Rm,Rn
"""

defined = 0
for line in PATTERNS.split("\n"):
    if not line:
        continue
    pattern = line.split()[0]
    free = sum(letter in "nmid" for letter in pattern)
    first = int("".join(bit if bit in "01" else "0" for bit in pattern), 2)
    last = int("".join(bit if bit in "01" else "1" for bit in pattern), 2)
    defined += 2**free
    print(f"{pattern} {2**free} {first:04x} {last:04x}")
print(f"defined {defined}")
print(f"undefined {2**16 - defined}")
