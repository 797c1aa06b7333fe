; Scores one hour of a solar forecast: 100 x |forecast - actual| / actual, in per cent.
; The hour's record is four longs at `hour`. The first two, forecast and actual, are given by
; normal-hour.s or snow-hour.s; the score and the number of hours scored are written here.
;
; R0 the score, as the record has it    R4 forecast
; R1 low: dividend, then quotient       R5 actual: the divisor
; R2 high: 0, then what is left over    R8 the record's address
; R3 hours scored

    .long start         ; PC at reset
    .long H'400         ; R15 at reset: the end of the memory
    .rept 8             ; vectors 2 to 9: an exception would end at `stray`
    .long stray
    .endr

    .org H'100
start:
    MOV #hour,R8
    MOV.L @R8,R4
    MOV.L @(1,R8),R5
    MOV R4,R1
    SUB R5,R1
    CMP/GE R5,R4        ; T is 1 if forecast >= actual
    BT positive
    NEG R1,R1
positive:
    MOV #100,R0
    MUL.L R0,R1
    STS MACL,R1         ; 100 x |forecast - actual|
    BSR divide
    MOV #0,R2           ; in the slot: done before `divide` begins
    MOV.L R1,@(2,R8)    ; the score, whatever the divisor was
    MOV.L @(3,R8),R3
    ADD #1,R3           ; one more hour scored
    MOV.L R3,@(3,R8)
    MOV.L @(2,R8),R0    ; read back, since the report shows registers only
    SLEEP
stray:
    SLEEP

; R2:R1 / R5, 64 bits by 32, in 66 instructions. There is no test for a divisor of 0.
divide:
    DIV0U
    .rept 32
    ROTCL R1            ; the dividend's next bit out to T, the quotient's last one in from T
    DIV1 R5,R2          ; that bit into high, one subtraction or addition, a quotient bit to T
    .endr
    ROTCL R1
    RTS
    NOP                 ; in the slot
