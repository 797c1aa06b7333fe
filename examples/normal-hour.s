; An hour scored normally: 48 kWh forecast, 44 kWh produced. The program is score.s.

    .org H'40
hour:
    .long 48            ; forecast
    .long 44            ; actual
