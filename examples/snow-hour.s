; An hour under snow: 48 kWh forecast, nothing produced. The program is score.s.

    .org H'40
hour:
    .long 48            ; forecast
    .long 0             ; actual
