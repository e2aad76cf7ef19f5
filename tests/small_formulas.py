"""Small formula texts over the small sheet, each at an edge of the grammar or of a test on formulas."""

SMALL_FORMULAS = (
    b"", b"\n", b"up", b"up\n\n", b"up \n", b" up\n", b"up  dead\n", b"& up\n", b"abcdefghijklm\n", b"P < 01 U 1 up dead\n",
    b"P < 1 U 12345678901 up dead\n", b"! up\r\n", b"& up dead up\n", b"P < 1 V 1 up dead\n", b"P < 1 U 8.50 up dead\n",
    b"P < 1 U 8.0 up dead\n", b"P < 1 U 8. up dead\n", b"P < 1 U .5 up dead\n", b"P < 1 U 00.5 up dead\n", b"P < 1 U 8.125 up dead\n",
    b"P < 1 U 8.2.5 up dead\n", b"P < 1.5 U 8 up dead\n", b"P < 1 X\n", b"P < 1 X up dead\n", b"P < 1 X 8 up\n", b"P < 1 x up\n", b"X up\n",
    b"P < 1 X up\n", b"P < 1 X & a ! P > 2 X b\n", b"P < 1000000000 X up\n", b"P < 1000000001 X up\n", b"P < 1 X gas\n",
    b"P < 1 U 8 P < 1 X up dead\n", b"P < 1 U 8 up dead\n", b"P < 1 U 8.5 up dead\n", b"P < 1 U 8.25 up dead\n", b"P < 1 U 0.05 up dead\n",
    b"P < 1 U 9999999999.99 up dead\n", b"tt\n", b"P < 9999999999 U 8 & a b ! tt\n", b"P >= 1000000000 U 0 up dead\n", b"& up ! dead\n",
    b"& gas up\n", b"state\n", b"P < 1 U 8761 up dead\n", b"P < 1 U 8760.01 up dead\n", b"P < 1000000001 U 1 up dead\n",
    b"! P < 1 U 1.01 up dead\n", b"P > 0 U 0.01 up dead\n", b"P <= 0 U 0 up dead\n", b"P >= 1000000000 U 1 up dead\n",
    b"P < 1000000000 U 0.5 tt dead\n", b"P >= 0 U 1 up dead\n", b"P > 1000000000 X tt\n", b"P > 0 X dead\n", b"P >= 1000000000 X dead\n",
    b"P < 1000000000 X P > 0 U 0.01 up dead\n", b"P > 0 U 0.01 up P <= 0 X tt\n", b"P > 0 U 0 up P >= 3992000 U 8 up dead\n",
    b"P < 1 V\n", b"P < 1 V 1\n", b"P < 1 V 1 8\n", b"P < 1 V 1 8 up\n", b"P < 1 V 1 8 9 up dead\n", b"P < 1 V 1 8.50 up dead\n",
    b"P < 1 V 01 8 up dead\n", b"P < 1 v 1 8 up dead\n", b"V 1 8 up dead\n", b"P < 1 V 1 8 up dead\n", b"P < 1 V 0 8 up dead\n",
    b"P < 1 V 0 0 up dead\n", b"P < 1 V 8 8 tt dead\n", b"P < 1 V 8 8 up dead\n", b"P < 1 V 0.01 0.02 tt dead\n", b"P < 1 V 1 8 tt dead\n",
    b"P < 1 V 1 2 up dead\n", b"P < 1 V 0 2 up dead\n", b"P < 1 V 0.5 1.5 tt dead\n", b"P < 1 V 1 1.01 gas dead\n", b"P < 1 V 8 1 up dead\n",
    b"P < 1 V 8 0 up dead\n", b"P < 1 V 8760 8760 up dead\n", b"P < 1 V 8760.01 1 up dead\n", b"P < 1 V 1 8760.01 up dead\n",
    b"P < 1000000001 V 8 1 up dead\n", b"P > 0 V 0.01 0.01 up dead\n", b"P > 0 V 0 0.01 up dead\n", b"P >= 1000000000 V 1 8 tt dead\n",
    b"P < 1000000000 V 0.01 1 tt dead\n", b"P >= 0 V 1 1 up dead\n", b"P > 5 V 1 2 up P >= 3992000 U 8 up dead\n",
    b"P > 5 V 0.5 1 P >= 3492136 V 1 8 up dead tt\n", b"! P < 1 U 1.01 up P < 1 V 0.5 0.25 up dead\n",
)
