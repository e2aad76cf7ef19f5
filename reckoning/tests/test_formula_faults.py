"""Where the fault is in a formula: for each way of earning 10 to 14 and 16 the sentence, whole."""

import unittest

from reckoning.faults import faults
from reckoning.limits import HOUR, MOST_LEVELS, MOST_NODES, MOST_RATE
from reckoning.refusal import Job, refusal
from reckoning.sheets import FULL_MOVES, LABELS, MOVES, NO_MOVES, between, labels_text, moves_text, until

# How the text is laid out.
TEXT = {
    b"up": "formula.txt, line 1: the line feed at the end is missing: press Enter at the end of the line and save",
    b"P < 1 U 8 up dead": "formula.txt, line 1: the line feed at the end is missing: press Enter at the end of the line and save",
    b"up\n\n": "formula.txt, line 2: an empty line below the formula: take it out",
    b"up\n\n\n": "formula.txt, line 2: an empty line below the formula: take it out",
    b"up\nup\n": "formula.txt, line 2: a formula has one line: put all of it on line 1",
    b"P < 1 U 8\nup dead\n": "formula.txt, line 2: a formula has one line: put all of it on line 1",
    b"up\r\n": "formula.txt, token 1: a carriage return, as Windows line ends have: save the file with Unix line ends (LF, not CRLF)",
    b"up\r": "formula.txt, token 1: a carriage return, as Windows line ends have: save the file with Unix line ends (LF, not CRLF)",
    b"\xef\xbb\xbfup\n": "formula.txt, token 1: a byte order mark at the beginning: save the file as UTF-8 without one (without BOM), or as ASCII",
    b"u\x00p\x00\n": "formula.txt, token 1: bytes 0, as files in UTF-16 have: save the file as plain text in ASCII or UTF-8",
    b"\n": "formula.txt, line 1: an empty line: write a formula, such as tt",
    b" \n": "formula.txt, token 1: a space at the beginning of the line: take it out",
    b" up\n": "formula.txt, token 1: a space at the beginning of the line: take it out",
    b"up \n": "formula.txt, token 2: a space at the end of the line: take it out",
    b"up  \n": "formula.txt, token 2: a space at the end of the line: take it out",
    b"& up  dead\n": "formula.txt, token 3: two spaces, tokens are set apart by one: take one out",
    b"\tup\n": 'formula.txt, token 1: "\\tup" has a tab in it: tokens are set apart by one space',
    b"& up\tdead\n": 'formula.txt, token 2: "up\\tdead" has a tab in it: tokens are set apart by one space',
    b"& up\xc2\xa0dead\n": "formula.txt, token 2: a no-break space (\\xc2\\xa0), which looks like a space and is none: type it anew",
    b"P \xe2\x89\xa5 5 U 8 up dead\n": 'formula.txt, token 2: "\\xe2\\x89\\xa5" has a sign in it that is written >= here',
    b"\xe2\x88\xa8 up dead\n": 'formula.txt, token 1: "\\xe2\\x88\\xa8" is no operator and no label: a label, tt, !, & or P is wanted',
    b"\xc2\xac up\n": 'formula.txt, token 1: "\\xc2\\xac" has a sign in it that is written ! here',
    b"u\xe9\n": 'formula.txt, token 1: "u\\xe9" has "\\xe9" in it, a name is 1 to 12 letters a to z',
}

# Where the text ends too soon.
TOO_SOON = {
    b"!\n": 'formula.txt, token 2: the text ends too soon: "!" (token 1) wants 1 more operand, beginning with a label, tt, !, & or P',
    b"&\n": 'formula.txt, token 2: the text ends too soon: "&" (token 1) wants 2 more operands, beginning with a label, tt, !, & or P',
    b"& up\n": 'formula.txt, token 3: the text ends too soon: "&" (token 1) wants 1 more operand, beginning with a label, tt, !, & or P',
    b"& ! up &\n": 'formula.txt, token 5: the text ends too soon: "&" (token 4) wants 2 more operands, beginning with a label, tt, !, & or P',
    b"P\n": 'formula.txt, token 2: the text ends too soon: after "P" a comparison comes next: <, <=, >= or >',
    b"P <\n": 'formula.txt, token 3: the text ends too soon: after "<" a threshold comes next: thresholds are whole billionths, 990000000 is 0.99',
    b"P < 5\n": 'formula.txt, token 4: the text ends too soon: after "5" U, V or X comes next, as in U 8.25 up dead',
    b"P < 5 U\n": "formula.txt, token 5: the text ends too soon: hours come after U, as in U 8.25 up dead",
    b"P < 5 U 8\n": 'formula.txt, token 6: the text ends too soon: "U" (token 4) wants 2 more operands, beginning with a label, tt, !, & or P',
    b"P < 5 U 8 up\n": 'formula.txt, token 7: the text ends too soon: "U" (token 4) wants 1 more operand, beginning with a label, tt, !, & or P',
    b"P < 5 V\n": "formula.txt, token 5: the text ends too soon: two times in hours come after V, as in V 2 8.25 up dead",
    b"P < 5 V 1\n": "formula.txt, token 6: the text ends too soon: a second time comes after V, as in V 2 8.25 up dead",
    b"P < 5 V 1 8\n": 'formula.txt, token 7: the text ends too soon: "V" (token 4) wants 2 more operands, beginning with a label, tt, !, & or P',
    b"P < 5 V 1 8 up\n": 'formula.txt, token 8: the text ends too soon: "V" (token 4) wants 1 more operand, beginning with a label, tt, !, & or P',
    b"P < 5 X\n": 'formula.txt, token 5: the text ends too soon: "X" (token 4) wants 1 more operand, beginning with a label, tt, !, & or P',
    b"& P < 5 X up": 'formula.txt, token 7: the text ends too soon: "&" (token 1) wants 1 more operand, beginning with a label, tt, !, & or P',
    b"P < 5 U 8 ! & up dead\n":
        'formula.txt, token 10: the text ends too soon: "U" (token 4) wants 1 more operand, beginning with a label, tt, !, & or P',
}

# What is left over behind the formula.
LEFT_OVER = {
    b"up dead\n":
        'formula.txt, token 2: "dead" is left over, the formula ends with token 1, "up": two formulas are joined by & before both, as in & up hot',
    b"! up up\n":
        'formula.txt, token 3: "up" is left over, the formula ends with token 2, "up": two formulas are joined by & before both, as in & up hot',
    b"P < 5 X dead up\n":
        'formula.txt, token 6: "up" is left over, the formula ends with token 5, "dead": two formulas are joined by & before both, as in & up hot',
    b"up & dead\n": 'formula.txt, token 2: "&" stands between what it joins, and belongs before it: write & up dead',
    b"up & ! dead\n": 'formula.txt, token 2: "&" stands between what it joins, and belongs before it: a and b is & a b',
    b"up && dead\n": 'formula.txt, token 2: "&&" stands between what it joins, and belongs before it: write & up dead',
    b"up and dead\n": 'formula.txt, token 2: "and" stands between what it joins, and belongs before it: write & up dead',
    b"up | dead\n": 'formula.txt, token 2: "|" stands between what it joins, and belongs before it: a or b is ! & ! a ! b',
    b"up or dead\n": 'formula.txt, token 2: "or" stands between what it joins, and belongs before it: a or b is ! & ! a ! b',
    b"up -> dead\n": 'formula.txt, token 2: "->" stands between what it joins, and belongs before it: a implies b is ! & a ! b',
    b"P < 5 U 90 hours tt up\n":
        'formula.txt, token 8: "up" is left over, since "hours" (token 6) is taken for a label: hours are written without a unit',
    b"! up & dead\n": 'formula.txt, token 3: "&" stands between what it joins, and belongs before it: a and b is & a b',
    b"up and not dead\n": 'formula.txt, token 2: "and" stands between what it joins, and belongs before it: a and b is & a b',
    b"up F dead\n": 'formula.txt, token 2: "F" is no operator: a within 8 hours is U 8 tt a',
    b"not up\n": 'formula.txt, token 2: "up" is left over, since "not" is taken for a label: not a is ! a',
    b"and up dead\n": 'formula.txt, token 2: "up" is left over, since "and" is taken for a label: a and b is & a b',
    b"p < 5 U 8 up dead\n": 'formula.txt, token 2: "<" is left over, since "p" is taken for a label: write P, a capital',
    b"up U 8 dead\n": 'formula.txt, token 2: "U" stands behind P, a comparison and a threshold, as in P >= 990000000 U 8 up dead',
    b"up U<=8 dead\n": 'formula.txt, token 2: "U<=8" stands behind P, a comparison and a threshold, as in P >= 990000000 U 8 up dead',
    b"up )\n": 'formula.txt, token 2: ")" has a bracket: operators stand before what they join and need none, as in & up ! dead',
    b"up 5\n":
        'formula.txt, token 2: "5" is left over, the formula ends with token 1, "up": two formulas are joined by & before both, as in & up hot',
}

# What stands where a label or an operator is wanted.
OPERATORS = {
    b"| up dead\n": 'formula.txt, token 1: "|" is no operator: a or b is ! & ! a ! b',
    b"-> up dead\n": 'formula.txt, token 1: "->" is no operator: a implies b is ! & a ! b',
    b"&& up dead\n": 'formula.txt, token 1: "&&" is no operator: a and b is & a b',
    b"~ up\n": 'formula.txt, token 1: "~" is no operator: not a is ! a',
    b"( up )\n": 'formula.txt, token 1: "(" has a bracket: operators stand before what they join and need none, as in & up ! dead',
    b"(up)\n": 'formula.txt, token 1: "(up)" has a bracket: operators stand before what they join and need none, as in & up ! dead',
    b"!(up)\n": 'formula.txt, token 1: "!(up)" has a bracket: operators stand before what they join and need none, as in & up ! dead',
    b"[ up ]\n": 'formula.txt, token 1: "[" has a bracket: operators stand before what they join and need none, as in & up ! dead',
    b"F 8 dead\n": 'formula.txt, token 1: "F" is no operator: a within 8 hours is U 8 tt a',
    b"F<=8 dead\n": 'formula.txt, token 1: "F<=8" is no operator: a within 8 hours is U 8 tt a',
    b"G 8 up\n": 'formula.txt, token 1: "G" is no operator: a all through 8 hours is V 8 8 a tt',
    b"G<=8 up\n": 'formula.txt, token 1: "G<=8" is no operator: a all through 8 hours is V 8 8 a tt',
    b"F<=90 dead\n": 'formula.txt, token 1: "F<=90" is no operator: a within 90 hours is U 90 tt a',
    b"S < 5 up\n": 'formula.txt, token 1: "S" cannot be asked here: there is no long run (S), no reward (R), and one chance P',
    b"R{1}=? [ F up ]\n": 'formula.txt, token 1: "R{1}=?" cannot be asked here: there is no long run (S), no reward (R), and one chance P',
    b"Pmax=? [ F<=8 up ]\n": 'formula.txt, token 1: "Pmax=?" cannot be asked here: there is no long run (S), no reward (R), and one chance P',
    b"Q < 5 up\n": 'formula.txt, token 1: "Q" is no operator: there are !, &, and P with U, V or X',
    b"U 8 up dead\n": 'formula.txt, token 1: "U" stands behind P, a comparison and a threshold, as in P >= 990000000 U 8 up dead',
    b"X dead\n": 'formula.txt, token 1: "X" stands behind P, a comparison and a threshold, as in P >= 990000000 U 8 up dead',
    b"! V 1 8 up dead\n": 'formula.txt, token 2: "V" stands behind P, a comparison and a threshold, as in P >= 990000000 U 8 up dead',
    b"U<=8 up dead\n": 'formula.txt, token 1: "U<=8" stands behind P, a comparison and a threshold, as in P >= 990000000 U 8 up dead',
    b"< 5\n": 'formula.txt, token 1: "<" stands behind P, as in P >= 990000000 U 8 up dead',
    b">=5\n": 'formula.txt, token 1: ">=5" stands behind P, as in P >= 990000000 U 8 up dead',
    b"!up\n": 'formula.txt, token 1: "!up" lacks a space: write ! up',
    b"!P<=0.01 U 8 up dead\n": 'formula.txt, token 1: "!P<=0.01" lacks a space: write ! P<=0.01',
    b"!!up\n": 'formula.txt, token 1: "!!up" lacks a space: write ! ! up',
    b"&up dead\n": 'formula.txt, token 1: "&up" lacks a space: write & up',
    b"5\n": 'formula.txt, token 1: "5" is a number: a label, tt, !, & or P is wanted',
    b"& up 0.5\n": 'formula.txt, token 3: "0.5" is a number: a label, tt, !, & or P is wanted',
    b"P < 5 U 1 8 up dead\n": 'formula.txt, token 6: "8" is a second time, U has one: from 1 to 8 hours is V 1 8',
    b"P < 5 U 90 1 up dead\n": 'formula.txt, token 6: "1" is a second time, U has one: from 1 to 90 hours is V 1 90',
    b"P < 5 U 8 8.125 up dead\n": 'formula.txt, token 6: "8.125" is a second time, U has one: V has two, as in V 2 8.25 up dead',
    b"P < 5 V 1 8 9 up dead\n": 'formula.txt, token 7: "9" is a third time, V has two, as in V 2 8.25 up dead',
    b"P < 5 X 8 dead\n": 'formula.txt, token 5: "8" is a number: X has no hours, as in P <= 10000000 X dead',
    b"Up\n": 'formula.txt, token 1: "Up" has capitals, a name is 1 to 12 letters a to z: write up',
    b"TT\n": 'formula.txt, token 1: "TT" has capitals, a name is 1 to 12 letters a to z: write tt',
    b"up2\n": 'formula.txt, token 1: "up2" has "2" in it, a name is 1 to 12 letters a to z',
    b"is_up\n": 'formula.txt, token 1: "is_up" has "_" in it, a name is 1 to 12 letters a to z',
    b"abcdefghijklm\n": 'formula.txt, token 1: "abcdefghijklm" has 13 letters, a name is 1 to 12 letters a to z',
    b"\"up\"\n": 'formula.txt, token 1: "\\"up\\"" has quotes: write up',
    b"up,dead\n": 'formula.txt, token 1: "up,dead" has a comma in it: tokens are set apart by one space',
    b"P,<,5,X,up\n": 'formula.txt, token 1: "P,<,5,X,up" has a comma in it: tokens are set apart by one space',
    b"\"P < 5 X up\"\n": 'formula.txt, token 1: "\\"P" has a quote in it: write the formula without quotes',
    b"TRUE\n": 'formula.txt, token 1: "TRUE" is written tt here',
    b"Is_up\n": 'formula.txt, token 1: "Is_up" has "_" in it, a name is 1 to 12 letters a to z',
    b"dead;\n": 'formula.txt, token 1: "dead;" has ";" in it, a name is 1 to 12 letters a to z',
    b"%\n": 'formula.txt, token 1: "%" is no operator and no label: a label, tt, !, & or P is wanted',
    b"P>=\n": 'formula.txt, token 1: "P>=" lacks a space: write P >=',
    b"P>=0.99 U 8 up dead\n": 'formula.txt, token 1: "P>=0.99" lacks spaces: write P >= 990000000',
    b"P<=1e-3 U 8 up dead\n": 'formula.txt, token 1: "P<=1e-3" lacks spaces: write P <= 1000000',
    b"P<=1/1000 U 8 up dead\n": 'formula.txt, token 1: "P<=1/1000" lacks spaces: write P <= and a threshold in whole billionths',
    b"P<=10000000 U 8 up dead\n": 'formula.txt, token 1: "P<=10000000" lacks spaces: write P <= 10000000',
    b"P=? U 8 up dead\n": 'formula.txt, token 1: "P=?" is no operator: every report shows the probability, write P >= 0 to ask for no threshold',
}

COMPARISONS = {
    b"P = 5 U 8 up dead\n": 'formula.txt, token 2: "=" is no comparison: write <= or >=',
    b"P == 5 U 8 up dead\n": 'formula.txt, token 2: "==" is no comparison: write <= or >=',
    b"P => 5 U 8 up dead\n": 'formula.txt, token 2: "=>" is no comparison: write >=',
    b"P =< 5 U 8 up dead\n": 'formula.txt, token 2: "=<" is no comparison: write <=',
    b"P =? U 8 up dead\n": 'formula.txt, token 2: "=?" is no comparison: every report shows the probability, write >= 0 to ask for no threshold',
    b"P != 5 U 8 up dead\n": 'formula.txt, token 2: "!=" is no comparison: after P comes <, <=, >= or >',
    b"P >=0.99 U 8 up dead\n": 'formula.txt, token 2: ">=0.99" lacks a space: write >= 990000000',
    b"P <5 U 8 up dead\n": 'formula.txt, token 2: "<5" lacks a space: write < 5',
    b"P 5 U 8 up dead\n": 'formula.txt, token 2: "5" is no comparison: after P comes <, <=, >= or >',
    b"P U 8 up dead\n": 'formula.txt, token 2: "U" is no comparison: after P comes <, <=, >= or >',
    b"P [ up ]\n": 'formula.txt, token 2: "[" is no comparison: after P comes <, <=, >= or >',
}

THRESHOLDS = {
    b"P < 0.99 U 8 up dead\n": 'formula.txt, token 3: "0.99" is not whole, thresholds are whole billionths: 0.99 is 990000000',
    b"P < .99 U 8 up dead\n": 'formula.txt, token 3: ".99" is not whole, thresholds are whole billionths: .99 is 990000000',
    b"P < 0,99 U 8 up dead\n": 'formula.txt, token 3: "0,99" is not whole, thresholds are whole billionths: 0,99 is 990000000',
    b"P < 1.0 U 8 up dead\n": 'formula.txt, token 3: "1.0" is not whole, thresholds are whole billionths: 1.0 is 1000000000',
    b"P < 0.000000001 U 8 up dead\n": 'formula.txt, token 3: "0.000000001" is not whole, thresholds are whole billionths: 0.000000001 is 1',
    b"P < 1e-3 U 8 up dead\n": 'formula.txt, token 3: "1e-3" is not whole, thresholds are whole billionths: 1e-3 is 1000000',
    b"P < 99% U 8 up dead\n": 'formula.txt, token 3: "99%" is not whole, thresholds are whole billionths: 99% is 990000000',
    b"P < 99.5% U 8 up dead\n": 'formula.txt, token 3: "99.5%" is not whole, thresholds are whole billionths: 99.5% is 995000000',
    b"P < 0.99999999999 U 8 up dead\n":
        'formula.txt, token 3: "0.99999999999" is not whole, thresholds are whole billionths: it lies between 999999999 and 1000000000',
    b"P < 1.5 U 8 up dead\n":
        'formula.txt, token 3: "1.5" is no threshold: thresholds are whole billionths, at most 1,000,000,000, which is probability 1',
    b"P < 2E+07 U 8 up dead\n": 'formula.txt, token 3: "2E+07" is not written as a whole number: write 20000000',
    b"P < 150% U 8 up dead\n":
        'formula.txt, token 3: "150%" is no threshold: thresholds are whole billionths, at most 1,000,000,000, which is probability 1',
    b"P < 0990000000 U 8 up dead\n": 'formula.txt, token 3: "0990000000" begins with a zero: write 990000000',
    b"P < 00 U 8 up dead\n": 'formula.txt, token 3: "00" begins with a zero: write 0',
    b"P < 10000000000 U 8 up dead\n": "formula.txt, token 3: 11 digits, a threshold is at most 1,000,000,000 billionths, which is probability 1",
    b"P < 990,000,000 U 8 up dead\n": 'formula.txt, token 3: "990,000,000" has thousands separators: write 990000000',
    b"P < 990_000_000 X dead\n": 'formula.txt, token 3: "990_000_000" has thousands separators: write 990000000',
    b"P < -5 U 8 up dead\n": 'formula.txt, token 3: "-5" is no threshold: thresholds are whole billionths, 990000000 is 0.99',
    b"P < x U 8 up dead\n": 'formula.txt, token 3: "x" is no threshold: thresholds are whole billionths, 990000000 is 0.99',
    b"P < U 8 up dead\n": 'formula.txt, token 3: no threshold before "U": thresholds are whole billionths, 990000000 is 0.99',
    b"P < X dead\n": 'formula.txt, token 3: no threshold before "X": thresholds are whole billionths, 990000000 is 0.99',
    b"P < = 5 U 8 up dead\n": "formula.txt, token 3: a space inside a comparison: write <=",
}

# What stands where `U`, `V` or `X` is wanted.
PATHS = {
    b"P < 5 up dead\n":
        'formula.txt, token 4: "up" stands where U, V or X is wanted, before its hours and operands, as in P >= 990000000 U 8 up dead',
    b"P < 5 up U 8 dead\n":
        'formula.txt, token 4: "up" stands where U, V or X is wanted, before its hours and operands, as in P >= 990000000 U 8 up dead',
    b"P < 5 8 up dead\n":
        'formula.txt, token 4: "8" stands where U, V or X is wanted, before its hours and operands, as in P >= 990000000 U 8 up dead',
    b"P < 5 F 8 dead\n": 'formula.txt, token 4: "F" is no operator: a within 8 hours is U 8 tt a',
    b"P < 5 F<=8 dead\n": 'formula.txt, token 4: "F<=8" is no operator: a within 8 hours is U 8 tt a',
    b"P < 5 G 8 dead\n": 'formula.txt, token 4: "G" is no operator: a all through 8 hours is V 8 8 a tt',
    b"P < 5 u 8 up dead\n": 'formula.txt, token 4: "u" is a small letter: write U',
    b"P < 5 x dead\n": 'formula.txt, token 4: "x" is a small letter: write X',
    b"P < 5 V2 8 up dead\n": 'formula.txt, token 4: "V2" is not written so: write V 2',
    b"P < 5 U[8,1] up dead\n": 'formula.txt, token 4: "U[8,1]" is not written so: write V 1 8',
    b"P < 5 U<=8 up dead\n": 'formula.txt, token 4: "U<=8" is not written so: write U 8',
    b"P < 5 U8.50 up dead\n": 'formula.txt, token 4: "U8.50" is not written so: write U 8.5',
    b"P < 5 U[1,8] up dead\n": 'formula.txt, token 4: "U[1,8]" is not written so: write V 1 8',
    b"P < 5 V[1,8] up dead\n": 'formula.txt, token 4: "V[1,8]" is not written so: write V 1 8',
    b"P < 5 [ up U 8 dead ]\n":
        'formula.txt, token 4: "[" has a bracket: after the threshold comes U, V or X without brackets, as in P >= 990000000 U 8 up dead',
    b"P < 5 (up U 8 dead)\n":
        'formula.txt, token 4: "(up" has a bracket: after the threshold comes U, V or X without brackets, as in P >= 990000000 U 8 up dead',
    b"P < 5 W 8 up dead\n":
        'formula.txt, token 4: "W" stands where U, V or X is wanted, before its hours and operands, as in P >= 990000000 U 8 up dead',
    b"P < 5 XX dead\n":
        'formula.txt, token 4: "XX" stands where U, V or X is wanted, before its hours and operands, as in P >= 990000000 U 8 up dead',
    b"P < 5 ! up\n": 'formula.txt, token 4: "!" stands where U, V or X is wanted, before its hours and operands, as in P >= 990000000 U 8 up dead',
}

HOURS = {
    b"P < 5 U 8.50 up dead\n": 'formula.txt, token 5: "8.50" ends in a zero: write 8.5',
    b"P < 5 U 8.0 up dead\n": 'formula.txt, token 5: "8.0" ends in a zero: write 8',
    b"P < 5 V 1 8.50 up dead\n": 'formula.txt, token 6: "8.50" ends in a zero: write 8.5',
    b"P < 5 U 8. up dead\n": 'formula.txt, token 5: "8." ends in a point: write 8',
    b"P < 5 U .5 up dead\n": 'formula.txt, token 5: ".5" begins with a point: write 0.5',
    b"P < 5 U . up dead\n": 'formula.txt, token 5: "." is no number of hours: hours come after U, as in U 8.25 up dead',
    b"P < 5 U 08 up dead\n": 'formula.txt, token 5: "08" begins with a zero: write 8',
    b"P < 5 U 00.5 up dead\n": 'formula.txt, token 5: "00.5" begins with a zero: write 0.5',
    b"P < 5 U 8.125 up dead\n": 'formula.txt, token 5: "8.125" has more than two decimals: hours go to hundredths, as 8.25 does',
    b"P < 5 U 8.2.5 up dead\n": 'formula.txt, token 5: "8.2.5" is no number of hours: hours come after U, as in U 8.25 up dead',
    b"P < 5 U 8,5 up dead\n": 'formula.txt, token 5: "8,5" has a comma: write 8.5',
    b"P < 5 U 8,760 up dead\n": 'formula.txt, token 5: "8,760" has thousands separators: write 8760',
    b"P < 5 U 10000000000 up dead\n": "formula.txt, token 5: 11 digits, hours are at most 8,760",
    b"P < 5 U 10000000000.5 up dead\n": "formula.txt, token 5: 11 digits, hours are at most 8,760",
    b"P < 5 U <=8 up dead\n": 'formula.txt, token 5: "<=8" has a comparison: write the hours alone, 8',
    b"P < 5 U <= 90 up dead\n": 'formula.txt, token 5: "<=" has a comparison: write the hours alone, 90',
    b"P < 5 U <= up dead\n": 'formula.txt, token 5: "<=" has a comparison: write the hours alone, 8',
    b"P < 5 U 8h up dead\n": 'formula.txt, token 5: "8h" has a unit: write 8',
    b"P < 5 U 1e3 up dead\n": 'formula.txt, token 5: "1e3" has an exponent: write 1000',
    b"P < 5 U 1e99 up dead\n": 'formula.txt, token 5: "1e99" has an exponent: hours go to hundredths, as 8.25 does',
    b"P < 5 U -1 up dead\n": 'formula.txt, token 5: "-1" is no number of hours: hours come after U, as in U 8.25 up dead',
    b"P < 5 U up dead\n": 'formula.txt, token 5: "up" is no number of hours: hours come after U, as in U 8.25 up dead',
    b"P < 5 V up dead\n": 'formula.txt, token 5: "up" is no number of hours: two times in hours come after V, as in V 2 8.25 up dead',
    b"P < 5 V 1 up dead\n": 'formula.txt, token 6: "up" is no number of hours: a second time comes after V, as in V 2 8.25 up dead',
    b"P < 5 U [1,8] up dead\n": 'formula.txt, token 5: "[1,8]" is two times in one: write V 1 8',
    b"P < 5 V [1,8] up dead\n": 'formula.txt, token 5: "[1,8]" is two times in one: write V 1 8',
    b"P < 5 V [1.50,8.0] up dead\n": 'formula.txt, token 5: "[1.50,8.0]" is two times in one: write V 1.5 8',
    b"P < 5 U [8,1] up dead\n": 'formula.txt, token 5: "[8,1]" is two times in one: write V 1 8',
    b"P < 5 U 00000000008 up dead\n": 'formula.txt, token 5: "00000000008" begins with a zero: write 8',
    b"P < 5 V 1,8 up dead\n": 'formula.txt, token 5: "1,8" is two times in one: write V 1 8',
    b"P < 5 V 1,5 8 up dead\n": 'formula.txt, token 5: "1,5" has a comma: write 1.5',
}

# Whole formulas as PRISM writes them, and some that have no counterpart or are too much for the reader of these.
PRISM = {
    b"P>=0.99 [ up U<=8 dead ]\n": 'formula.txt, token 1: "P>=0.99" is PRISM\'s notation: here the formula is P >= 990000000 U 8 up dead',
    b"P >= 0.99 [ true U[1,8] !up ]\n": 'formula.txt, token 3: "0.99" is PRISM\'s notation: here the formula is P >= 990000000 V 1 8 tt ! up',
    b"P=? [ F<=8 \"dead\" ]\n": 'formula.txt, token 1: "P=?" is PRISM\'s notation: here the formula is P >= 0 U 8 tt dead',
    b"P>0.5 [ X dead ]\n": 'formula.txt, token 1: "P>0.5" is PRISM\'s notation: here the formula is P > 500000000 X dead',
    b"P>=0.99 [ G<=8 up ]\n": 'formula.txt, token 1: "P>=0.99" is PRISM\'s notation: here the formula is P >= 990000000 V 8 8 up tt',
    b"P>=0.99 [ F=72 up ]\n": 'formula.txt, token 1: "P>=0.99" is PRISM\'s notation: here the formula is P >= 990000000 V 72 72 tt up',
    b"P>0 [ F dead ]\n": 'formula.txt, token 1: "P>0" is PRISM\'s notation: here the formula is P > 0 U 1 tt dead',
    b"P<=0 [ up U dead ]\n": 'formula.txt, token 1: "P<=0" is PRISM\'s notation: here the formula is P <= 0 U 1 up dead',
    b"P<0.2 [ G[2, 8.50] !dead ]\n": 'formula.txt, token 1: "P<0.2" is PRISM\'s notation: here the formula is P > 800000000 V 2 8.5 tt dead',
    b"P>=1 [ F<=0.25 dead ]\n": 'formula.txt, token 1: "P>=1" is PRISM\'s notation: here the formula is P >= 1000000000 U 0.25 tt dead',
    b"P>=0.99 [ up U dead ]\n":
        'formula.txt, token 1: "P>=0.99" is PRISM\'s notation, and has no hours: an until needs a time bound here, as in P <= 10000000 U 8 tt dead',
    b"P>0 [ G up ]\n":
        'formula.txt, token 1: "P>0" is PRISM\'s notation, and has no hours: an until needs a time bound here, as in P <= 10000000 U 8 tt dead',
    b"P=? [ G<=8 up ]\n": 'formula.txt, token 1: "P=?" is PRISM\'s notation: here the formula is P >= 0 V 8 8 up tt',
    b"P=? [ G<=0 up ]\n": 'formula.txt, token 1: "P=?" is no operator: every report shows the probability, write P >= 0 to ask for no threshold',
    b"P=? [ G[2,8] up ]\n":
        'formula.txt, token 1: "P=?" is no operator: every report shows the probability, write P >= 0 to ask for no threshold',
    b"P>=0.99 [ X<=8 dead ]\n": 'formula.txt, token 1: "P>=0.99" lacks spaces: write P >= 990000000',
    b"P>=0.99 [ up X dead ]\n": 'formula.txt, token 1: "P>=0.99" lacks spaces: write P >= 990000000',
    b"P>0.2 [ G[2,8] up ]\n": 'formula.txt, token 1: "P>0.2" is PRISM\'s notation: here the formula is P < 800000000 V 2 8 tt ! up',
    b"P<=0.2 [ G[2,8] up ]\n": 'formula.txt, token 1: "P<=0.2" is PRISM\'s notation: here the formula is P >= 800000000 V 2 8 tt ! up',
    b"P>=0.2 [ G[2,8] up ]\n": 'formula.txt, token 1: "P>=0.2" is PRISM\'s notation: here the formula is P <= 800000000 V 2 8 tt ! up',
    b"P>=0.99 [ F<=8.125 dead ]\n": 'formula.txt, token 1: "P>=0.99" lacks spaces: write P >= 990000000',
    b"P>=0.99 [ F<=8 gun|dead ]\n": 'formula.txt, token 1: "P>=0.99" lacks spaces: write P >= 990000000',
}

LEVELS = {
    b"! " * MOST_LEVELS + b"up\n": 'formula.txt, token 17: "up" is nested 17 deep, the limit is 16: two ! in a row can be left out',
    b"& up " * MOST_LEVELS + b"up\n":
        'formula.txt, token 32: "up" is nested 17 deep, the limit is 16: & & a b & c d nests less than & a & b & c d',
    b"P < 5 X " * MOST_LEVELS + b"up\n": 'formula.txt, token 65: "up" is nested 17 deep, the limit is 16',
}

NAMES = {
    b"gas\n": 'formula.txt, token 1: no label "gas", labels.txt has up and dead',
    b"ded\n": 'formula.txt, token 1: no label "ded", labels.txt has up and dead: is dead meant?',
    b"& up daed\n": 'formula.txt, token 3: no label "daed", labels.txt has up and dead: is dead meant?',
    b"true\n": 'formula.txt, token 1: no label "true", labels.txt has up and dead: write tt',
    b"P < 5 U 8 true dead\n": 'formula.txt, token 6: no label "true", labels.txt has up and dead: write tt',
    b"false\n": 'formula.txt, token 1: no label "false", labels.txt has up and dead: write ! tt',
    b"state\n": 'formula.txt, token 1: no label "state", labels.txt has up and dead',
}

NUMBERS = {
    b"P < 1000000001 U 8 up dead\n":
        "formula.txt, token 3: threshold 1,000,000,001, it is in billionths and at most 1,000,000,000, which is probability 1",
    b"P < 5 X P < 9999999999 X up\n":
        "formula.txt, token 7: threshold 9,999,999,999, it is in billionths and at most 1,000,000,000, which is probability 1",
    b"P < 5 U 8761 up dead\n": "formula.txt, token 5: 8761 hours, the limit is 8,760, which is a year",
    b"P < 5 U 8760.01 up dead\n": "formula.txt, token 5: 8760.01 hours, the limit is 8,760, which is a year",
    b"P < 5 V 8761 1 up dead\n": "formula.txt, token 5: 8761 hours, the limit is 8,760, which is a year",
    b"P < 5 V 1 8761 up dead\n": "formula.txt, token 6: 8761 hours, the limit is 8,760, which is a year",
    b"& P < 5 V 8 1 up dead P < 5 U 9000 up dead\n": "formula.txt, token 14: 9000 hours, the limit is 8,760, which is a year",
}

FALLING = {
    b"P < 5 V 8 1 up dead\n": "formula.txt, token 5: the first time, 8, is after the second, 1: write V 1 8",
    b"& P < 5 V 1 8 up dead P < 5 V 2.5 2.25 up dead\n": "formula.txt, token 14: the first time, 2.5, is after the second, 2.25: write V 2.25 2.5",
}

# Formulas that are put to the small sheet, by the number that they are refused with.
FORMULAS = {
    10: TEXT | TOO_SOON | LEFT_OVER | OPERATORS | COMPARISONS | THRESHOLDS | PATHS | HOURS | PRISM,
    11: LEVELS,
    12: NAMES,
    13: NUMBERS,
    16: FALLING,
}

REPAIR = moves_text([(0, 1, 500), (1, 0, 500_000), (1, 1, MOST_RATE // 2)])     # in two hours; the moves to the own state do not count
SIXTEEN = labels_text([bytes([letter]) * 3 for letter in b"abcdefghijklmnop"], [[1] * 16])


def leaves(count):
    """A formula of so many labels, nested as little as can be, as tokens."""
    return b"up" if count == 1 else b"& " + leaves(count // 2) + b" " + leaves(count - count // 2)


# Other jobs, by their number.
WHOLE_JOBS = {
    11: {
        (MOVES, LABELS, leaves(MOST_NODES // 2 + 1) + b"\n"):
            'formula.txt, token 65: 65 nodes (each label, tt, !, & and P is one), there may be at most 64: "up" is the first too many',
        (MOVES, LABELS, b"P < 5 U 8 up " + leaves(40) + b"\n"):
            'formula.txt, token 69: 81 nodes (each label, tt, !, & and P is one), there may be at most 64: "&" is the first too many',
        (MOVES, LABELS, b"& " + b"! " * MOST_LEVELS + b"up " + leaves(40) + b"\n"):
            'formula.txt, token 17: "!" is nested 17 deep, the limit is 16: two ! in a row can be left out',
    },
    12: {
        (MOVES, labels_text([], [[], []]), b"up\n"): 'formula.txt, token 1: no label "up", labels.txt has none',
        (MOVES, labels_text([], [[], []]), b"true\n"):
            'formula.txt, token 1: no label "true", labels.txt has none: write tt',
        (NO_MOVES, labels_text([b"up"], [[1]]), b"& up hot\n"): 'formula.txt, token 3: no label "hot", labels.txt has up',
        (NO_MOVES, labels_text([b"up", b"hot", b"dead"], [[1, 1, 0]]), b"P < 5 V 1 8 up wet\n"):
            'formula.txt, token 8: no label "wet", labels.txt has up, hot and dead',
        (NO_MOVES, SIXTEEN, b"! qqq\n"): 'formula.txt, token 2: no label "qqq", labels.txt has aaa, bbb, ccc, ddd, eee, fff, ggg, hhh and 8 more',
    },
    14: {
        (REPAIR, LABELS, until(200 * HOUR)):
            "formula.txt, token 5: 200 hours, the rates allow at most 128: state 1 is left at 500,000 moves per million hours",
        (REPAIR, LABELS, b"& up P < 5 X P < 5 U 128.01 up dead\n"):
            "formula.txt, token 11: 128.01 hours, the rates allow at most 128: state 1 is left at 500,000 moves per million hours",
        (moves_text([(0, 1, 700_000)]), LABELS, until(100 * HOUR)):
            "formula.txt, token 5: 100 hours, the rates allow at most 91.42: state 0 is left at 700,000 moves per million hours",
        (FULL_MOVES, LABELS, between(HOUR + 1, 3 * HOUR)):
            "formula.txt, token 5: 1.01 hours up to the first time, the rates allow at most 1: state 0 is left at 64,000,000 moves per million hours",
        (FULL_MOVES, LABELS, between(HOUR, 3 * HOUR)):
            "formula.txt, token 6: 2 hours from the first time to the second, the rates allow at most 1: "
            "state 0 is left at 64,000,000 moves per million hours",
        (FULL_MOVES, LABELS, between(0, 3 * HOUR)):
            "formula.txt, token 6: 3 hours, the rates allow at most 1: state 0 is left at 64,000,000 moves per million hours",
    },
}


class Formulas(unittest.TestCase):
    def check(self, number, job, sentence):
        with self.subTest(number, formula=job[2][:60]):
            self.assertEqual(refusal(*job), number)
            self.assertEqual(faults(Job(*job)), [sentence])

    def test_on_the_small_sheet(self):
        for number, ways in FORMULAS.items():
            for formula, sentence in ways.items():
                self.check(number, (MOVES, LABELS, formula), sentence)

    def test_on_other_sheets(self):
        for number, ways in WHOLE_JOBS.items():
            for job, sentence in ways.items():
                self.check(number, job, sentence)

    def test_what_is_offered_for_prism_is_accepted(self):
        """A formula that is told whole has a report, and is about the labels that were typed."""
        offered = [sentence.partition("here the formula is ")[2].encode() for sentence in PRISM.values()]
        self.assertEqual(len(list(filter(None, offered))), 14)
        for formula in filter(None, offered):
            self.assertIsInstance(refusal(MOVES, LABELS, formula + b"\n"), Job)


if __name__ == "__main__":
    unittest.main()
