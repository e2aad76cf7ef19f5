"""Where the fault is in a sheet: for each way of earning 1 to 9, 15 and 17 the sentence, whole, and that every number has its ways."""

import unittest

from reckoning.copying import BY_SHEET
from reckoning.faults import FINDERS, Copy, faults, number_of
from reckoning.limits import FORMULA_BYTES, MOST_MOVES, MOST_STATES, SHEET_BYTES
from reckoning.refusal import SHORT, Job, Lent, needed, refusal
from reckoning.sheets import FORMULA, LABELS, MOVES, MOVES_LINE, NO_MOVES, labels_text, moves_text
from reckoning.tests.test_formula_faults import FORMULAS, WHOLE_JOBS
from reckoning.tests.test_refusal import of_nodes

# The numbers of document 01's table and of document 02; 7 and 8 are given no more.
NUMBERS = set(range(1, 18)) - {7, 8}

# What is typed below the first line of moves.txt.
MOVE_LINES = {
    b"0,1\n": "moves.txt, line 2: 2 fields, a move has 3",
    b"0,1,500\n0,1,5,6\n": "moves.txt, line 3: 4 fields, a move has 3: if the rate is 5.6, round it to a whole number",
    b"0,1,64,000,000\n": "moves.txt, line 2: 5 fields, a move has 3: is 64000000 meant? write it without commas",
    b"0,1,500,\n": "moves.txt, line 2: 4 fields, a move has 3: take out the comma at the end",
    b"0 1 500\n": 'moves.txt, line 2: "0 1 500" has spaces: fields are set apart by commas',
    b"0;1;500\n": 'moves.txt, line 2: "0;1;500" has semicolons: fields are set apart by commas',
    b"0\t1\t500\n": 'moves.txt, line 2: "0\\t1\\t500" has tabs: fields are set apart by commas',
    b"\n": "moves.txt, line 2: an empty line: take it out",
    b"0,1,5\n\n": "moves.txt, line 3: an empty line: take it out",
    b"0,1,5\n  \n0,1,5\n": "moves.txt, line 3: an empty line: take it out",
    b"0,1,500\r\n": "moves.txt, line 2: a carriage return, as Windows line ends have: save the file with Unix line ends (LF, not CRLF)",
    b"0,1,500": "moves.txt, line 2: the line feed at the end is missing: press Enter at the end of the line and save",
    b"0,1": "moves.txt, line 2: 2 fields, a move has 3",
    b"0,,500\n": "moves.txt, line 2, field 2: empty, a state's number is wanted",
    b"up,dead,500\n": 'moves.txt, line 2, field 1: "up" is no number: a state\'s number is wanted',
    b"0,1,05\n": 'moves.txt, line 2, field 3: "05" begins with a zero: write 5',
    b"00,1,5\n": 'moves.txt, line 2, field 1: "00" begins with a zero: write 0',
    b"0,1,1234567890\n":
        "moves.txt, line 2, field 3: 10 digits, a number has at most 9: a rate in moves per million hours is wanted, of at most 64,000,000",
    b"1234567890,1,5\n": "moves.txt, line 2, field 1: 10 digits, a number has at most 9: a state's number is wanted",
    b"0, 1,500\n": 'moves.txt, line 2, field 2: " 1" has a space beside it: write 1',
    b"0,1 ,500\n": 'moves.txt, line 2, field 2: "1 " has a space beside it: write 1',
    b"0,1,-500\n": 'moves.txt, line 2, field 3: "-500" is negative: a rate in moves per million hours is wanted',
    b"-1,0,5\n": 'moves.txt, line 2, field 1: "-1" is negative: a state\'s number is wanted',
    b"0,1,0.0005\n":
        'moves.txt, line 2, field 3: "0.0005" is no whole number: a rate is moves per million hours, round it up to 1, '
        "or write 500 if it is per hour",
    b"0,1,5e-4\n":
        'moves.txt, line 2, field 3: "5e-4" is no whole number: a rate is moves per million hours, round it up to 1, or write 500 if it is per hour',
    b"0,1,3.3\n": 'moves.txt, line 2, field 3: "3.3" is no whole number: round it, a failure\'s rate up to 4 and a repair\'s down to 3',
    b"0,1,1.000\n":
        'moves.txt, line 2, field 3: "1.000" may be 1000 or 1: a rate in moves per million hours is wanted, whole and without a point',
    b"0,1,41.666\n":
        'moves.txt, line 2, field 3: "41.666" may be 41666 or 41.666: a rate in moves per million hours is wanted, whole and without a point',
    b"0,1,5\n,,\n": "moves.txt, line 3: an empty line: take it out",
    b"0,1,164,,\n": "moves.txt, line 2: 5 fields, a move has 3: take out the commas at the end",
    b"0,1,500.0\n": 'moves.txt, line 2, field 3: "500.0" is not written as a whole number: write 500',
    b"0,1,1_000_000_000\n": 'moves.txt, line 2, field 3: "1_000_000_000" is no number: a rate in moves per million hours is wanted',
    b"0,1,1,000,000,000\n": "moves.txt, line 2: 6 fields, a move has 3",
    b"0,1,0.0000005\n": 'moves.txt, line 2, field 3: "0.0000005" is no whole number: a rate is moves per million hours, round it up to 1',
    b"0.5,1,5\n": 'moves.txt, line 2, field 1: "0.5" is no whole number: a state\'s number is wanted',
    b"\"0\",\"1\",\"500\"\n": 'moves.txt, line 2: "\\"0\\",\\"1\\",\\"500\\"" has quotes: write the fields without them',
    b"0,1,500 # pump\n": 'moves.txt, line 2: "0,1,500 # pump" has "#" in it: a line has numbers alone, and no comment',
    b"# pump\n": 'moves.txt, line 2: "# pump" has "#" in it: a line has numbers alone, and no comment',
    b"0,1,5 // pump\n": 'moves.txt, line 2: "0,1,5 // pump" has "//" in it: a line has numbers alone, and no comment',
    b"0,1,+5\n": 'moves.txt, line 2, field 3: "+5" has a sign: write 5',
    b"0,1,64_000\n": 'moves.txt, line 2, field 3: "64_000" has thousands separators: write 64000',
    b"0,1,64'000\n": 'moves.txt, line 2, field 3: "64\'000" has thousands separators: write 64000',
    b"0,1,64.000.000\n": 'moves.txt, line 2, field 3: "64.000.000" has thousands separators: write 64000000',
    b"0,1,64 000\n": 'moves.txt, line 2, field 3: "64 000" has thousands separators: write 64000',
    b"0,1,x\n": 'moves.txt, line 2, field 3: "x" is no number: a rate in moves per million hours is wanted',
    b"0,1,\xc2\xa05\n": "moves.txt, line 2: a no-break space (\\xc2\\xa0), which looks like a space and is none: type it anew",
    b"0,1,\xd9\xa1\n": 'moves.txt, line 2, field 3: "\\xd9\\xa1" is no number: a rate in moves per million hours is wanted',
    b"0\x00,1\x00,5\x00\n": "moves.txt, line 2: bytes 0, as files in UTF-16 have: save the file as plain text in ASCII or UTF-8",
    b"0,1,5 per hour and a good deal more than anyone reads\n":
        'moves.txt, line 2, field 3: "5 per hour and a good deal more than any..." is no number: a rate in moves per million hours is wanted',
}

# What is typed as labels.txt.
STATE_LINES = {
    b"state,up,dead\n0,1\n": "labels.txt, line 2: 2 fields, the first line has 3",
    b"state,up,dead\n0,1,0\n1,0,1\n2,1,1\n3,0,0\n4,0,0\n5,1,0,1\n": "labels.txt, line 7: 4 fields, the first line has 3",
    b"state,up,dead\n0,1,0,\n": "labels.txt, line 2: 4 fields, the first line has 3: take out the comma at the end",
    b"state\n0,1\n": "labels.txt, line 2: 2 fields, the first line has 1",
    b"state;up;dead\n0,1,0\n": "labels.txt, line 2: 3 fields, the first line has 1: set its names apart by commas",
    b"state;up;dead\n0;1;0\n": 'labels.txt, line 2: "0;1;0" has semicolons: fields are set apart by commas',
    b"state up dead\n0 1 0\n": 'labels.txt, line 2: "0 1 0" has spaces: fields are set apart by commas',
    b"state,up,dead\n0,2,0\n": 'labels.txt, line 2, field 2: "2" is no mark: 0 or 1 for "up" is wanted',
    b"state,up,dead\n0,1,yes\n": 'labels.txt, line 2, field 3: "yes" is no mark: 0 or 1 for "dead" is wanted',
    b"state,up,dead\n0,1,01\n": 'labels.txt, line 2, field 3: "01" is no mark: 0 or 1 for "dead" is wanted',
    b"state,up,dead\n0,1,\n": 'labels.txt, line 2, field 3: empty, 0 or 1 for "dead" is wanted',
    b"state,up,dead\n0,1, 0\n": 'labels.txt, line 2, field 3: " 0" has a space beside it: write 0',
    b"state,up,dead\nx,1,0\n": 'labels.txt, line 2, field 1: "x" is no number: a state\'s number is wanted',
    b"state,up,dead\n00,1,0\n": 'labels.txt, line 2, field 1: "00" begins with a zero: write 0',
    b"state,up,dead\n-1,1,0\n": 'labels.txt, line 2, field 1: "-1" is negative: a state\'s number is wanted',
    b"state,up,dead\n0,1,0\n\n": "labels.txt, line 3: an empty line: take it out",
    b"state,up,dead\n0,1,0": "labels.txt, line 2: the line feed at the end is missing: press Enter at the end of the line and save",
    b"state": "labels.txt, line 1: the line feed at the end is missing: press Enter at the end of the line and save",
    b"state,up\r\n0,1\r\n": "labels.txt, line 2: a carriage return, as Windows line ends have: save the file with Unix line ends (LF, not CRLF)",
    b"state\r0\r": "labels.txt, line 1: a carriage return, as Windows line ends have: save the file with Unix line ends (LF, not CRLF)",
    b"state,up,\n0,1,\n":
        "labels.txt, line 2, field 3: this column has no name in the first line: give it one, or take the column out in every line",
    b"state,up\n0,1\n,\n": "labels.txt, line 3: an empty line: take it out",
    b"state,up\n0, 1\n": 'labels.txt, line 2, field 2: " 1" has a space beside it: write 1',
    b"state,up\n0, 2\n": 'labels.txt, line 2, field 2: " 2" is no mark: 0 or 1 for "up" is wanted',
    b"state,Up\n0,x\n": 'labels.txt, line 2, field 2: "x" is no mark: 0 or 1 for "Up" is wanted',
    b"state\n1234567890\n": "labels.txt, line 2, field 1: 10 digits, a number has at most 9: a state's number is wanted",
}

MOVES_HEADS = {
    b"From,To,Rate\n": 'moves.txt, line 1: "From,To,Rate", should be from,to,rate in small letters',
    b"from, to, rate\n": 'moves.txt, line 1: "from, to, rate", should be from,to,rate without spaces',
    b"from to rate\n": 'moves.txt, line 1: "from to rate" has spaces: fields are set apart by commas',
    b"from;to;rate\n": 'moves.txt, line 1: "from;to;rate" has semicolons: fields are set apart by commas',
    b"from,to,rate\r\n": "moves.txt, line 1: a carriage return, as Windows line ends have: save the file with Unix line ends (LF, not CRLF)",
    b"\xef\xbb\xbffrom,to,rate\n":
        "moves.txt, line 1: a byte order mark at the beginning: save the file as UTF-8 without one (without BOM), or as ASCII",
    b"0,1,500\n": 'moves.txt, line 1: "0,1,500" is a move: put the line from,to,rate above it',
    b"state,up,dead\n": 'moves.txt, line 1: "state,up,dead", should be from,to,rate; are the texts of moves.txt and labels.txt exchanged?',
    b"\n": "moves.txt, line 1: empty, should be from,to,rate",
    b"from,to\n": 'moves.txt, line 1: "from,to", should be from,to,rate',
    b"from,to,rate,note\n": 'moves.txt, line 1: "from,to,rate,note", should be from,to,rate',
    b"\"from\",\"to\",\"rate\"\n": 'moves.txt, line 1: "\\"from\\",\\"to\\",\\"rate\\"" has quotes: write the fields without them',
}

LABELS_HEADS = {
    b"State,up\n": 'labels.txt, line 1, field 1: "State", should be state in small letters',
    b" state,up\n": 'labels.txt, line 1, field 1: " state", should be state without spaces',
    b"state;up\n": 'labels.txt, line 1, field 1: "state;up" has semicolons: fields are set apart by commas',
    b"\xef\xbb\xbfstate,up\n":
        "labels.txt, line 1, field 1: a byte order mark at the beginning: save the file as UTF-8 without one (without BOM), or as ASCII",
    b"state\r\n": "labels.txt, line 1, field 1: a carriage return, as Windows line ends have: save the file with Unix line ends (LF, not CRLF)",
    b"0,1\n": 'labels.txt, line 1, field 1: "0" is a number: put the line with state and the names of the labels above the states',
    b"from,to,rate\n": 'labels.txt, line 1, field 1: "from", should be state; are the texts of moves.txt and labels.txt exchanged?',
    b"\n": "labels.txt, line 1, field 1: empty, should be state",
    b"up,dead\n": 'labels.txt, line 1, field 1: "up", should be state',
    b"\"state\",\"up\"\n": 'labels.txt, line 1, field 1: "\\"state\\"" has quotes: write the fields without them',
    b"state,\n": "labels.txt, line 1, field 2: empty: give the column a name, or take the column out in every line",
    b"state,,up\n": "labels.txt, line 1, field 2: empty: give the column a name, or take the column out in every line",
    b"state,abcdefghijklm\n": 'labels.txt, line 1, field 2: "abcdefghijklm" has 13 letters, a name is 1 to 12 letters a to z',
    b"state,TT\n": 'labels.txt, line 1, field 2: "TT" cannot be a name, since tt has a meaning of its own: choose another',
    b"state,up,Up\n": 'labels.txt, line 1, field 3: "Up" again, it stands in field 2 already',
    b"state,up,\n0,1,0\n": "labels.txt, line 1, field 3: empty: give the column a name, or take the column out in every line",
    b"state,Up\n": 'labels.txt, line 1, field 2: "Up" has capitals, a name is 1 to 12 letters a to z: write up',
    b"state,up2\n": 'labels.txt, line 1, field 2: "up2" has "2" in it, a name is 1 to 12 letters a to z',
    b"state,is_up\n": 'labels.txt, line 1, field 2: "is_up" has "_" in it, a name is 1 to 12 letters a to z',
    b"state,gun hot\n": 'labels.txt, line 1, field 2: "gun hot" has " " in it, a name is 1 to 12 letters a to z',
    b"state, up\n": 'labels.txt, line 1, field 2: " up" has a space beside it: write up',
    b"state,\"up\"\n": 'labels.txt, line 1, field 2: "\\"up\\"" has quotes: write up',
    b"state,t\xc3\xbcr\n": 'labels.txt, line 1, field 2: "t\\xc3\\xbcr" has "\\xc3" in it, a name is 1 to 12 letters a to z',
    b"state,up\r\n": "labels.txt, line 1, field 2: a carriage return, as Windows line ends have: save the file with Unix line ends (LF, not CRLF)",
    b"state,tt\n": 'labels.txt, line 1, field 2: "tt" cannot be a name, since tt has a meaning of its own: choose another',
    b"state,state\n": 'labels.txt, line 1, field 2: "state" cannot be a name, since state has a meaning of its own: choose another',
    b"state,up,dead,up\n": 'labels.txt, line 1, field 4: "up" again, it stands in field 2 already',
    b"state,a,b,c,d,e,f,g,h,i,j,k,l,m,n,o,p,q\n": "labels.txt, line 1, field 18: 17 names, there may be at most 16: this is the first too many",
}

STATES = {
    b"state,up\n": "labels.txt: no state: below the first line there is a line for each state, beginning with 0",
    b"state,up\n1,0\n": "labels.txt, line 2: state 1, the first is 0, states are counted from 0",
    b"state\n0\n1\n2\n7\n": "labels.txt, line 5: state 7, the next in turn is 3",
    b"state\n0\n0\n": "labels.txt, line 3: state 0, the next in turn is 1",
    b"state\n0\n2\n": "labels.txt, line 3: state 2, the next in turn is 1",
    labels_text([], [[]] * (MOST_STATES + 1)): "labels.txt, line 514: 513 states, there may be at most 512: this is the first too many",
    labels_text([], [[]] * 600): "labels.txt, line 514: 600 states, there may be at most 512: this is the first too many",
    labels_text([], [[]] * MOST_STATES) + b"0\n": "labels.txt, line 514: 513 states, there may be at most 512: this is the first too many",
    b"state\n" + b"0\n" * 600: "labels.txt, line 3: state 0, the next in turn is 1",
}

MANY_MOVES = {
    b"0,1,5\n" * (MOST_MOVES + 1): "moves.txt, line 4098: 4,097 moves, there may be at most 4,096: this is the first too many; "
                                   "they are of 1 pair of states, and the rates of a pair can be added on one line",
    b"0,1,5\n1,0,5\n" * 2_500: "moves.txt, line 4098: 5,000 moves, there may be at most 4,096: this is the first too many; "
                               "they are of 2 pairs of states, and the rates of a pair can be added on one line",
    moves_text([(a, b, 1) for a in range(65) for b in range(65)])[len(MOVES_LINE):]:
        "moves.txt, line 4098: 4,225 moves, there may be at most 4,096: this is the first too many",
}

UNKNOWN_STATES = {
    b"0,9,5\n": "moves.txt, line 2, field 2: state 9, labels.txt has states 0 to 1",
    b"0,1,5\n2,0,5\n": "moves.txt, line 3, field 1: state 2, labels.txt has states 0 to 1",
    b"1,2,0\n": "moves.txt, line 2, field 2: state 2, labels.txt has states 0 to 1",
}

RATES = {
    b"0,1,0\n": "moves.txt, line 2, field 3: rate 0, a rate is at least 1: take the line out if this move never happens",
    b"0,1,5\n0,1,64000000\n": "moves.txt, line 3, field 3: with this line the rates out of state 0 add to 64,000,005, the limit is 64,000,000",
    b"0,1,64000000\n1,0,5\n0,0,1\n0,1,7\n":
        "moves.txt, line 4, field 3: with this line the rates out of state 0 add to 64,000,001, the limit is 64,000,000 "
        "(64,000,008 with those below)",
    b"0,1,64000001\n": "moves.txt, line 2, field 3: with this line the rates out of state 0 add to 64,000,001, the limit is 64,000,000",
    b"0,1,64000000\n1,0,0\n0,0,1\n": "moves.txt, line 3, field 3: rate 0, a rate is at least 1: take the line out if this move never happens",
    b"0,1,64000001\n1,0,0\n": "moves.txt, line 2, field 3: with this line the rates out of state 0 add to 64,000,001, the limit is 64,000,000",
}

# Of 1, with a sentence for each text.
SIZES = {
    (b"", LABELS, FORMULA): ["moves.txt: empty, its first line is from,to,rate"],
    (MOVES, b"", FORMULA): ["labels.txt: empty, its first line is state and the names of the labels, set apart by commas"],
    (MOVES, LABELS, b""): ["formula.txt: empty, it has a formula on one line, such as tt"],
    (b"x" * (SHEET_BYTES + 1), LABELS, FORMULA): ["moves.txt: 61,441 bytes, the limit is 61,440"],
    (MOVES, b"x" * 70_000, FORMULA): ["labels.txt: 70,000 bytes, the limit is 61,440"],
    (MOVES, LABELS, b"x" * (FORMULA_BYTES + 1)): ["formula.txt: 513 bytes, the limit is 512"],
    (b"", b"x" * 70_000, b""): ["moves.txt: empty, its first line is from,to,rate", "labels.txt: 70,000 bytes, the limit is 61,440",
                                "formula.txt: empty, it has a formula on one line, such as tt"],
}

# Of 15, by the buffer that is one too short, for the small sheet.
BUFFERS = {
    "lower": "lent buffer lower: 1 number, it needs 2, one for each state",
    "upper": "lent buffer upper: 1 number, it needs 2, one for each state",
    "verdicts": "lent buffer verdicts: 1 byte, it needs 2, one for each state",
    "order": "lent buffer order: 1 number, it needs 2, one for each state",
    "moves": "lent buffer moves: 1 word, it needs 2, 2 for each line of moves",
    "vectors": "lent buffer vectors: 531 words, it needs 532, 10 for each state, and 512 more",
    "marks": "lent buffer marks: 5 bytes, it needs 6, for each state one for each node of the formula, at most 17",
}


def below(lines):
    return MOVES_LINE + lines, LABELS, b"tt\n"


def first_line(moves):
    return moves, LABELS, b"tt\n"


def states(labels):
    return NO_MOVES, labels, b"tt\n"


def ways():
    """Every way of earning 2 to 9, as its number, a job and a sentence."""
    for number, job, table in ((2, below, MOVE_LINES), (2, states, STATE_LINES), (3, first_line, MOVES_HEADS), (3, states, LABELS_HEADS),
                               (4, states, STATES), (5, below, MANY_MOVES), (6, below, UNKNOWN_STATES), (9, below, RATES)):
        yield from ((number, job(typed), sentence) for typed, sentence in table.items())


class Sheets(unittest.TestCase):
    def test_each_way(self):
        """The same of a job and of a copy."""
        for number, job, sentence in ways():
            with self.subTest(number, moves=job[0][-60:], labels=job[1][:60]):
                self.assertEqual(refusal(*job), number)
                self.assertEqual(faults(Job(*job)), [sentence])
                self.assertEqual(number_of(Copy(*job[:2])), number)
                self.assertEqual(faults(Copy(*job[:2])), [sentence])

    def test_sizes(self):
        """Of a copy the formula is not looked at."""
        for job, sentences in SIZES.items():
            with self.subTest(sentences):
                self.assertEqual(refusal(*job), 1)
                self.assertEqual(faults(Job(*job)), sentences)
                self.assertEqual(faults(Copy(*job[:2])), [each for each in sentences if not each.startswith("formula.txt")])

    def test_moves_before_labels(self):
        self.assertEqual(faults(Job(MOVES_LINE + b"0,1\n", b"state,up\n0\n", b"tt\n")), ["moves.txt, line 2: 2 fields, a move has 3"])
        self.assertEqual(faults(Job(MOVES[:-1], b"state,up\n0\n", b"tt\n"))[0][:17], "moves.txt, line 2")
        self.assertEqual(faults(Job(b"from\n", b"stat\n0\n", b"tt\n")), ['moves.txt, line 1: "from", should be from,to,rate'])

    def test_first_of_several(self):
        """The first line that is wrong, and in it the first field."""
        self.assertEqual(faults(Job(MOVES_LINE + b"0,1,5\n0,x,y\n0\n", LABELS, b"tt\n")),
                         ['moves.txt, line 3, field 2: "x" is no number: a state\'s number is wanted'])
        self.assertEqual(faults(Job(NO_MOVES, b"state,up,Up,up\n0,1,1,1\n", b"tt\n"))[0][:27], "labels.txt, line 1, field 3")
        self.assertEqual(faults(Job(MOVES_LINE + b"0,1,5\n9,8,5\n7,0,5\n", LABELS, b"tt\n")),
                         ["moves.txt, line 3, field 1: state 9, labels.txt has states 0 to 1"])

    def test_accepted(self):
        self.assertEqual((faults(Job(MOVES, LABELS, FORMULA)), number_of(Job(MOVES, LABELS, FORMULA))), ([], None))
        self.assertEqual((faults(Copy(MOVES, LABELS)), number_of(Copy(MOVES, LABELS, len(MOVES)))), ([], None))


class Buffers(unittest.TestCase):
    need = needed(refusal(MOVES, LABELS, FORMULA))

    def test_each_buffer(self):
        self.assertEqual(set(BUFFERS), set(Lent._fields))
        for name, sentence in BUFFERS.items():
            lent = self.need._replace(**{name: getattr(self.need, name) - 1})
            self.assertEqual(refusal(MOVES, LABELS, FORMULA, lent), SHORT)
            self.assertEqual(faults(Job(MOVES, LABELS, FORMULA, lent)), [sentence])

    def test_several_buffers(self):
        """A sentence for each that is too short, in the order in which they are lent."""
        short = [length - 1 for length in self.need]
        self.assertEqual(faults(Job(MOVES, LABELS, FORMULA, short)), [BUFFERS[name] for name in Lent._fields])
        self.assertEqual(faults(Job(MOVES, LABELS, FORMULA, self.need)), [])

    def test_many_nodes(self):
        """From 17 nodes on as many mark bytes as with 17."""
        for nodes, need in ((16, 32), (17, 34), (18, 34), (64, 34)):
            formula = of_nodes(nodes)
            lent = needed(refusal(MOVES, LABELS, formula))._replace(marks=need - 1)
            self.assertEqual(faults(Job(MOVES, LABELS, formula, lent)),
                             [f"lent buffer marks: {need - 1} bytes, it needs {need}, for each state one for each node of the formula, at most 17"])

    def test_room(self):
        """The copy is as long as it is, and not as the text that it is a copy of."""
        moves = moves_text([(1, 0, 5), (0, 1, 60), (0, 1, 40)])
        copy = Copy(moves, LABELS, 26)
        self.assertEqual((number_of(copy), faults(copy)), (17, ["lent buffer for the copy: 26 bytes, the copy has 27"]))
        self.assertEqual(faults(Copy(moves, LABELS, 1)), ["lent buffer for the copy: 1 byte, the copy has 27"])
        self.assertEqual(faults(Copy(moves, LABELS, 27)), [])


class Numbers(unittest.TestCase):
    def test_every_number_has_its_ways(self):
        found = {1, SHORT, 17} | {number for number, *_ in ways()} | set(FORMULAS) | set(WHOLE_JOBS)
        self.assertEqual(found, NUMBERS)
        self.assertEqual(set(FINDERS), NUMBERS)
        self.assertEqual({1} | {number for number, *_ in ways()}, BY_SHEET)


if __name__ == "__main__":
    unittest.main()
