"""The values of the sample sheets, as a surveyor writes them.

Angles are in degrees, minutes and seconds, log-sines have 10 added, differences are for 1" in units of the sixth decimal.
A first sheet lists its angles in their order; a second sheet has one row for each angle: angle, log-sine, difference; and
before them the log sides, where the figure has any. Of a sheet that has them, the rounds stand in the order of the angles.
"""

from typing import NamedTuple


class First(NamedTuple):
    """A sheet of kind 1, 3 or 4."""

    code: int
    n: int
    limit: int  # L in tenths of a second, 0 for the default of its kind
    angles: str
    fixed: str = ""
    kind: int = 1
    rounds: tuple = ()  # of each angle, in kind 4


class Second(NamedTuple):
    """A sheet of kind 2 or 5."""

    code: int
    n: int
    tolerance: int  # e in seconds, 0 for the default
    rows: str
    sides: str = ""
    kind: int = 2
    rounds: tuple = ()  # of each angle, in kind 5


# Document 01, "Sheets worked through": the two sheets whose printed text it gives. In the first M-105 has halves go to even: document
# 02 overrides six corrections, six results and a rest. In both M-106 has an angle's line end in its rounds, one on sheets of these kinds.
DOCUMENT = {
    "document-01-first": First(
        code=1,
        n=0,
        limit=0,
        angles="""
            45 00 00.4, 45 00 00.0, 45 00 00.0, 45 00 00.0
            45 00 00.0, 45 00 00.0, 45 00 00.0, 45 00 00.0
        """,
    ),
    "document-01-second": Second(
        code=1,
        n=0,
        tolerance=0,
        rows="""
            45 00 00.0, 9.8494950, 3.00
            45 00 00.0, 9.8494850, 1.69
            45 00 00.0, 9.8494850, 1.43
            45 00 00.0, 9.8494850, 2.71
            45 00 00.0, 9.8494850, 2.03
            45 00 00.0, 9.8494850, 2.48
            45 00 00.0, 9.8494850, 2.19
            45 00 00.0, 9.8494850, 1.78
        """,
    ),
}

DOCUMENT_TEXT = {
    "document-01-first": """\
figure 1 0 denominator 8
1 1620004 -12 -2 1620002 1
2 1620000 -12 -2 1619998 1
3 1620000 -4 0 1620000 1
4 1620000 -4 0 1620000 1
5 1620000 4 0 1620000 1
6 1620000 4 0 1620000 1
7 1620000 -4 0 1620000 1
8 1620000 -4 0 1620000 1
condition 1 4 0
condition 2 0 0
condition 3 0 0
""",
    "document-01-second": """\
figure 1 0 W 100 S 24315176
1 1620000 2049 -163920000 -7 1619993 1
2 1620000 -1703 136240000 6 1620006 1
3 1620000 1483 -118640000 -5 1619995 1
4 1620000 -1829 146320000 6 1620006 1
5 1620000 1977 -158160000 -7 1619993 1
6 1620000 -1631 130480000 5 1620005 1
7 1620000 1415 -113200000 -5 1619995 1
8 1620000 -1761 140880000 6 1620006 1
condition 1 0
condition 2 -1
condition 3 -1
""",
}

# The published examples. Second sheets hold the book's own log-sines, at the angles to which they belong: in books 000 and
# 004 the first-corrected angles as the book hands them out, in book 001 the observed ones (README.md says more).
BOOKS = {
    "book-000-example-1-first": First(
        code=1,
        n=0,
        limit=0,
        angles="""
            35 03 26.5, 51 17 25.5, 55 43 48.5, 37 55 23.3
            46 01 44.7, 40 19 03.0, 43 53 38.8, 49 45 29.0
        """,
    ),
    "book-000-example-1-second": Second(
        code=1,
        n=0,
        tolerance=0,
        rows="""
            35 03 25.5, 9.7592086, 3.00
            51 17 24.5, 9.8922743, 1.69
            55 43 47.6, 9.9171862, 1.43
            37 55 22.4, 9.7885928, 2.71
            46 01 45.9, 9.8571493, 2.03
            40 19 04.1, 9.8109223, 2.48
            43 53 39.9, 9.8409410, 2.19
            49 45 30.1, 9.8827105, 1.78
        """,
    ),
    "book-000-example-2-first": First(
        code=1,
        n=0,
        limit=0,
        angles="""
            79 56 34.2, 33 57 12.1, 40 09 28.3, 25 56 47.0
            16 09 19.0, 97 44 27.6, 38 51 33.5, 27 14 38.1
        """,
    ),
    "book-000-example-2-second": Second(
        code=1,
        n=0,
        tolerance=0,
        rows="""
            79 56 34.3, 9.9932749,  0.37
            33 57 12.2, 9.7470374,  3.13
            40 09 27.4, 9.8094873,  2.50
            25 56 46.1, 9.6410039,  4.33
            16 09 19.0, 9.4444218,  7.27
            97 44 27.5, 9.9960242, -0.28
            38 51 34.5, 9.7975541,  2.61
            27 14 39.0, 9.6606600,  4.09
        """,
    ),
    "book-001-example-8-1-first": First(
        code=1,
        n=0,
        limit=0,
        angles="""
            51 37 51.9, 38 14 31.1, 29 51 19.6, 60 16 19.2
            38 08 09.7, 51 44 08.6, 60 21 56.9, 29 45 43.5
        """,
    ),
    "book-001-example-8-1-second": Second(
        code=1,
        n=0,
        tolerance=0,
        rows="""
            51 37 51.9, 9.8943329, 1.67
            38 14 31.1, 9.7916793, 2.67
            29 51 19.6, 9.6970666, 3.67
            60 16 19.2, 9.9387144, 1.20
            38 08 09.7, 9.7906585, 2.68
            51 44 08.6, 9.8949596, 1.66
            60 21 56.9, 9.9391197, 1.20
            29 45 43.5, 9.6958314, 3.68
        """,
    ),
    "book-001-example-8-1-carried": Second(
        code=1,
        n=0,
        tolerance=0,
        rows="""
            51 37 50.7, 9.8943309, 1.67
            38 14 29.9, 9.7916761, 2.67
            29 51 19.9, 9.6970677, 3.67
            60 16 19.5, 9.9387148, 1.20
            38 08 10.8, 9.7906614, 2.68
            51 44 09.7, 9.8949614, 1.66
            60 21 56.4, 9.9391191, 1.20
            29 45 43.0, 9.6958296, 3.68
        """,
    ),
    "book-004-example-1-first": First(
        code=2,
        n=4,
        limit=0,
        angles="""
            102 11 22.3,  40 34 58.5,  37 13 44.0
            108 11 38.4,  42 52 52.1,  28 55 18.7
             87 05 48.7,  56 25 03.1,  36 29 12.3
             62 31 10.6,  28 08 49.2,  89 19 54.6
        """,
        fixed="129 55 07.7, 80 06 29.7, 85 20 21.8, 64 38 00.8",
    ),
    "book-004-example-1-second": Second(
        code=2,
        n=4,
        tolerance=0,
        sides="3.8864456, 3.9524132",
        rows="""
            102 11 18.9, 9.9900981, -0.45
             40 35 05.0, 9.8132952,  2.46
             37 13 36.1, 9.7817342,  2.78
            108 11 44.4, 9.9777216, -0.69
             42 52 53.5, 9.8328183,  2.27
             28 55 22.1, 9.6845140,  3.81
             87 05 47.9, 9.9994422,  0.11
             56 24 59.7, 9.9206874,  1.39
             36 29 12.4, 9.7742521,  2.85
             62 31 08.9, 9.9480044,  1.09
             28 08 48.4, 9.6736953,  3.94
             89 20 02.7, 9.9999707,  0.02
        """,
    ),
}

# One of each figure and kind: angles taken from laid-out points with small errors; each second sheet starts from the
# corrected angles of its first sheet.
EACH_FIGURE = {
    "quadrilateral-first": First(
        code=1,
        n=0,
        limit=0,
        angles="""
             39 54 03.2,  29 10 38.8,  49 32 11.2,  61 23 05.3
             33 17 54.3,  35 46 45.4,  52 37 00.0,  58 18 17.1
        """,
    ),
    "quadrilateral-second": Second(
        code=1,
        n=0,
        tolerance=0,
        rows="""
             39 54 03.2, 9.8071706,  2.52
             29 10 38.8, 9.6879889,  3.77
             49 32 11.9, 9.8812826,  1.80
             61 23 06.0, 9.9434241,  1.15
             33 17 55.5, 9.7395760,  3.21
             35 46 46.6, 9.7669101,  2.92
             52 37 00.4, 9.9001444,  1.61
             58 18 17.5, 9.9298559,  1.30
        """,
    ),
    "point-in-triangle-first": First(
        code=2,
        n=3,
        limit=0,
        angles="""
            126 07 06.5,  26 24 05.7,  27 28 47.2
            115 57 27.9,  31 01 15.5,  33 01 16.7
            117 55 25.1,  32 38 12.4,  29 26 19.2
        """,
        fixed="55 50 25.1, 58 30 02.8, 65 39 32.1",
    ),
    "point-in-triangle-second": Second(
        code=2,
        n=3,
        tolerance=0,
        rows="""
            126 07 06.8, 9.9073033, -1.54
             26 24 05.5, 9.6480271,  4.24
             27 28 47.7, 9.6641130,  4.05
            115 57 27.3, 9.9538169, -1.03
             31 01 15.1, 9.7121024,  3.50
             33 01 17.5, 9.7363599,  3.24
            117 55 25.9, 9.9462413, -1.12
             32 38 14.6, 9.7318469,  3.29
             29 26 19.6, 9.6915176,  3.73
        """,
    ),
    "point-in-quadrilateral-first": First(
        code=2,
        n=4,
        limit=0,
        angles="""
            100 46 52.4,  40 42 57.9,  38 30 10.6
             77 42 33.0,  55 56 53.1,  46 20 32.1
             89 12 59.4,  43 09 37.7,  47 37 30.9
             92 17 43.4,  40 57 24.6,  46 44 54.5
        """,
        fixed="87 27 52.9, 94 27 03.7, 89 30 08.3, 88 34 55.1",
    ),
    "point-in-quadrilateral-second": Second(
        code=2,
        n=4,
        tolerance=0,
        sides="3.7652112, 3.7502006",
        rows="""
            100 46 51.1, 9.9922662, -0.40
             40 42 58.8, 9.8144570,  2.45
             38 30 10.0, 9.7941760,  2.65
             77 42 32.9, 9.9899299,  0.46
             55 56 53.7, 9.9183094,  1.42
             46 20 33.4, 9.8594270,  2.01
             89 12 55.2, 9.9999593,  0.03
             43 09 34.9, 9.8350778,  2.25
             47 37 29.9, 9.8684970,  1.92
             92 17 40.8, 9.9996516, -0.08
             40 57 25.2, 9.8165677,  2.43
             46 44 54.1, 9.8623409,  1.98
        """,
    ),
    "polygon-3-first": First(
        code=3,
        n=3,
        limit=0,
        angles="""
            118 17 52.1,  31 22 14.2,  30 19 49.9
            116 05 50.4,  30 10 15.0,  33 43 55.2
            125 36 16.8,  28 13 07.2,  26 10 38.4
        """,
    ),
    "polygon-3-second": Second(
        code=3,
        n=3,
        tolerance=0,
        rows="""
            118 17 53.5, 9.9447256, -1.13
             31 22 15.4, 9.7164847,  3.45
             30 19 51.1, 9.7032850,  3.60
            116 05 50.3, 9.9532997, -1.03
             30 10 14.7, 9.7012040,  3.62
             33 43 54.9, 9.7445338,  3.15
            125 36 16.1, 9.9101201, -1.51
             28 13 06.3, 9.6747087,  3.92
             26 10 37.5, 9.6445833,  4.28
        """,
    ),
    "polygon-4-first": First(
        code=3,
        n=4,
        limit=0,
        angles="""
             84 20 15.5,  40 01 50.7,  55 37 52.6
             89 08 22.6,  49 43 53.5,  41 07 44.7
             89 28 40.9,  41 37 07.6,  48 54 11.4
             97 02 40.5,  47 11 29.3,  35 45 51.8
        """,
    ),
    "polygon-4-second": Second(
        code=3,
        n=4,
        tolerance=0,
        rows="""
             84 20 16.1, 9.9978758,  0.21
             40 01 51.0, 9.8083459,  2.51
             55 37 52.9, 9.9166764,  1.44
             89 08 22.6, 9.9999510,  0.03
             49 43 53.1, 9.8825376,  1.78
             41 07 44.3, 9.8180650,  2.41
             89 28 41.1, 9.9999820,  0.02
             41 37 07.5, 9.8222798,  2.37
             48 54 11.3, 9.8771405,  1.84
             97 02 40.2, 9.9967092, -0.26
             47 11 28.7, 9.8654752,  1.95
             35 45 51.2, 9.7667482,  2.92
        """,
    ),
    "polygon-5-first": First(
        code=3,
        n=5,
        limit=0,
        angles="""
             88 26 47.0,  47 09 13.2,  44 23 57.7
             78 58 10.4,  55 34 29.4,  45 27 17.0
             71 14 40.5,  53 29 02.4,  55 16 23.5
             52 55 45.8,  44 40 53.1,  82 23 18.6
             68 24 36.9,  63 01 05.2,  48 34 15.7
        """,
    ),
    "polygon-5-second": Second(
        code=3,
        n=5,
        tolerance=0,
        rows="""
             88 26 47.3, 9.9998403,  0.06
             47 09 14.1, 9.8652125,  1.95
             44 23 58.6, 9.8448861,  2.15
             78 58 11.1, 9.9919019,  0.41
             55 34 30.6, 9.9163847,  1.44
             45 27 18.2, 9.8529070,  2.07
             71 14 38.0, 9.9763022,  0.71
             53 29 00.4, 9.9050858,  1.56
             55 16 21.5, 9.9148042,  1.46
             52 55 46.3, 9.9019456,  1.59
             44 40 54.1, 9.8470588,  2.13
             82 23 19.6, 9.9961567,  0.28
             68 24 37.3, 9.9684096,  0.83
             63 01 06.1, 9.9499518,  1.07
             48 34 16.6, 9.8749335,  1.86
        """,
    ),
    "polygon-6-first": First(
        code=3,
        n=6,
        limit=0,
        angles="""
             68 24 30.7,  51 19 51.6,  60 15 39.8
             45 10 54.9,  48 48 18.9,  86 00 45.2
             70 29 17.3,  67 46 04.4,  41 44 40.4
             57 58 13.3,  62 11 37.8,  59 50 09.9
             54 46 58.4,  60 55 53.1,  64 17 08.4
             63 10 06.0,  61 29 59.5,  55 19 54.6
        """,
    ),
    "polygon-6-second": Second(
        code=3,
        n=6,
        tolerance=0,
        rows="""
             68 24 30.1, 9.9684036,  0.83
             51 19 50.8, 9.8925210,  1.68
             60 15 39.0, 9.9386661,  1.20
             45 10 55.4, 9.8508606,  2.09
             48 48 19.2, 9.8764928,  1.84
             86 00 45.5, 9.9989475,  0.15
             70 29 16.7, 9.9743143,  0.75
             67 46 03.6, 9.9664502,  0.86
             41 44 39.6, 9.8233489,  2.36
             57 58 13.1, 9.9282798,  1.32
             62 11 37.4, 9.9467125,  1.11
             59 50 09.5, 9.9368104,  1.22
             54 46 58.6, 9.9122078,  1.49
             60 55 53.1, 9.9415307,  1.17
             64 17 08.4, 9.9547096,  1.01
             63 10 06.1, 9.9505288,  1.07
             61 29 59.4, 9.9438978,  1.14
             55 19 54.5, 9.9151147,  1.46
        """,
    ),
    "polygon-7-first": First(
        code=3,
        n=7,
        limit=0,
        angles="""
             51 51 20.5,  72 27 42.1,  55 40 55.7
             59 57 34.4,  48 31 14.0,  71 31 08.3
             46 28 55.4,  79 23 22.4,  54 07 42.2
             52 42 14.4,  76 31 21.8,  50 46 25.4
             43 50 59.1,  55 21 06.7,  80 47 53.8
             64 08 25.1,  61 43 19.6,  54 08 15.5
             41 00 27.8,  52 31 45.0,  86 27 46.6
        """,
    ),
    "polygon-7-second": Second(
        code=3,
        n=7,
        tolerance=0,
        rows="""
             51 51 21.3, 9.8956767,  1.65
             72 27 42.5, 9.9793281,  0.67
             55 40 56.1, 9.9169399,  1.44
             59 57 35.8, 9.9373552,  1.22
             48 31 15.0, 9.8745958,  1.86
             71 31 09.3, 9.9770054,  0.70
             46 28 55.7, 9.8604337,  2.00
             79 23 22.3, 9.9925101,  0.39
             54 07 42.1, 9.9086629,  1.52
             52 42 14.1, 9.9006483,  1.60
             76 31 21.1, 9.9878725,  0.50
             50 46 24.7, 9.8891069,  1.72
             43 50 59.5, 9.8405897,  2.19
             55 21 06.7, 9.9152198,  1.46
             80 47 53.8, 9.9943750,  0.34
             64 08 25.3, 9.9541775,  1.02
             61 43 19.4, 9.9448082,  1.13
             54 08 15.3, 9.9087134,  1.52
             41 00 28.3, 9.8170115,  2.42
             52 31 45.1, 9.8996364,  1.61
             86 27 46.7, 9.9991719,  0.13
        """,
    ),
    "polygon-8-first": First(
        code=3,
        n=8,
        limit=0,
        angles="""
             44 47 42.3,  13 59 07.2, 121 13 10.1
             41 32 42.5,  67 19 31.4,  71 07 44.1
             40 25 55.0,  79 08 39.9,  60 25 25.3
             49 21 56.1,  68 31 13.3,  62 06 50.8
             50 19 03.8,  55 43 29.8,  73 57 27.5
             41 40 50.0,  61 46 11.0,  76 32 56.9
             42 40 16.4,  88 34 15.9,  48 45 26.2
             49 11 32.3, 112 32 53.8,  18 15 36.7
        """,
    ),
    "polygon-8-second": Second(
        code=3,
        n=8,
        tolerance=0,
        rows="""
             44 47 42.6, 9.8479268,  2.12
             13 59 07.3, 9.3832299,  8.45
            121 13 10.2, 9.9320616, -1.28
             41 32 43.3, 9.8216529,  2.38
             67 19 32.0, 9.9650653,  0.88
             71 07 44.7, 9.9760057,  0.72
             40 25 55.1, 9.8119400,  2.47
             79 08 39.8, 9.9921579,  0.40
             60 25 25.2, 9.9393689,  1.19
             49 21 56.2, 9.8801734,  1.81
             68 31 13.2, 9.9687386,  0.83
             62 06 50.7, 9.9463936,  1.11
             50 19 03.6, 9.8862631,  1.75
             55 43 29.4, 9.9171601,  1.43
             73 57 27.1, 9.9827492,  0.61
             41 40 50.8, 9.8228085,  2.36
             61 46 11.6, 9.9450030,  1.13
             76 32 57.5, 9.9879211,  0.50
             42 40 17.0, 9.8310968,  2.28
             88 34 16.3, 9.9998649,  0.05
             48 45 26.6, 9.8761744,  1.85
             49 11 31.5, 9.8790412,  1.82
            112 32 52.8, 9.9654645, -0.87
             18 15 35.7, 9.4959994,  6.38
        """,
    ),
}

# Document 02, M-102: the first sheet of document 01 and of each figure, as one of kind 3.
KIND_3 = {
    name.replace("-first", "-kind-3"): values._replace(kind=3)
    for name, values in {**DOCUMENT, **EACH_FIGURE}.items()
    if isinstance(values, First)
}

# How often the angles of a figure were observed, angle 1 first; a smaller figure has the first of these counts.
ROUNDS = (9, 6, 12, 4, 6, 9, 2, 255, 1, 12, 8, 3, 16, 6, 10, 24, 5, 7, 100, 18, 2, 11, 20, 15)

# Document 02, M-106: the sheets of document 01 and of each figure with rounds, the first as ones of kind 4 and the second of kind 5.
KIND_4 = {name.replace("-kind-3", "-kind-4"): values._replace(kind=4, rounds=ROUNDS) for name, values in KIND_3.items()}
KIND_5 = {
    name.replace("-second", "-kind-5"): values._replace(kind=5, rounds=ROUNDS)
    for name, values in {**DOCUMENT, **EACH_FIGURE}.items()
    if isinstance(values, Second)
}

QUADRILATERAL = EACH_FIGURE["quadrilateral-first"]
POINT_IN_TRIANGLE = EACH_FIGURE["point-in-triangle-first"]
POINT_IN_QUADRILATERAL = EACH_FIGURE["point-in-quadrilateral-first"]
TWO_SINE_CONDITIONS = EACH_FIGURE["point-in-quadrilateral-second"]
SECOND = DOCUMENT["document-01-second"]

# The last values that still pass: document 01, "Sheets worked through", cases 7 and 8; the side condition of M-100; the default of
# M-102.
JUST_ACCEPTED = {
    "case-07-sine-misclosure-628": SECOND._replace(rows=SECOND.rows.replace("9.8494950", "9.8495478")),
    "case-08-misclosure-minus-150": QUADRILATERAL._replace(
        angles="""
            44 59 45.0, 45 00 00.0, 45 00 00.0, 45 00 00.0
            45 00 00.0, 45 00 00.0, 45 00 00.0, 45 00 00.0
        """
    ),
    "misclosure-90-kind-3": QUADRILATERAL._replace(
        kind=3,
        angles="""
            45 00 00.0, 45 00 00.0, 45 00 00.0, 45 00 00.0
            45 00 09.0, 45 00 00.0, 45 00 00.0, 45 00 00.0
        """,
    ),
    "side-condition-misclosure-361": TWO_SINE_CONDITIONS._replace(sides="3.7652430, 3.7502006"),
}

# Each with the number and place that it is refused with.
REFUSED = {
    "refused-01-code-1-with-n-4": (QUADRILATERAL._replace(n=4), 1, 0),
    "refused-03-limit-601": (QUADRILATERAL._replace(limit=601), 3, 0),
    "refused-03-tolerance-51": (SECOND._replace(tolerance=51), 3, 0),
    "refused-04-angle-5-of-0": (
        QUADRILATERAL._replace(
            angles="""
                45 00 00.0, 45 00 00.0, 45 00 00.0, 45 00 00.0
                 0 00 00.0, 90 00 00.0, 45 00 00.0, 45 00 00.0
            """
        ),
        4,
        5,
    ),
    "refused-04-angle-1-of-180-degrees": (SECOND._replace(rows=SECOND.rows.replace("45 00", "180 00", 1)), 4, 1),
    "refused-05-fixed-angle-2-of-180-degrees": (
        POINT_IN_TRIANGLE._replace(fixed="55 50 25.1, 180 00 00.0, 65 39 32.1"),
        5,
        2,
    ),
    "refused-05-fixed-angle-4-of-0": (
        POINT_IN_QUADRILATERAL._replace(fixed="87 27 52.9, 94 27 03.7, 89 30 08.3, 0 00 00.0"),
        5,
        4,
    ),
    "refused-06-misclosure-151": (
        QUADRILATERAL._replace(
            angles="""
                45 00 00.0, 45 00 00.0, 45 00 00.0, 45 00 00.0
                45 00 15.1, 45 00 00.0, 45 00 00.0, 45 00 00.0
            """
        ),
        6,
        2,
    ),
    "refused-06-misclosure-91-kind-3": (
        QUADRILATERAL._replace(
            kind=3,
            angles="""
                45 00 00.0, 45 00 00.0, 45 00 00.0, 45 00 00.0
                45 00 09.1, 45 00 00.0, 45 00 00.0, 45 00 00.0
            """,
        ),
        6,
        2,
    ),
    "refused-07-corrected-angle-1": (
        QUADRILATERAL._replace(
            angles="""
                 0 00 00.1, 90 00 00.3, 45 00 00.0, 45 00 00.0
                45 00 00.0, 45 00 00.0, 45 00 00.0, 45 00 00.0
            """
        ),
        7,
        1,
    ),
    "refused-07-adjusted-angle-1": (SECOND._replace(rows=SECOND.rows.replace("45 00 00.0", "0 00 00.7", 1)), 7, 1),
    "refused-08-log-sine-past-10": (SECOND._replace(rows=SECOND.rows.replace("9.8494950", "10.0000001")), 8, 1),
    "refused-08-difference-minus-10000": (SECOND._replace(rows=SECOND.rows.replace("2.48", "-100.00")), 8, 6),
    "refused-08-log-side-1-of-0": (TWO_SINE_CONDITIONS._replace(sides="0.0000000, 3.7502006"), 8, 13),
    "refused-08-log-side-4-past-10": (TWO_SINE_CONDITIONS._replace(sides="3.7652112, 10.0000001"), 8, 14),
    "refused-09-side-condition-misclosure-362": (TWO_SINE_CONDITIONS._replace(sides="3.7652431, 3.7502006"), 9, 0),
    "refused-09-sine-misclosure-629": (SECOND._replace(rows=SECOND.rows.replace("9.8494950", "9.8495479")), 9, 0),
    "refused-10-no-differences": (
        SECOND._replace(
            rows="""
                45 00 00.0, 9.8494850, 0.00
                45 00 00.0, 9.8494850, 0.00
                45 00 00.0, 9.8494850, 0.00
                45 00 00.0, 9.8494850, 0.00
                45 00 00.0, 9.8494850, 0.00
                45 00 00.0, 9.8494850, 0.00
                45 00 00.0, 9.8494850, 0.00
                45 00 00.0, 9.8494850, 0.00
            """
        ),
        10,
        0,
    ),
    "refused-10-differences-along-the-conditions": (
        SECOND._replace(
            rows="""
                 45 00 00.0, 9.8494850,  2.11
                135 00 00.0, 9.8494850, -2.11
                 45 00 00.0, 9.8494850,  2.11
                135 00 00.0, 9.8494850, -2.11
                 45 00 00.0, 9.8494850,  2.11
                135 00 00.0, 9.8494850, -2.11
                 45 00 00.0, 9.8494850,  2.11
                135 00 00.0, 9.8494850, -2.11
            """
        ),
        10,
        0,
    ),
    "refused-10-sine-conditions-alike": (
        TWO_SINE_CONDITIONS._replace(
            sides="4.0000000, 4.0000000",
            rows="""
                 45 00 00.0,  9.8494850,  2.11
                 45 00 00.0,  9.8494850,  2.11
                 90 00 00.0, 10.0000000,  0.00
                 45 00 00.0,  9.8494850,  2.11
                135 00 00.0,  9.8494850, -2.11
                 90 00 00.0, 10.0000000,  0.00
                 45 00 00.0,  9.8494850,  2.11
                 90 00 00.0, 10.0000000,  0.00
                135 00 00.0,  9.8494850, -2.11
                 45 00 00.0,  9.8494850,  2.11
                 90 00 00.0, 10.0000000,  0.00
                 45 00 00.0,  9.8494850,  2.11
            """,
        ),
        10,
        0,
    ),
    "refused-14-fixed-angles-a-tenth-over": (
        POINT_IN_TRIANGLE._replace(
            angles="""
                120 00 00.0,  30 00 00.0,  30 00 00.0
                119 59 59.9,  30 00 00.0,  30 00 00.1
                120 00 00.0,  30 00 00.0,  30 00 00.0
            """,
            fixed="60 00 00.0, 60 00 00.0, 60 00 00.1",
        ),
        14,
        0,
    ),
    "refused-14-fixed-angles-a-tenth-under": (
        POINT_IN_QUADRILATERAL._replace(fixed="87 27 52.9, 94 27 03.7, 89 30 08.3, 88 34 55.0"),
        14,
        0,
    ),
    "refused-16-no-rounds-of-angle-8": (KIND_4["quadrilateral-kind-4"]._replace(rounds=(9, 6, 12, 4, 6, 9, 2, 0)), 16, 8),
    "refused-16-no-rounds-of-angles-1-and-5": (KIND_5["document-01-kind-5"]._replace(rounds=(0, 6, 12, 4, 0, 9, 2, 1)), 16, 1),
}

# Sheets that no values make: another sheet's bytes, changed. Each with what is done and the number it is refused with.
BROKEN = {
    "refused-11-kind-6": ("quadrilateral-first", "kind 6", 11),
    "refused-12-empty": ("quadrilateral-first", "empty", 12),
    "refused-12-one-byte-too-long": ("quadrilateral-first", "one byte too long", 12),
    "refused-12-one-byte-too-short": ("quadrilateral-first", "one byte too short", 12),
    "refused-12-one-byte-past-the-longest": ("polygon-8-kind-5", "one byte too long", 12),
    "refused-13-last-filling-bit": ("quadrilateral-first", "last bit 1", 13),
}

BY_VALUES = {
    **DOCUMENT,
    **BOOKS,
    **EACH_FIGURE,
    **KIND_3,
    **KIND_4,
    **KIND_5,
    **JUST_ACCEPTED,
    **{name: values for name, (values, _, _) in REFUSED.items()},
}
