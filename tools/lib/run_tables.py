"""Numbers of runs worked out by hand, for tools/test-draw-run."""

# What each event changes, worked out from docs/RULES.md: the event, `host` or a guest's number, and
# the new numbers; a mark, or `gone` after an unplug. What isn't named stays as it was, and is 0 at
# a plug. A table begins with the host's frames and the number of events.

FIRST_PATH = """
64 frames, 12 events
1 0 free 48
1 0 mark plug
2 host used 13
3 0 free 47 used 1
4 host used 14
7 0 target 4
8 0 free 43 giving 4
10 0 ballooned 4
11 0 giving 0 lent 4 actual 4
"""

# The frame of page 17 goes back at event 13.
GIVE_BACK = """
64 frames, 33 events
1 0 free 48
1 0 mark plug
2 host used 13
3 0 free 47 used 1
4 host used 14
5 0 free 46 used 2
6 host used 15
7 0 free 47 used 1
9 0 target 8
10 0 free 39 giving 8
13 0 ballooned 8
13 host used 14
15 0 giving 0 lent 8 actual 8
21 0 target 5
22 0 lent 5 taking 3
25 0 ballooned 5
27 0 taking 0 free 42 actual 5
31 0 free 41 used 2
"""

# The immediate device of guest 1 gives two frames back at event 24, the paced one of guest 0 gives
# one at each of its first two visits.
PACED = """
64 frames, 56 events
1 0 free 48
1 0 mark plug
2 1 free 48
2 1 mark plug
3 host used 13
4 host used 26
5 0 free 47 used 1
6 host used 27
7 0 free 46 used 2
8 host used 28
9 0 free 47 used 1
10 0 free 48 used 0
11 1 free 47 used 1
12 host used 29
13 1 free 46 used 2
14 host used 30
15 1 free 47 used 1
16 1 free 48 used 0
18 0 target 3
19 1 target 3
20 0 free 45 giving 3
21 1 free 45 giving 3
24 1 ballooned 3
24 host used 28
28 host used 27
30 host used 26
36 0 ballooned 3
38 0 giving 0 lent 3 actual 3
39 1 giving 0 lent 3 actual 3
42 0 target 1
43 1 target 1
44 0 lent 1 taking 2
45 1 lent 1 taking 2
49 0 ballooned 1
50 1 ballooned 1
51 0 taking 0 free 47 actual 1
52 1 taking 0 free 47 actual 1
"""

REPORTING = """
64 frames, 27 events
1 0 free 48
1 0 mark plug
2 host used 13
3 0 free 32 used 16
4 host used 14
5 host used 15
6 0 free 48 used 0
8 0 free 0 reporting 48
12 host used 13
16 0 free 48 reporting 0
18 0 free 32 used 16
"""

TWO_GUESTS = """
35 frames, 45 events
1 0 free 48
1 0 mark plug
2 1 free 48
2 1 mark plug
3 host used 13
4 host used 26
5 0 free 40 used 8
6 host used 27
7 host used 28
8 host used 29
9 host used 30
10 host used 31
11 host used 32
12 host used 33
13 host used 34
14 0 free 48 used 0
16 1 free 46 used 2
17 host used 35
18 1 mark no frame
28 0 target 48
28 1 target 45
31 0 free 0 giving 48
33 0 ballooned 48
33 host used 27
34 0 giving 0 lent 48 actual 48
36 host used 28
37 1 free 1 giving 45
39 1 ballooned 45
40 1 giving 0 lent 45 actual 45
"""

# What guest 0 scribbles goes to pages that have a frame since its init. The new life gives its 13
# back.
ROGUE = """
40 frames, 40 events
1 0 free 48
1 0 mark plug
2 host used 13
3 1 free 48
3 1 mark plug
4 host used 26
5 1 free 47 used 1
6 host used 27
10 0 mark broken C3
15 1 target 24
16 1 free 23 giving 24
18 1 ballooned 24
19 1 giving 0 lent 24 actual 24
21 0 mark reset
26 0 mark broken C10
27 0 mark reset
30 0 mark ring broken
32 0 mark restart
32 host used 14
34 host used 27
35 0 target 16
36 0 free 32 giving 16
38 0 ballooned 16
39 0 giving 0 lent 16 actual 16
"""

# Guest 0 has frames that back pages 16 to 23, which are visited first. Guest 1 has them for its
# pages 16 to 23, too: at event 84 it offers the rest of its smallest block, 40 to 47, and then 16
# to 27.
PACED_BALANCE = """
96 frames, 114 events
1 0 free 48
1 0 mark plug
2 1 free 48
2 1 mark plug
3 host used 13
4 host used 26
5 0 free 40 used 8
6 host used 27
7 host used 28
8 host used 29
9 host used 30
10 host used 31
11 host used 32
12 host used 33
13 host used 34
14 0 free 48 used 0
15 1 free 32 used 16
16 host used 35
17 host used 36
18 host used 37
19 host used 38
27 0 target 24
27 1 target 8
28 0 free 24 giving 24
29 1 free 24 giving 8
32 host used 37
34 host used 36
36 host used 37
37 host used 36
39 host used 35
41 host used 36
42 host used 35
44 host used 34
46 host used 35
47 host used 34
49 host used 33
51 host used 34
52 1 ballooned 8
53 1 giving 0 lent 8 actual 8
70 0 ballooned 24
71 0 giving 0 lent 24 actual 24
73 1 free 40 used 0
74 0 free 8 used 16
83 0 target 4
83 1 target 28
84 1 free 20 giving 20
94 host used 33
95 host used 32
96 host used 31
97 host used 30
98 host used 29
99 host used 28
100 host used 27
101 host used 26
106 1 ballooned 28
107 1 giving 0 lent 28 actual 28
108 0 lent 4 taking 20
110 0 ballooned 4
111 0 taking 0 free 28 actual 4
"""

# A guest that goes, and one with another size that comes in its place; a comment with odd bytes,
# numbers with leading zeros, and a last line that doesn't end.
LIVES_SCRIPT = b"""# \xff\x85frames\x0bframes\rframes
host 20
spare immediate
spare paced
plug 64 8 1
init 0
target 0 4
inflate 0 4
reset 0
unplug 00
frames
plug 128 8 1

# Another guest than this one isn't there, and no device is left.
unplug 3
plug 64 8 1
init 0
plug 64 8 9
restart 000
init 1
read 0 16 0 1
frames"""

LIVES = """
20 frames, 16 events
1 0 free 48
1 0 mark plug
2 host used 13
3 0 target 4
4 0 free 44 giving 4
5 0 giving 0 stranded 4
5 0 mark reset
6 0 gone
6 0 mark unplug
6 host used 0
8 0 free 112
8 0 mark plug
11 host used 13
13 0 mark restart
13 host used 0
"""

# A host with too few frames for a guest's rings.
NO_FRAME_SCRIPT = b"host 12\nspare immediate\nplug 64 2 1\ninit 0\n"

NO_FRAME = """
12 frames, 2 events
1 0 free 48
1 0 mark plug
2 0 mark no frame
"""
