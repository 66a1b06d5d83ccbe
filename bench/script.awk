# Prints a script of LINES lines: 100 phones, and texts that go from one to another, six lines a text: typed, carried to
# the centre, pushed, carried to the phone, and two acknowledgements carried back. After 900 texts the clock moves on past
# the end of their validity, so that the centre forgets them. With TICK the clock moves on by as many seconds before each
# text: at 192 some 900 are held, and one of them ends at each text.
BEGIN {
	for (p = 0; p < 100; p++) printf "phone p%d +1%03d\n", p, p
	text = 0
	packets = 0
	for (line = 100; line + 7 <= LINES; line += 6) {
		if (TICK || text % 900 == 899) {
			print "tick " (TICK ? TICK : 172800)
			line++
		}
		from = text % 100
		to = (text * 7 + 1) % 100
		printf "type p%d +1%03d text %d of the many that go this way\n", from, to, text
		printf "carry %d\n", packets + 1
		printf "push p%d\n", to
		printf "carry %d\n", packets + 4
		printf "carry %d\n", packets + 6
		printf "carry %d\n", packets + 3
		packets += 8
		text++
	}
	for (; line < LINES; line++) print "#"
}
