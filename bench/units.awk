# Prints LINES SMS-DELIVERs of 10,000 origins, one a line: of three in four the text is in one piece (short, of 160
# letters, in UCS-2), and each fourth and the line after it are the two segments of one text. Each has a second of its own.
function digits(n) { return sprintf("%d%d", n % 10, int(n / 10) % 10) }
function origin(n,  s, i, out) {
	s = sprintf("4670%07dF", n)
	for (i = 1; i < 13; i += 2) out = out substr(s, i + 1, 1) substr(s, i, 1)
	return "0B91" out
}
function stamp(n) { return "42" digits(1 + int(n / 2419200) % 12) digits(1 + int(n / 86400) % 28) digits(int(n / 3600) % 24) digits(int(n / 60) % 60) digits(n % 60) "00" }
function deliver(first, who, scheme, n, data) { print first origin(who) "00" scheme stamp(n) data }
BEGIN {
	for (i = 0; i < 20; i++) long = long "E170381C0E87C3"
	for (i = 0; i < 19; i++) rest = rest "E170381C0E87C3"
	for (n = 0; n < LINES; n++) {
		who = (n * 7919) % 10000
		if (n % 5 == 0) deliver("04", who, "00", n, "0AE8329BFD4697D9EC37")
		else if (n % 5 == 1) deliver("04", who, "00", n, "A0" long)
		else if (n % 5 == 2) deliver("04", who, "08", n, "14041F04400438043204350442002C0020043C04380440")
		else {
			if (n % 5 == 3) last = who
			part = n % 5 - 2
			deliver("44", last, "00", n, sprintf("A0050003%02X02%02XC2", int(n / 5) % 256, part) rest)
		}
	}
}
