# Hands each SMS-DELIVER of the input to one of four commands, by two digits of its TP-OA: JOIN and a number from 0 to 3.
{
	count = index("123456789ABCDEF", toupper(substr($0, 4, 1))) + 16 * substr($0, 3, 1)
	place = 5 + count - count % 2
	print | (JOIN ((substr($0, place, 1) + 10 * substr($0, place + 1, 1)) % 4))
}
