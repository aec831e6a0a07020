# The least common multiple of two lengths. For path.awk and rounds.awk, in front of them.
function common(a, b,    rest, product) {
	product = a * b
	while (b) {
		rest = a % b
		a = b
		b = rest
	}
	return product / a
}
