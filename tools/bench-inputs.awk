# Inputs for tools/bench, by `kind`: a source, a plant, readers or generated, by the files beside this one; or
# at, sense, took: a script of `lines` lines, of the first of `names` sensors or invocations, or of each in turn;
# rounds: the script of `bulk`;
# open, braces, word, digits, blanks, comments, comment, dense: hostile text of `size` bytes;
# jumps: an object whose mode has 4,096 switches that jump into one chain of `size` plain jumps, `apart` jumps from one
# another; its bytes are written as they are.

function script(    i) {
	print "at 0"
	for (i = 1; i < lines; i++) {
		if (kind == "at") print "at " i
		else if (kind == "sense") printf "sense sensor_%04d %d\n", i % names, i % 1000
		else printf "took module_00.mode_000.job_%04d 1\n", i % names
	}
	print "end " (kind == "at" ? lines - 1 : 0)
}

# The readings of 100 rounds of 1,000 ticks, in each of which the sensor s shows the round's number.
function rounds(    r) {
	for (r = 0; r < 100; r++) printf "at %d\nsense s %d\n", 1000 * r, r
	print "end 100000"
}

# `size` bytes of one text over and over.
function filled(text,    all) {
	all = repeated(text, int(1024 / length(text)))
	for (total = 0; total + length(all) <= size; total += length(all)) printf "%s", all
}

# The bytes of a number, the greatest first.
function number(value, bytes) {
	for (bytes = 2 ^ (8 * (bytes - 1)); bytes >= 1; bytes /= 256) printf "%c", int(value / bytes) % 256
}

function jump(to) {
	number(6, 1)
	number(to, 4)
}

function jumps(    i, head) {
	head = 4100
	tables_of_jumps()
	# The mode is entered at 0, begins at 1 and decides at 3; then come the instructions.
	number(0, 4); number(1, 4); number(3, 4); number(head + size, 4)
	number(8, 1); number(0, 2)
	number(4, 1); number(100, 4); number(2, 1); number(3, 4)
	number(11, 1)
	for (i = 0; i < 4096; i++) { number(5, 1); number(i, 2); number(head + i * apart, 4) }
	jump(1)
	for (i = head + 1; i < head + size; i++) jump(i)
	jump(1)
	# One schedule, of the one instruction `end`.
	number(1, 2); number(1, 4); number(3, 1)
}

# One mode m of one module M, with 4,096 switches to itself whose condition is false.
function tables_of_jumps(    i) {
	printf "HTLO"
	number(1, 2)
	number(0, 2); number(1, 2); number(1, 2); number(0, 2); number(0, 2); number(0, 2); number(4096, 2)
	number(1, 1); printf "m"; number(0, 2); number(100, 4)
	number(1, 1); printf "M"; number(65535, 2); number(0, 2)
	for (i = 0; i < 4096; i++) { number(0, 2); number(0, 2); number(0, 2) }
	for (i = 0; i < 4096; i++) { number(0, 2); number(1, 1); number(1, 2); number(2, 1); number(0, 1) }
}

BEGIN {
	if (kind == "plant") plant()
	else if (kind == "readers") readers()
	else if (kind == "at" || kind == "sense" || kind == "took") script()
	else if (kind == "generated") generated()
	else if (kind == "rounds") rounds()
	else if (kind == "jumps") jumps()
	else if (kind == "open") filled("(")
	else if (kind == "braces") filled("{")
	else if (kind == "word") filled("a")
	else if (kind == "digits") filled("7")
	else if (kind == "blanks") filled(" ")
	else if (kind == "comments") filled("// a line of a comment\n")
	else if (kind == "comment") filled("////////")
	else if (kind == "dense") filled("a=1;b=2;")
	else source()
}
