# Over a listing: a script with so many instants, `count`, one after each `step` ticks, at each of which every sensor shows something that is
# drawn from `seed`: an int from -200 to 199, or a truth value. No job is told to take less than its worst case.

$1 == "sensor" {
	sensor[++sensors] = $2
	type[sensors] = $3
}

function draw(below) {
	seed = (seed * 1103 + 12345) % 1000003
	return int(seed / 7) % below
}

END {
	for (i = 0; i < count; i++) {
		print "at " i * step
		for (k = 1; k <= sensors; k++) print "sense " sensor[k] " " (type[k] == "bool" ? draw(2) : draw(400) - 200)
	}
	print "end " count * step
}
