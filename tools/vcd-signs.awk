# Of vcd.awk: the signals of a dump, and what changes at which instant.

# A short name of printable signs for the signal of that number, from 1.
function code(number,    text) {
	while (number > 0) {
		text = sprintf("%c", 33 + (number - 1) % 94) text
		number = int((number - 1) / 94)
	}
	return text
}

# Notes that a signal takes a value at an instant; of several the last counts.
function change(time, id, text) {
	if (!(time in order)) {
		order[time] = ++times
		time_of[times] = time
	}
	if (!((time, id) in taken)) ids[time, ++id_count[time]] = id
	taken[time, id] = text
}

# The bits of a decimal number, in two's complement: all 64 of a negative one, since a reader adds zeros in front.
function bits(decimal,    minus, high, mid, low, out, k) {
	minus = sub(/^-/, "", decimal)
	decimal = sprintf("%24s", decimal)
	gsub(/ /, "0", decimal)
	# (the 1 in front: some awks take a number that begins with 0 for octal)
	high = ("1" substr(decimal, 1, 8)) - 100000000
	mid = ("1" substr(decimal, 9, 8)) - 100000000
	low = ("1" substr(decimal, 17, 8)) - 100000000
	if (minus) {
		if (low) low--
		else {
			low = 99999999
			if (mid) mid--
			else {
				mid = 99999999
				high--
			}
		}
	}
	for (k = 0; k < 64 && (minus || high || mid || low); k++) {
		out = (low % 2 == minus ? 0 : 1) out
		mid += high % 2 * 100000000
		low += mid % 2 * 100000000
		high = int(high / 2)
		mid = int(mid / 2)
		low = int(low / 2)
	}
	return out == "" ? "0" : out
}

function declare(type, size, id, name) { print "$var " type " " size " " id " " name " $end" }

function declare_event(name,    id) {
	declare("event", 1, id = code(++signals), name)
	is_event[id] = 1
	return id
}

# Sorts the instants (by Shell).
function sort(    gap, i, k, time) {
	for (gap = int(times / 2); gap > 0; gap = int(gap / 2))
		for (i = gap + 1; i <= times; i++) {
			time = time_of[i]
			for (k = i; k > gap && time_of[k - gap] > time; k -= gap) time_of[k] = time_of[k - gap]
			time_of[k] = time
		}
}
