# Of svg.awk: how a run is cut into rows, and the axis of each.

function value_height(c) { return is_bool(c) ? 24 : 42 }

function is_bool(c) { return type[name_c[c]] != "" ? type[name_c[c]] == "bool" : least[c] >= 0 && greatest[c] <= 1 }

function modes_wide(m,    k, wide) {
	for (k = 1; k <= moves[m]; k++) wide += 12 + 6.1 * length(mode[m, k])
	return wide
}

function values_wide(c,    k, wide) {
	for (k = 1; k <= changes[c]; k++) wide += is_bool(c) ? 8 : 6 + 6.1 * length(value[c, k])
	return wide
}

# How wide a lane would have to be for all that is written in it, at most over the lanes.
function widest(    m, c, i, most) {
	for (m = 1; m <= items["m"]; m++) if (modes_wide(m) > most) most = modes_wide(m)
	for (c = 1; c <= items["v"]; c++) if (values_wide(c) > most) most = values_wide(c)
	for (i = 1; i <= lanes; i++) if (10 * slices[lane[i]] + 20 * windows[lane[i]] > most) most = 10 * slices[lane[i]] + 20 * windows[lane[i]]
	return most
}

# How many rows there are, and how much time each has. A row is a whole number of frames, where these aren't much longer than a row
# would be, or else of the longest rounds. Where the rows would make a picture too high they become longer.
function divide(    most, target, base, stretch) {
	row_width = 940
	most = widest()
	rows = int((most + 939) / 940)
	if (rows < 1) rows = 1
	stretch = int(rows * (height + 38) / 31000) + 1
	if (stretch > rows) stretch = rows
	if (stretch > 33) stretch = 33
	row_width *= stretch
	rows = int((rows + stretch - 1) / stretch)
	target = (last ? last : 1) / rows
	base = rows > 1 ? row_base(target) : 0
	tick = base ? 0 : nice(target / 10 / stretch)
	span = base ? base * int((target + base - 1) / base) : tick * int((target + tick - 1) / tick)
	if (span < 1) span = 1
	if (base) tick = part_of(base, span / 10 / stretch)
	rows = int((last + span - 1) / span)
	if (rows < 1) rows = 1
	scale = row_width / (rows > 1 || !last ? span : last)
	if (base) row_is = ", each " (base == frame ? counted(span / base, "frame") : counted(span / base, "round") " of " base)
}

function row_base(target) {
	if (frame_length && frame_length <= 2 * target) return frame_length
	return longest_round && longest_round <= 2 * target ? longest_round : 0
}

# A part of a length that is near a number: one of 1, 2, 5, 10, 20 .. where there is one, else the next that divides it.
function part_of(base, number,    part) {
	part = nice(number * 0.6)
	if (part < 2 * number && base % part == 0) return part
	for (part = int(number * 0.8) + 1; part < base && base % part; part++) continue
	return part < base ? part : base
}

# Lines of the grid behind the lanes, and the axis with its numbers above them, to the end of the row.
function axis(height,    time) {
	text(gutter - 28, y + 12, "name axis", "ticks")
	free = 0
	for (time = begin; time < finish; time += tick) grid_line(time, height)
	grid_line(finish, height)
	if (frame * scale >= 10) for (time = multiple(begin, frame); time <= finish; time += frame) frame_line(time, height)
	y += 20
}

function grid_line(time, height) {
	printf "<path class=\"grid\" d=\"M%s %sV%s\"/>\n", x_of(time), y + 16, y + 20 + height
	label(x_of(time) - 3 * length(time), y + 12, "axis", time "", 1000)
}

function frame_line(time, height) { printf "<path class=\"frame\" d=\"M%s %sV%s\"><title>a frame of %s begins at %s</title></path>\n", x_of(time), y + 16, y + 20 + height, frame, time }

# Room on the left for the names of lanes, each of which is another.
function name_lanes(    m, c, i) {
	gutter = 60
	if (lanes) fit("p", "processor")
	for (m = 1; m <= items["m"]; m++) fit("m", name_m[m])
	for (c = 1; c <= items["v"]; c++) fit("v", name_c[c])
	for (i = 1; i <= lanes; i++) fit("j", name_j[lane[i]])
}

function fit(of, name,    out, n) {
	out = short_name(name)
	for (n = 2; out in is_name_of; n++) out = substr(short_name(name), 1, 32 - length(n)) "~" n
	is_name_of[out] = 1
	names[of, name] = out
	if (length(out) * 6.1 + 20 > gutter) gutter = length(out) * 6.1 + 20
}

function name_shown(of, name) { return (of, name) in names ? names[of, name] : name }

# A name of more than 34 characters with its long parts cut.
function short_name(name,    n, part, i, room, rest, long_, out) {
	if (length(name) <= 34) return name
	n = long_ = split(name, part, ".")
	rest = 35 - n
	room = int(rest / n)
	for (i = 1; i <= n; i++) if (length(part[i]) <= room) {
		rest -= length(part[i])
		long_--
	}
	room = int(rest / long_)
	for (i = 1; i <= n; i++) out = out (i > 1 ? "." : "") (length(part[i]) <= room ? part[i] : substr(part[i], 1, room - int(room / 3) - 1) "~" substr(part[i], length(part[i]) - int(room / 3) + 1))
	return out
}
