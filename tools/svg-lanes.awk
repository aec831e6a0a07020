# Of svg.awk: what a row shows of each lane. A row begins at `begin` and ends at `finish`; what lies before it is passed
# over for good: first_*[..] is the first item that may still be seen.

# The name of a lane, with the whole of it to read where it is cut, and the line below the lane.
function lane_of(of, name, height,    out) {
	out = name_shown(of, name)
	printf "<text x=\"%s\" y=\"%s\" class=\"name\">%s%s</text>\n", gutter - 10, y + height / 2 + 4, (out == name ? "" : "<title>" escaped(name) "</title>"), escaped(out)
	printf "<path class=\"grid\" d=\"M8 %sH%s\"/>\n", y + height, right
}

# The hue of a mode: modules begin with another each.
function hue_of(m, its_mode) {
	if (!((m, its_mode) in hue)) hue[m, its_mode] = (m - 1 + hues[m]++) % 6
	return hue[m, its_mode]
}

# The modes of a module as bands.
function mode_lane(m,    k, a, b, words, fits) {
	lane_of("m", name_m[m], 24)
	for (k = first_m[m] + !first_m[m]; k <= moves[m] && when[m, k] <= finish; k++) {
		a = when[m, k]
		b = k < moves[m] && when[m, k + 1] < last ? when[m, k + 1] : last
		if (b < begin) first_m[m] = k + 1
		if (mode[m, k] == "-" || b < begin || b == begin && begin > 0 || a == finish && finish < last) continue
		box("mode h" hue_of(m, mode[m, k]), a, b, y + 3, 18, name_m[m] "." mode[m, k] " from " a " to " b)
		if (a < begin) a = begin
		b = b > finish ? finish : b
		if (round_of[m] * scale >= 5) printf "%s", round_signs(m, a, b)
		words = mode[m, k]
		fits = int((x_of(b) - x_of(a) - 6) / 6.1)
		if (length(words) > fits) words = fits < 4 ? "" : substr(words, 1, fits - 2) ".."
		if (words != "") text(x_of(a) + 4, y + 16, "label", words)
	}
	y += 24
}

# Where rounds of the module begin between two instants.
function round_signs(m, a, b,    time, path) {
	for (time = multiple(a + 1, round_of[m]); time < b; time += round_of[m]) path = path "M" x_of(time) " " y + 3 "v4m0 10v4"
	return path == "" ? "" : "<path class=\"round\" d=\"" path "\"><title>" name_m[m] " has rounds of " round_of[m] "</title></path>\n"
}

# How high the step of a value lies.
function level_of(c, k) {
	if (is_bool(c)) return y + 19 - 12 * (value[c, k] != 0)
	return sprintf("%.2f", y + 38 - 20 * (greatest[c] > least[c] ? (value[c, k] - least[c]) / (greatest[c] - least[c]) : 0.5)) + 0
}

# The values of a communicator as steps: one holds from its change to the next. Its label stands above, where there is room; a truth
# value needs none. On the left stand the least and the greatest.
function value_lane(c,    k, a, b, level, path, marks, of) {
	lane_of("v", name_c[c], value_height(c))
	if (!is_bool(c) && greatest[c] > least[c]) text(gutter - 10, y + 38, "name axis", value_range(c))
	of = kind[name_c[c]] == "sensor" ? " sensed" : ""
	free = 0
	for (k = first_c[c] + !first_c[c]; k <= changes[c] && at[c, k] <= finish; k++) {
		a = at[c, k]
		b = k < changes[c] ? at[c, k + 1] : last
		if (b < begin) first_c[c] = k + 1
		if (b < begin || b == begin && begin > 0 && k < changes[c]) continue
		level = level_of(c, k)
		path = path (path == "" ? "M" x_of(a < begin ? begin : a) " " : "H" x_of(a) "V") level
		if (path ~ /^M[^HV]*$/) path = path "H" x_of(a < begin ? begin : a)
		if (!is_bool(c)) label(x_of(a < begin ? begin : a) + 1, y + 12, "label", value[c, k], 1000)
		if (a >= begin) marks = marks sprintf("<circle class=\"dot%s\" cx=\"%s\" cy=\"%s\" r=\"2.2\"><title>%s is %s from %s on</title></circle>\n", of, x_of(a), level, name_c[c], value[c, k], a)
	}
	if (path != "") printf "<path class=\"step%s\" d=\"%sH%s\"/>\n%s", of, path, x_of(last < finish ? last : finish), marks
	y += value_height(c)
}

# From the least value to the greatest, where there is room for it.
function value_range(c,    k, low, high) {
	if (c in range_of) return range_of[c]
	for (k = 1; k <= changes[c]; k++) {
		if (value[c, k] + 0 == least[c]) low = value[c, k]
		if (value[c, k] + 0 == greatest[c]) high = value[c, k]
	}
	return range_of[c] = 6.1 * length(low ".." high) > gutter - 18 ? "" : low ".." high
}

# Who has the processor: all slices in one lane, so that idle time is seen.
function processor_lane(    i, j, k) {
	lane_of("p", "processor", 26)
	for (i = 1; i <= lanes; i++) {
		j = lane[i]
		for (k = first_s[j] + !first_s[j]; k <= slices[j] && from[j, k] < finish; k++)
			if (upto[j, k] > begin) box("slice", from[j, k], upto[j, k], y + 7, 12, "the processor has " name_j[j] " from " from[j, k] " to " upto[j, k])
	}
	if (untold < last && untold < finish) box("untold", untold, last, y + 7, 12, "a job may have the processor from " untold " on: its slice isn't told, since the run ends in it")
	if (refused_j) refused_sign(refused_j, 7)
	y += 26
}

# The slices of an invocation's jobs, when each was done, and its windows.
function job_lane(j,    k, a) {
	lane_of("j", name_j[j], lane_height)
	window_signs(j)
	for (k = first_s[j] + !first_s[j]; k <= slices[j] && from[j, k] < finish; k++) {
		if (upto[j, k] <= begin) first_s[j] = k + 1
		else box("slice", from[j, k], upto[j, k], y + 8, 12, name_j[j] " runs from " from[j, k] " to " upto[j, k])
	}
	if (j == refused_j) refused_sign(j, 8)
	window_words(j)
	for (k = first_d[j] + !first_d[j]; k <= finishes[j] && done[j, k] <= finish; k++) {
		a = done[j, k]
		if (a < begin) first_d[j] = k + 1
		if (a < begin || a == begin && begin > 0) continue
		printf "<path class=\"done\" d=\"M%s %sm-4 0h8l-4 6z\"><title>%s is done at %s</title></path>\n", x_of(a), y + 1, name_j[j], a
	}
	y += lane_height
}
