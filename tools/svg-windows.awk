# Of svg.awk: the windows of jobs, how near to their ends the jobs were done, and what is wrong: a job that never ran, and the slice that
# an audit refuses.

# Below the slices a bracket from the release of each job to the end of its window.
function window_signs(j,    k, title, path, gone) {
	for (k = first_w[j] + !first_w[j]; k <= windows[j] && opens[j, k] < finish; k++) {
		if (closes[j, k] <= begin) {
			first_w[j] = k + 1
			continue
		}
		title = "window of " name_j[j] " from " opens[j, k] " to " closes[j, k]
		path = opens[j, k] < begin ? "M" x_of(begin) " " y + 28 : "M" x_of(opens[j, k]) " " y + 23 "v5"
		path = path (closes[j, k] > finish ? "H" x_of(finish) : "H" x_of(closes[j, k]) "v-5")
		gone = is_missing(j, k)
		if ((j, k) in ready) title = title "; " how_near(j, k)
		if (gone) title = title "; its job never ran"
		if (is_scarce(j, k)) title = title "; its job has " used[j, k] + 0 " of at most " worst[name_j[j]] " ticks"
		printf "<path class=\"window%s\" d=\"%s\"><title>%s</title></path>\n", (gone ? " gone" : is_scarce(j, k) ? " scarce" : ""), path, escaped(title)
	}
}

# Over the slices: from where a job was done to the end of its window a line with the ticks between, and a cross where one never ran.
function window_words(j,    k) {
	free = 0
	for (k = first_w[j] + !first_w[j]; k <= windows[j] && opens[j, k] < finish; k++) {
		if ((j, k) in ready) left_sign(j, k, ready[j, k], closes[j, k])
		if (is_missing(j, k)) gone_sign(opens[j, k], closes[j, k], j == refused_j && refused_from < closes[j, k] && refused_upto > opens[j, k])
		else if (is_scarce(j, k) && closes[j, k] <= finish) label(x_of(opens[j, k] < begin ? begin : opens[j, k]) + 3, y + 19, "fault", used[j, k] + 0 " of " worst[name_j[j]], 1000)
	}
}

# The time from where a job was done to the end of its window, with its ticks in the row in which it ends; 0 and the least stand out.
function left_sign(j, k, a, b,    x, words, is_least) {
	if (a >= finish && a != b || b < begin || b <= begin && a != b || a == b && (a > finish || a <= begin)) return
	words = b - a ""
	is_least = j == least_of && k == least_at
	x = x_of(b > finish ? finish : b)
	if (b <= finish && (a == b || x - x_of(a < begin ? begin : a) > 6.1 * length(words) + 8)) {
		if (is_least) ring(x - 6.1 * length(words) / 2 - 2, y + 14.5, 3.3 * length(words) + 4)
		text(x - 6.1 * length(words) - 2, y + 18, a == b ? "fault" : is_least ? "axis least" : "axis", words)
		x -= 6.1 * length(words) + 5 + 3 * is_least
	} else if (b <= finish && is_least) ring(x, y + 14.5, 6)
	if (x > x_of(a < begin ? begin : a)) printf "<path class=\"left\" d=\"M%s %sH%s\"/>\n", x_of(a < begin ? begin : a), y + 14, x
}

function ring(x, y, width) { printf "<ellipse class=\"ring\" cx=\"%s\" cy=\"%s\" rx=\"%s\" ry=\"7\"/>\n", sprintf("%.2f", x) + 0, y, sprintf("%.2f", width) + 0 }

function cross(x, y, half) { printf "<path class=\"cross\" d=\"M%s %sl%s %sm0 -%sl-%s %s\"/>\n", x - half, y - half, 2 * half, 2 * half, 2 * half, 2 * half, 2 * half }

# In the middle of the window of a job that never ran a cross, and words where there is room; at its end where a refused slice is in the way.
function gone_sign(a, b, in_way,    x, wide) {
	if (b > finish) return
	x = x_of(a < begin ? begin : a)
	wide = x_of(b) - x
	x += in_way && wide >= 84 ? wide - 42 : wide / 2
	if (wide < 84) cross(sprintf("%.2f", x) + 0, y + 14, 4)
	else {
		cross(sprintf("%.2f", x - 32) + 0, y + 14, 4)
		text(sprintf("%.2f", x - 24) + 0, y + 18, "fault", "never ran")
	}
}

# The refused slice: pale, within a dashed line, and crossed out; at the right of the picture where it lies behind the run's end.
function refused_sign(j, down,    x) {
	if (refused_from >= last && last > 0) {
		if (finish < last) return
		cross(right + 12, y + down + 6, 4)
		printf "<text x=\"%s\" y=\"%s\" class=\"fault\"><title>%s</title>&#8594;</text>\n", right + 1, y + down + 10, escaped("refused: " name_j[j] " from " refused_from " to " refused_upto ", behind the end of the run")
		return
	}
	if (refused_from >= finish && finish < last || refused_upto <= begin && begin > 0) return
	box("slice refused", refused_from, refused_upto, y + down, 12, "refused: " name_j[j] " runs from " refused_from " to " refused_upto)
	x = sprintf("%.2f", box_x + box_width / 2) + 0
	cross(x, y + down + 6, 4)
}

# Where in its window the job k of an invocation was done, in words.
function how_near(j, k,    ticks) {
	ticks = closes[j, k] - ready[j, k]
	if (ticks == 0) return "done at " ready[j, k] ", when its window ends"
	return "done at " ready[j, k] ", " (ticks > 0 ? ticks : -ticks) (ticks * ticks == 1 ? " tick" : " ticks") (ticks > 0 ? " before" : " after") " the end of its window at " closes[j, k]
}
