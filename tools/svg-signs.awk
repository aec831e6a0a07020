# Of svg.awk: what the signs of its lanes mean.

# The signs that the picture has, below the title.
function legend(x,    c, i, of_kind, finished, any_slice, any_window, scarce, k) {
	for (i = 1; i <= lanes; i++) {
		finished += finishes[lane[i]]
		any_slice += slices[lane[i]]
		any_window += windows[lane[i]]
		for (k = 1; k <= windows[lane[i]] && !scarce; k++) scarce = is_scarce(lane[i], k)
	}
	for (c = 1; c <= items["v"]; c++) of_kind[kind[name_c[c]] == "sensor"] = 1
	x = legend_item(x, items["m"] > 0, "<rect class=\"mode h0\" x=\"%s\" y=\"30\" width=\"16\" height=\"12\"/>", "mode", 16)
	x = legend_item(x, rounds_told > 0, "<path class=\"round\" d=\"M%s 30v4m0 4v4\"/>", "round", 1)
	x = legend_item(x, frame, "<path class=\"frame\" d=\"M%s 30v12\"/>", "frame", 1)
	x = legend_item(x, of_kind[0], "<path class=\"step\" d=\"M%s 41h8v-9h8\"/>", "value", 16)
	x = legend_item(x, of_kind[1], "<path class=\"step sensed\" d=\"M%s 41h8v-9h8\"/>", "sensor", 16)
	x = legend_item(x, any_slice, "<rect class=\"slice\" x=\"%s\" y=\"30\" width=\"16\" height=\"12\"/>", "job runs", 16)
	x = legend_item(x, untold < last, "<rect class=\"untold\" x=\"%s\" y=\"30\" width=\"16\" height=\"12\"/>", "not told", 16)
	x = legend_item(x, refused_j > 0, "<rect class=\"slice refused\" x=\"%s\" y=\"30\" width=\"16\" height=\"12\"/>", "refused", 16)
	x = legend_item(x + 4, finished, "<path class=\"done\" d=\"M%s 34m-4 0h8l-4 6z\"/>", "job is done", 4)
	x = legend_item(x, any_window, "<path class=\"window\" d=\"M%s 34v5h16v-5\"/>", "window", 16)
	x = legend_item(x, missing, "<path class=\"cross\" d=\"M%s 32l8 8m0 -8l-8 8\"/>", "job never ran", 8)
	x = legend_item(x, scarce, "<path class=\"window scarce\" d=\"M%s 34v5h16v-5\"/>", "fewer ticks than the worst case", 16)
	x = legend_item(x, least_left != "", "<path class=\"left\" d=\"M%s 36h16\"/>", "ticks left in it", 16)
	legend_item(x, least_left != "", "<path class=\"ring\" d=\"M%s 36a8 6 0 1 0 16 0a8 6 0 1 0 -16 0\"/>", "the least", 16)
}

# One sign, where the run has what it stands for, and the place behind its words.
function legend_item(x, there, sign, words, width) {
	if (!there) return x
	printf sign "\n", x
	text(x + width + 4, 40, "axis", words)
	return x + width + 18 + 6.1 * length(words)
}
