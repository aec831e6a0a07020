# Behind lines.awk, refused.awk, windows.awk and rounds.awk, with the other files svg-*.awk: a timeline of the run as SVG. A long run is cut
# into rows by time, each of which has every lane: modules, communicators, the processor, invocations. Where `bare` is set, the picture
# stands in a page that has its style.

function escaped(text) {
	gsub(/&/, "\\&amp;", text)
	gsub(/</, "\\&lt;", text)
	gsub(/>/, "\\&gt;", text)
	gsub(/"/, "\\&quot;", text)
	return text
}

# The least of 1, 2, 5, 10, 20 .. that isn't below a number.
function nice(number,    power) {
	for (power = 1; power * 10 <= number; power *= 10) continue
	return number <= power ? power : number <= 2 * power ? 2 * power : number <= 5 * power ? 5 * power : 10 * power
}

function x_of(time) { return sprintf("%.2f", gutter + (time - begin) * scale) + 0 }

function text(x, y, class, content) { printf "<text x=\"%s\" y=\"%s\" class=\"%s\">%s</text>\n", x, y, class, escaped(content) }

# A box from one instant to another, which is cut at the ends of the row and is seen however short the time is. Sets box_x and box_width.
function box(class, a, b, y, height, title) {
	box_x = x_of(a < begin ? begin : a)
	box_width = sprintf("%.2f", x_of(b > finish ? finish : b) - box_x) + 0
	if (box_width < 1.5) box_width = 1.5
	if (box_x + box_width > right) box_x = right - box_width
	printf "<rect class=\"%s\" x=\"%s\" y=\"%s\" width=\"%s\" height=\"%s\"><title>%s</title></rect>\n", class, box_x, y, box_width, height, escaped(title)
}

# Skips the label where the one before it reaches so far; one that would leave the picture stands before its place, where
# there is room. Sets `free`, where labels end.
function label(x, height, class, content, room,    wide) {
	wide = 6.1 * length(content)
	if (x + wide > right + 16) x = right + 16 - wide
	if (x < free || wide > room) return
	text(x, height, class, content)
	free = x + wide + 5
}

function counted(number, word) { return number " " word (number == 1 ? "" : "s") }

# What the picture is of.
function in_words(    w) {
	split(totals, w, " ")
	if (w[1] == "end") return "Run of " counted(w[2], "tick") ": " counted(w[4], "job") " done, " w[6] " E and " w[8] " S instructions"
	if (w[1] == "plan") return "A frame of " counted(w[2], "tick") ", each job with its worst case: " counted(w[4], "job")
	if (w[1] == "audited") return "Audited log of a run of " counted(w[2], "tick") ", legal: " counted(w[4], "job") " in " counted(w[6], "slice")
	return (refused ? "Audited log, refused: lines of a run up to " last : "Lines of a run up to " last ", without its totals")
}

# What is said in words below the title.
function remarks() {
	if (refused) say_refused()
	if (rows > 1) remark[++remarked] = "cut by time into " rows " rows of at most " span " ticks" row_is
	if (least_left != "") remark[++remarked] = "least ticks left: " name_shown("j", name_j[least_of]) ", " how_near(least_of, least_at)
	if (items["v"] && last && at[1, 1] == last) remark[++remarked] = "these lines tell the last values of the run alone, as bulk does"
	if (missing && !refused) remark[++remarked] = counted(missing, "job") " never ran, though the window ended"
	if (outside && !refused) remark[++remarked] = "slices outside the windows of the listing: " outside "; it may be of another object"
	if (behind_end) remark[++remarked] = counted(behind_end, "slice") " behind the end of the run at " last (behind_end == 1 ? " isn't" : " aren't") " drawn there"
	if (all_windows > 200000) remark[++remarked] = "windows behind the first 200000 aren't drawn"
}

function say_refused() {
	remark[++remarked] = "refused by the audit: line " refused " of the log" (refused_text == "" ? "" : ", " refused_text) ", " refused_for
	is_fault[remarked] = 1
	remark[++remarked] = why_refused()
	if (refused_for == "short" && missing) remark[remarked] = remark[remarked] "; of " missing " no tick is in the log"
	if (refused_for == "short" && !missing) remark[remarked] = remark[remarked] "; which one, bin/htl --explain audit tells"
	if (undrawn) remark[++remarked] = counted(undrawn, "line") " of the log can't be drawn as slices of one processor"
}

# A name, what it is of, and all that is said, for who can't see the picture.
function description(    i) {
	printf "<title>%s</title>\n<desc>", escaped(in_words())
	printf "%s, %s, %s, over time.", counted(items["m"] + 0, "module"), counted(items["v"] + 0, "value"), counted(lanes + 0, "invocation")
	for (i = 1; i <= remarked; i++) printf " %s.", escaped(remark[i])
	print "</desc>"
}

# Pictures that are still too high are drawn smaller: some viewers take no more than 32767 points.
function open_picture(width, height,    shrink) {
	shrink = height > 32000 ? 32000 / height : 1
	printf "<svg%s class=\"run\" role=\"img\" viewBox=\"0 0 %s %s\" width=\"%s\" height=\"%s\">\n", (bare ? "" : " xmlns=\"http://www.w3.org/2000/svg\""), width, height, sprintf("%.2f", width * shrink) + 0, sprintf("%.2f", height * shrink) + 0
	description()
	if (bare) return
	style()
	print "<rect class=\"back\" width=\"100%\" height=\"100%\"/>"
}

function one_row(    m, c, i) {
	begin = row * span
	finish = begin + span < last || rows == 1 && last == 0 ? begin + span : last
	axis(height)
	for (m = 1; m <= items["m"]; m++) mode_lane(m)
	for (c = 1; c <= items["v"]; c++) value_lane(c)
	if (lanes) processor_lane()
	for (i = 1; i <= lanes; i++) job_lane(lane[i])
	y += 18
}

END {
	name_lanes()
	lane_height = listed ? 36 : 26
	height = (lanes ? 26 : 0) + 24 * items["m"] + lane_height * lanes
	for (c = 1; c <= items["v"]; c++) height += value_height(c)
	divide()
	right = gutter + row_width
	remarks()
	y = 52 + 16 * remarked
	open_picture(right + 24, y + rows * (height + 38))
	text(8, 22, "title", in_words())
	legend(8)
	for (i = 1; i <= remarked; i++) {
		if (i in is_fault) cross(14, 52 + 16 * i - 16, 4)
		text(i in is_fault ? 24 : 8, 56 + 16 * i - 16, i in is_fault ? "fault" : "axis", remark[i])
	}
	for (row = 0; row < rows; row++) one_row()
	print "</svg>"
}
