# Of report.awk: the head of the page with the verdict, and each job's times as a bar on its round.

function print_head(    line, title) {
	title = escaped(ENVIRON["title"])
	print "<!DOCTYPE html>"
	print "<html lang=\"en\" xmlns=\"http://www.w3.org/1999/xhtml\"><head><meta charset=\"utf-8\"/><meta name=\"viewport\" content=\"width=device-width\"/><title>" title "</title>"
	style()
	print "<style>"
	while ((getline line < (ENVIRON["tools"] "/report.css")) > 0) print line
	print "</style></head><body><main><h1>" title "</h1>"
	printf "<p class=\"sum\"><b>Accepted.</b> Every job keeps its window in every run in which no job takes longer than its worst case"
	printf "%s.", (platform == "" ? "" : ", with the worst cases for the platform " escaped(platform))
	if (roots) printf " %s of %s through a frame of %s. The busiest path asks for %d of %s (%.0f %%).", counted(paths, "path"), counted(starts, "start"), counted(frame, "tick"), busiest, counted(frame, "tick"), 100 * busiest / frame
	print "</p>"
	print "<nav><a href=\"#times\">Times and slack</a> <a href=\"#modules\">Modules and modes</a> <a href=\"#frames\">Frames</a> <a href=\"#nodes\">Schedules</a> <a href=\"#comms\">Communicators</a> <a href=\"#origins\">Where the numbers come from</a></nav>"
}

function print_times(    i) {
	print "<section><h2 id=\"times\">Times and slack</h2>"
	if (!invs) {
		print "<p>No task is invoked.</p></section>"
		return
	}
	printf "<p class=\"legend\">%s worst case &#160; %s waits at most &#160; %s ticks left &#160; %s window, on a round</p>\n", sign(18, "<rect class=\"cost\" x=\"1\" y=\"2\" width=\"16\" height=\"9\"/>"), sign(18, "<rect class=\"resp\" x=\"1\" y=\"2\" width=\"16\" height=\"9\"/>"), sign(22, "<path class=\"slackline\" d=\"M1 7H21\"/>"), sign(22, "<path class=\"win\" d=\"M1 6v5H20v-5\"/>")
	print "<div class=\"wide\"><table><thead><tr><th>job</th><th>in a round</th><th class=\"n\">worst case</th><th class=\"n\">window</th><th class=\"n\">done by</th><th class=\"n\">left</th><th class=\"n\">can take</th><th>what stands above that</th></tr></thead><tbody>"
	for (i = 1; i <= invs; i++) time_row(inv[i])
	print "</tbody></table></div>"
	print "<p class=\"legend\">A row is bold where the job may have no more than a tenth of its window left. Ticks are counted from the start of a round.</p></section>"
}

function sign(width, drawn) { return "<svg class=\"chart\" width=\"" width "\" height=\"13\" aria-hidden=\"true\">" drawn "</svg>" }

function time_row(name,    by, task_name) {
	by = done_by(name)
	task_name = module_of(name) "." last_of(name)
	printf "<tr id=\"i-%s\"%s><td class=\"name\"><a href=\"#m-%s\">%s</a>%s</td><td>", name, (by != "" && window_end[name] - by <= 0.1 * (window_end[name] - release[name]) ? " class=\"near\"" : ""), mode_of(name), name, kind_of(name)
	bar(name, by)
	printf "</td><td class=\"n\">%s</td><td class=\"n\">%s&#8211;%s</td><td class=\"n\">%s</td><td class=\"n\">%s</td>", worst[name], release[name], window_end[name], by, (by == "" ? "" : window_end[name] - by)
	if (name in parent) printf "<td class=\"n\">%s</td><td class=\"why\">what <a href=\"#i-%s\">%s</a> is owed</td></tr>\n", worst[parent[name]], parent[name], parent[name]
	else printf "<td class=\"n\">%s</td><td class=\"why\">%s</td></tr>\n", can_take[task_name], above[task_name]
}

function kind_of(name) {
	if (name in parent) return " <i>in " parent[name] "</i>"
	return is_abstract[name] ? " <i>abstract</i>" : ""
}

function bar(name, by,    scale, from, cost) {
	scale = 300 / period_of[module_of(name)]
	from = release[name] * scale + 2
	printf "<svg class=\"chart\" role=\"img\" aria-label=\"window %s to %s%s\" viewBox=\"0 0 304 20\" width=\"304\" height=\"20\">", release[name], window_end[name], (by == "" ? "" : ", done by " by)
	printf "<path class=\"win\" d=\"M%.1f 12v5H%.1fv-5\"/>", from, window_end[name] * scale + 2
	if (by != "") {
		cost = worst[name] > by - release[name] ? by - release[name] : worst[name]
		printf "<rect class=\"resp\" x=\"%.1f\" y=\"3\" width=\"%.1f\" height=\"9\"/>", from, (by - release[name]) * scale
		printf "<rect class=\"cost\" x=\"%.1f\" y=\"3\" width=\"%.1f\" height=\"9\"/>", (by - cost) * scale + 2, cost * scale
		if (window_end[name] > by) printf "<path class=\"slackline\" d=\"M%.1f 7.5H%.1f\"/>", by * scale + 3, window_end[name] * scale + 2
	}
	printf "</svg>"
}
