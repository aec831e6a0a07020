# Of report.awk: frames as pictures, schedules node by node, communicators, and where the numbers come from.

function print_frames(    p, line, picture) {
	print "<section><h2 id=\"frames\">Frames, each job with its worst case</h2>"
	printf "<p class=\"legend\">One for each choice of modes in which all modules stay%s.</p>\n", (choices > plans ? ": the first " plans " of " (choices < 100000 ? choices : "100000 and more") : "")
	for (p = 1; p <= plans; p++) {
		printf "<figure><figcaption>%s</figcaption>\n", (chosen_text[p] == "" ? "without modules" : chosen_text[p])
		picture = ENVIRON["room"] "/picture-" p
		while ((getline line < picture) > 0) print line
		close(picture)
		print "</figure>"
	}
	print "</section>"
}

# Schedules of more nodes than a page of paper has lines are folded, and those of very many are cut.
function print_nodes(    id, most) {
	print "<section><h2 id=\"nodes\">Schedules, node by node</h2>"
	print "<p class=\"legend\">Who has the processor, if each job takes its worst case: &#9662; the job is done, &#8230; it goes on later.</p>"
	most = made > 2000 ? 2000 : made
	if (made > 64) printf "<details><summary>%s</summary>", counted(made, "node")
	print "<div class=\"wide\"><table><thead><tr><th class=\"n\">node</th><th class=\"n\">from</th><th class=\"n\">to</th><th>modes that begin here</th><th>who has the processor</th></tr></thead><tbody>"
	for (id = 0; id < most; id++) node_row(id)
	print "</tbody></table></div>" (made > 64 ? "</details>" : "")
	if (made > most) printf "<p>The first %d of %d nodes; bin/htl show lists them all.</p>\n", most, made
	print "</section>"
}

function node_row(id,    k, word) {
	printf "<tr id=\"n-%d\"><td class=\"n\">%d</td><td class=\"n\">%d</td><td class=\"n\">%d</td><td>%s</td><td class=\"sch\">", id, id, node_start[id], node_end[id], node_modes[id]
	for (k = 1; k <= runs[id]; k++) {
		split(run[id, k], word, " ")
		printf "%s<a href=\"#i-%s\">%s</a> %d&#8211;%d%s", (k > 1 ? " &#183; " : ""), word[3], word[3], word[1], word[2], (word[4] ? "&#9662;" : "&#8230;")
	}
	print (runs[id] ? "" : "<i>idle</i>") "</td></tr>"
}

# Of each communicator who reads it and who writes it, at which instants of a round, where a source is given.
function find_ends(    i, n, word, k, end, side) {
	for (i = 1; i <= invs; i++) {
		n = split(source_inv[inv[i]], word, " ")
		for (k = 6; k <= n; k++) {
			if (word[k] !~ /:/) continue
			split(substr(word[k], 2), end, ":")
			side = substr(word[k], 1, 1)
			ends[side, end[1]] = ends[side, end[1]] (ends[side, end[1]] == "" ? "" : ", ") "<a href=\"#i-" inv[i] "\">" inv[i] "</a> at " end[2] * comm_period[end[1]]
		}
	}
}

function print_comms(    i, word) {
	if (sourced) find_ends()
	print "<section><h2 id=\"comms\">Communicators</h2>"
	printf "<div class=\"wide\"><table><thead><tr><th>kind</th><th>name</th><th>type</th><th class=\"n\">period</th><th class=\"n\">at first</th>%s</tr></thead><tbody>\n", (sourced ? "<th>written by</th><th>read by</th>" : "")
	for (i = 1; i <= comms; i++) {
		split(comm[i], word, " ")
		printf "<tr><td>%s</td><td class=\"name\">%s</td><td>%s</td><td class=\"n\">%s</td><td class=\"n\">%s</td>", (word[1] == "comm" ? "value" : "sensor"), word[2], word[3], word[5], word[7]
		if (sourced) printf "<td>%s</td><td>%s</td>", (word[1] == "sensor" ? "<i>the environment</i>" : ends[">", word[2]]), ends["<", word[2]]
		print "</tr>"
	}
	print "</tbody></table></div></section>"
}

function origin(what, from, kind) { printf "<tr><td>%s</td><td>%s</td><td>%s</td></tr>\n", what, from, kind }

function print_origins() {
	print "<section><h2 id=\"origins\">Where the numbers come from</h2>"
	print "<p>What is called proved here are clauses of the proved program that answered: what it prints is what they say of the object. This page only arranges it, and is tested and not proved. All of it holds as far as the declared worst cases do.</p>"
	print "<div class=\"wide\"><table><thead><tr><th>what</th><th>from</th><th>proved or tested</th></tr></thead><tbody>"
	origin("accepted, and how many paths", "<code>htl check</code>", "proved (clause <code>check.done</code>)")
	origin("communicators, modules, modes, worst cases, windows, lists of schedules", "<code>htl show</code>", "proved (clause <code>show.done</code>)")
	origin("can take, and what stands above that", "<code>htl slack</code>, once a task", "proved (clause <code>slack.done</code>)")
	origin("when each job of a frame runs and is done", "<code>htl plan</code>, once a choice of modes", "proved (clause <code>plan.done</code>); drawn by awk")
	origin("done by, left, and waits at most: the latest over all paths, with switches inside a frame too; the busiest path", "<code>htl times</code>, each job at its worst case", "proved (clause <code>done</code> of <code>times</code>); the schedules below have no job done later")
	if (has_parents()) origin("done by, with refinements", "an abstract job takes all that it is owed; what refines it is done by then", "a bound for every refinement: jobs may be done earlier, as in the frames above")
	origin("who has the processor, and the modes of a node", "the lists of <code>htl show</code>, each job at its worst case", "worked out by awk, tested; each frame above was compared with it, job by job" (has_parents() ? ", and is no later" : ", and is the same"))
	origin("switches", "the E code of <code>htl show</code>", "worked out by awk, tested")
	if (sourced) origin("conditions of switches, who writes and reads at which instants", "the source", "read by awk, tested; names, switches and their targets were compared with the object&#8217;s")
	print "</tbody></table></div></section>"
}

function has_parents(    name) {
	for (name in parent) return 1
	return 0
}
